//! PNG pictures through libpng and checksums through zlib, by the C calls of `shim.h`, as safe calls.
//!
//! A pixel is alpha << 24 | red << 16 | green << 8 | blue, which has its bytes in libpng's order only if the lowest is first.

#[cfg(not(target_endian = "little"))]
compile_error!("pixels are lent to libpng as they are in memory: the lowest byte first");

mod raw;

use std::marker::PhantomData;

/// Rows between two tellings of how far the work is.
const STRETCH: u32 = 64;

/// The size and form of a picture in a file.
#[derive(Clone, Copy, Debug, PartialEq, Eq)]
pub struct Header {
    pub width: u32,
    pub height: u32,
    /// Bits a channel; of a palette picture, bits an index.
    pub bits: u32,
    pub interlaced: bool,
    /// Shades of grey alone; no palette.
    pub grey: bool,
}

/// A chunk that the pixels do not depend on, as it is.
#[derive(Clone, Debug, PartialEq, Eq)]
pub struct Chunk {
    pub name: [u8; 4],
    pub data: Vec<u8>,
    /// Whether it stands behind the image data.
    pub behind: bool,
}

/// A file whose header is read and whose pixels are not yet.
#[derive(Debug)]
pub struct Reader<'a> {
    raw: *mut raw::Reader,
    header: raw::Header,
    /// libpng reads on in the file's bytes.
    bytes: PhantomData<&'a [u8]>,
}

impl<'a> Reader<'a> {
    /// Reads all that stands before the image data; of the pixels nothing is allocated yet.
    pub fn open(bytes: &'a [u8]) -> Result<Reader<'a>, String> {
        let (mut header, mut words) = (raw::Header::default(), Words::new());
        // SAFETY: the bytes are lent with their length and stay borrowed as long as the reader is there; the header and the
        // room for words are written within the call only.
        let raw = unsafe { raw::png_shim_open(bytes.as_ptr(), bytes.len(), &mut header, words.room()) };
        if raw.is_null() {
            return Err(words.text());
        }
        Ok(Reader { raw, header, bytes: PhantomData })
    }

    pub fn header(&self) -> Header {
        let raw::Header { width, height, bits, passes, grey } = self.header;
        Header { width, height, bits, interlaced: passes > 1, grey: grey != 0 }
    }

    /// Decodes all pixels and gives the chunks that they do not depend on, in their order. `tell` hears how many rows are done of how many.
    pub fn read(self, pixels: &mut [u32], tell: &mut dyn FnMut(usize, usize)) -> Result<Vec<Chunk>, String> {
        let mut words = Words::new();
        let (to, length) = (pixels.as_mut_ptr().cast::<u8>(), std::mem::size_of_val(pixels));
        let total = self.header.height as u64 * self.header.passes as u64;
        let mut done = 0;
        while done < total {
            let rows = u64::from(STRETCH).min(total - done);
            // SAFETY: the reader is open; the pixels are borrowed exclusively and lent with their length in bytes, which the call
            // compares with the picture's. Any bytes make a pixel.
            if unsafe { raw::png_shim_read_rows(self.raw, to, length, rows as u32, words.room()) } == 0 {
                return Err(words.text());
            }
            done += rows;
            tell(done as usize, total as usize);
        }
        // SAFETY: as above.
        if unsafe { raw::png_shim_read_end(self.raw, to, length, words.room()) } == 0 {
            return Err(words.text());
        }
        Ok(self.chunks())
    }

    fn chunks(&self) -> Vec<Chunk> {
        let mut chunks = Vec::new();
        let mut raw = raw::Chunk::default();
        // SAFETY: the reader is open, and the chunk is written within the call only.
        while unsafe { raw::png_shim_chunk(self.raw, chunks.len(), &mut raw) } != 0 {
            let data = if raw.length == 0 {
                Vec::new()
            } else {
                // SAFETY: the data belong to the reader, which is open, and are as long as it says; they are copied at once.
                unsafe { std::slice::from_raw_parts(raw.data, raw.length) }.to_vec()
            };
            chunks.push(Chunk { name: raw.name, data, behind: raw.behind != 0 });
        }
        chunks
    }
}

impl Drop for Reader<'_> {
    fn drop(&mut self) {
        // SAFETY: it is open, and nobody uses it behind this.
        unsafe { raw::png_shim_close(self.raw) }
    }
}

/// The bytes of a file: RGBA, 8 bits a channel, not interlaced, with these chunks in their order. `tell` as for reading.
pub fn write(
    width: u32,
    pixels: &[u32],
    chunks: &[Chunk],
    tell: &mut dyn FnMut(usize, usize),
) -> Result<Vec<u8>, String> {
    if width == 0 || pixels.len() % width as usize != 0 {
        return Err("the pixels are not whole rows".to_string());
    }
    let rows = pixels.len() / width as usize;
    let height = u32::try_from(rows).map_err(|_| "there are too many rows".to_string())?;
    let mut writer = Writer::create(width, height)?;
    for chunk in chunks.iter().filter(|chunk| !chunk.behind) {
        writer.chunk(chunk)?;
    }
    let mut done = 0;
    for stretch in pixels.chunks(width as usize * STRETCH as usize) {
        let now = stretch.len() / width as usize;
        writer.rows(stretch, now as u32)?;
        done += now;
        tell(done, rows);
    }
    for chunk in chunks.iter().filter(|chunk| chunk.behind) {
        writer.chunk(chunk)?;
    }
    writer.end()
}

/// A file under way.
struct Writer {
    raw: *mut raw::Writer,
    width: u32,
    words: Words,
}

impl Writer {
    fn create(width: u32, height: u32) -> Result<Writer, String> {
        let mut words = Words::new();
        // SAFETY: the room for words is written within the call only.
        let raw = unsafe { raw::png_shim_create(width, height, words.room()) };
        if raw.is_null() {
            return Err(words.text());
        }
        Ok(Writer { raw, width, words })
    }

    fn chunk(&mut self, chunk: &Chunk) -> Result<(), String> {
        let (name, data) = (chunk.name.as_ptr(), &chunk.data);
        // SAFETY: the writer is open; the name has four bytes and the data are lent with their length.
        let went =
            unsafe { raw::png_shim_write_chunk(self.raw, name, data.as_ptr(), data.len(), self.words.room()) } != 0;
        self.answer(went)
    }

    fn rows(&mut self, pixels: &[u32], rows: u32) -> Result<(), String> {
        assert_eq!(pixels.len(), self.width as usize * rows as usize);
        // SAFETY: the writer is open, and the pixels are as many as the rows have.
        let went = unsafe { raw::png_shim_write_rows(self.raw, pixels.as_ptr().cast(), rows, self.words.room()) } != 0;
        self.answer(went)
    }

    fn end(mut self) -> Result<Vec<u8>, String> {
        // SAFETY: the writer is open.
        let went = unsafe { raw::png_shim_write_end(self.raw, self.words.room()) } != 0;
        self.answer(went)?;
        let mut length = 0;
        // SAFETY: the writer is open, and the length is written within the call only.
        let written = unsafe { raw::png_shim_written(self.raw, &mut length) };
        // SAFETY: a whole file has bytes; they belong to the writer and are copied while it is open.
        Ok(unsafe { std::slice::from_raw_parts(written, length) }.to_vec())
    }

    fn answer(&self, went: bool) -> Result<(), String> {
        if went {
            Ok(())
        } else {
            Err(self.words.text())
        }
    }
}

impl Drop for Writer {
    fn drop(&mut self) {
        // SAFETY: it is open, and nobody uses it behind this.
        unsafe { raw::png_shim_destroy(self.raw) }
    }
}

/// Room for the words of an error.
struct Words([u8; raw::WORDS]);

impl Words {
    fn new() -> Words {
        Words([0; raw::WORDS])
    }

    fn room(&mut self) -> *mut std::ffi::c_char {
        self.0.as_mut_ptr().cast()
    }

    fn text(&self) -> String {
        let end = self.0.iter().position(|&byte| byte == 0).unwrap_or(self.0.len());
        String::from_utf8_lossy(&self.0[..end]).into_owned()
    }
}

/// The CRC-32 of these bytes.
pub fn crc(bytes: &[u8]) -> u32 {
    // SAFETY: the bytes are lent with their length.
    unsafe { raw::png_shim_crc(0, bytes.as_ptr(), bytes.len()) }
}

/// The CRC-32 of the pixels' bytes, the lowest of each first.
pub fn crc_of_pixels(pixels: &[u32]) -> u32 {
    // SAFETY: as for `crc`; the length is in bytes.
    unsafe { raw::png_shim_crc(0, pixels.as_ptr().cast(), std::mem::size_of_val(pixels)) }
}
