//! PNG sheets, by libpng: all forms of up to 8 bits a channel are read; RGBA is written. What a file says beside its
//! pixels is kept where it stays true.

use png_shim::{Chunk, Reader};

use crate::bytes::u32_big_at;
use crate::library::Surface;
use crate::progress::Progress;
use crate::sheet::{check_sides, Extras, Resolution, Sheet};

const SIGNATURE: &[u8; 8] = b"\x89PNG\r\n\x1a\n";
/// pHYs counts in metres; 0 there gives the pixels' shape only.
const METRE: u8 = 1;
/// How the colours are meant. This stays true: plays do not look at it.
const COLOURS: [&[u8; 4]; 5] = [b"gAMA", b"cHRM", b"sRGB", b"iCCP", b"cICP"];
/// When the old file was changed, how it stored its pixels, and what may be shown behind them: none of it is missed.
const OLD_FORM: [&[u8; 4]; 5] = [b"tIME", b"sBIT", b"hIST", b"sPLT", b"bKGD"];

pub fn read(bytes: &[u8], work: &str, progress: &mut Progress) -> Result<Sheet, String> {
    if !bytes.starts_with(SIGNATURE) {
        return Err("this is no PNG file: it does not begin as one".to_string());
    }
    let damaged = |words| format!("the PNG file is damaged: {words}");
    let reader = Reader::open(bytes).map_err(damaged)?;
    let header = reader.header();
    check_sides(header.width.into(), header.height.into())?;
    if header.bits > 8 {
        return Err(format!(
            "the PNG file has {} bits a channel; only up to 8 are read: the colour is the measurement and would be rounded",
            header.bits
        ));
    }
    let mut pixels = vec![0; header.width as usize * header.height as usize];
    let chunks = reader.read(&mut pixels, &mut |done, total| progress.tell(work, done, total)).map_err(damaged)?;
    check_chunks(&chunks).map_err(damaged)?;
    let surface = Surface { width: header.width, height: header.height, pixels };
    Ok(Sheet { surface, deep: false, extras: extras(chunks, header.grey) })
}

/// The bytes of a file. The same sheet gives the same bytes.
pub fn write(sheet: &Sheet, work: &str, progress: &mut Progress) -> Result<Vec<u8>, String> {
    let mut chunks: Vec<Chunk> = sheet.extras.resolution.map(resolution_chunk).into_iter().collect();
    chunks.extend_from_slice(&sheet.extras.chunks);
    let surface = &sheet.surface;
    png_shim::write(surface.width, &surface.pixels, &chunks, &mut |done, total| progress.tell(work, done, total))
}

/// How long a chunk is that stands once and before the pixels, where its length is fixed. None for texts.
fn single(name: &[u8; 4]) -> Option<Option<usize>> {
    match name {
        b"gAMA" => Some(Some(4)),
        b"cHRM" => Some(Some(32)),
        b"cICP" => Some(Some(4)),
        b"sRGB" => Some(Some(1)),
        b"pHYs" => Some(Some(9)),
        b"iCCP" => Some(None),
        _ => None,
    }
}

/// The library hands these chunks over as they are; one that is out of order is not carried on.
fn check_chunks(chunks: &[Chunk]) -> Result<(), String> {
    for (at, chunk) in chunks.iter().enumerate() {
        let Some(length) = single(&chunk.name) else { continue };
        let name = String::from_utf8_lossy(&chunk.name);
        if length.is_some_and(|length| length != chunk.data.len()) {
            return Err(format!("{name}: it has {} bytes", chunk.data.len()));
        }
        if chunk.behind {
            return Err(format!("{name}: it stands behind the pixels"));
        }
        if chunks[..at].iter().any(|other| other.name == chunk.name) {
            return Err(format!("{name}: there are two"));
        }
    }
    Ok(())
}

/// Whether a chunk is carried on. PNG calls those safe to copy where pixels have changed whose last letter is small. A
/// profile of grey pixels does not fit the colours that are written.
fn is_carried(chunk: &Chunk, grey: bool) -> bool {
    let fits = !(grey && chunk.name == *b"iCCP");
    fits && (COLOURS.contains(&&chunk.name) || chunk.name[3].is_ascii_lowercase())
}

/// Takes the resolution out of the chunks, if it is one that BMP files can say, too.
fn extras(chunks: Vec<Chunk>, grey: bool) -> Extras {
    let resolution = chunks.iter().find_map(resolution);
    let (mut carried, others): (Vec<Chunk>, Vec<Chunk>) = chunks.into_iter().partition(|chunk| is_carried(chunk, grey));
    if resolution.is_some() {
        carried.retain(|chunk| chunk.name != *b"pHYs");
    }
    let missed = others.iter().filter(|chunk| !OLD_FORM.contains(&&chunk.name));
    let dropped = missed.map(|chunk| meaning(&chunk.name)).collect();
    Extras { resolution, chunks: carried, dropped }
}

fn resolution(chunk: &Chunk) -> Option<Resolution> {
    if chunk.name != *b"pHYs" || chunk.data.get(8) != Some(&METRE) {
        return None;
    }
    Resolution::new(u32_big_at(&chunk.data, 0)?, u32_big_at(&chunk.data, 4)?)
}

fn resolution_chunk(resolution: Resolution) -> Chunk {
    let mut data = [resolution.across.to_be_bytes(), resolution.down.to_be_bytes()].concat();
    data.push(METRE);
    Chunk { name: *b"pHYs", data, behind: false }
}

/// What a kept chunk says, in words.
pub fn meaning(name: &[u8; 4]) -> String {
    let meaning = match name {
        b"gAMA" => "the gamma",
        b"cHRM" => "the primaries",
        b"sRGB" => "the sRGB mark",
        b"iCCP" => "the colour profile",
        b"cICP" => "the colours' code points",
        b"pHYs" => "the pixels' shape",
        b"eXIf" => "the Exif data",
        b"tEXt" | b"zTXt" | b"iTXt" => return "texts (tEXt, zTXt, iTXt)".to_string(),
        _ => return format!("chunk {}", String::from_utf8_lossy(name)),
    };
    format!("{meaning} ({})", String::from_utf8_lossy(name))
}

#[cfg(test)]
mod tests {
    use super::*;
    use crate::sheet::pixel;
    use crate::{bmp, crc};

    const WIDTH: u32 = 61;
    const HEIGHT: u32 = 37;

    fn load(bytes: &[u8]) -> Result<Sheet, String> {
        read(bytes, "", &mut Progress::quiet())
    }

    fn save(sheet: &Sheet) -> Vec<u8> {
        write(sheet, "", &mut Progress::quiet()).unwrap()
    }

    // The rules of tests/fixtures/make_fixtures.py.
    fn red(x: u32, y: u32) -> u8 {
        (x * 4 + y) as u8
    }
    fn green(x: u32, y: u32) -> u8 {
        (x * y) as u8
    }
    fn blue(x: u32, y: u32) -> u8 {
        ((x ^ y) * 5) as u8
    }
    fn alpha(x: u32, y: u32) -> u8 {
        255u32.wrapping_sub(x * 3 + y) as u8
    }
    fn grey(x: u32, y: u32) -> u8 {
        (x * x * 3 + y * y * 5 + x * y) as u8
    }
    fn index(x: u32, y: u32) -> u32 {
        (x * x + y) % 50
    }
    fn rgb(x: u32, y: u32) -> u32 {
        pixel(255, red(x, y), green(x, y), blue(x, y))
    }
    fn rgba(x: u32, y: u32) -> u32 {
        pixel(alpha(x, y), red(x, y), green(x, y), blue(x, y))
    }
    fn shade(alpha: u8, grey: u8) -> u32 {
        pixel(alpha, grey, grey, grey)
    }
    fn entry(alpha: u8, i: u32) -> u32 {
        pixel(alpha, (i * 5) as u8, (255 - i * 4) as u8, (i * i) as u8)
    }

    fn same(bytes: &[u8], rule: impl Fn(u32, u32) -> u32) {
        let sheet = load(bytes).unwrap();
        assert_eq!((sheet.surface.width, sheet.surface.height), (WIDTH, HEIGHT));
        for (at, &pixel) in sheet.surface.pixels.iter().enumerate() {
            let (x, y) = (at as u32 % WIDTH, at as u32 / WIDTH);
            assert_eq!(pixel, rule(x, y), "{x}, {y}");
        }
        // What was read comes back from the tool's own writing, which is the same the second time.
        let saved = save(&sheet);
        let back = load(&saved).unwrap();
        assert_eq!((&back.surface, &back.extras), (&sheet.surface, &sheet.extras));
        assert_eq!(save(&back), saved);
    }

    macro_rules! fixture {
        ($name:literal) => {
            include_bytes!(concat!("../tests/fixtures/", $name, ".png"))
        };
    }

    #[test]
    fn each_filter() {
        same(fixture!("rgb-none"), rgb);
        same(fixture!("rgb-sub"), rgb);
        same(fixture!("rgb-up"), rgb);
        same(fixture!("rgb-average"), rgb);
        same(fixture!("rgb-paeth"), rgb);
    }

    #[test]
    fn each_colour_type() {
        same(fixture!("grey-all"), |x, y| shade(255, grey(x, y)));
        same(fixture!("palette-all"), |x, y| entry(255, index(x, y)));
        same(fixture!("grey-alpha-all"), |x, y| shade(alpha(x, y), grey(x, y)));
        same(fixture!("rgba-all"), rgba);
    }

    #[test]
    fn each_kind_of_block() {
        same(fixture!("rgba-fixed"), rgba);
        same(fixture!("rgba-stored"), rgba);
        same(fixture!("rgba-flushed"), rgba);
    }

    #[test]
    fn clear_colours() {
        same(fixture!("palette-clear"), |x, y| {
            let i = index(x, y);
            entry(if i < 20 { 255 - i as u8 * 5 } else { 255 }, i)
        });
        same(fixture!("grey-clear"), |x, y| {
            let grey_here = grey(x, y);
            shade(if grey_here == grey(7, 7) { 0 } else { 255 }, grey_here)
        });
        same(fixture!("rgb-clear"), |x, y| match rgb(x, y) {
            clear if clear == rgb(9, 5) => clear & 0x00FF_FFFF,
            other => other,
        });
    }

    #[test]
    fn few_bits() {
        let few =
            |bits: u32| move |x, y| shade(255, ((grey(x, y) >> (8 - bits)) as u32 * 255 / ((1 << bits) - 1)) as u8);
        same(fixture!("grey-1"), few(1));
        same(fixture!("grey-2"), few(2));
        same(fixture!("grey-4"), few(4));
        let named = |bits: u32| {
            move |x, y| match index(x, y) % (1 << bits) {
                0 => entry(9, 0),
                other => entry(255, other),
            }
        };
        same(fixture!("palette-1"), named(1));
        same(fixture!("palette-2"), named(2));
        same(fixture!("palette-4"), named(4));
        same(fixture!("grey-1-interlaced"), few(1));
        same(fixture!("grey-2-interlaced"), few(2));
        same(fixture!("grey-4-interlaced"), few(4));
        same(fixture!("palette-2-interlaced"), |x, y| entry(255, index(x, y) % 4));
    }

    #[test]
    fn interlaced() {
        same(fixture!("rgb-interlaced"), rgb);
        same(fixture!("rgba-interlaced"), rgba);
        same(fixture!("palette-interlaced"), |x, y| {
            let i = index(x, y);
            entry(if i < 20 { 255 - i as u8 * 5 } else { 255 }, i)
        });
    }

    #[test]
    fn more_bits_are_refused() {
        for bytes in [&fixture!("rgb-16")[..], fixture!("grey-16")] {
            let words = load(bytes).err().unwrap();
            assert!(
                words.starts_with("the PNG file has 16 bits a channel; only up to 8 are read: the colour"),
                "{words}"
            );
        }
    }

    /// All chunks of a file: name, data and whether IDAT came before.
    fn chunks_of(bytes: &[u8]) -> Vec<Chunk> {
        let (mut at, mut behind, mut chunks) = (SIGNATURE.len(), false, Vec::new());
        while at < bytes.len() {
            let length = u32_big_at(bytes, at).unwrap() as usize;
            let name = bytes[at + 4..at + 8].try_into().unwrap();
            behind |= &name == b"IDAT";
            chunks.push(Chunk { name, data: bytes[at + 8..at + 8 + length].to_vec(), behind });
            at += length + 12;
        }
        chunks
    }

    /// Each kept chunk is in the file that is written, as it was and in its order; the others are not.
    #[test]
    fn what_is_said_beside_the_pixels_is_kept() {
        let names = [b"gAMA", b"cHRM", b"sRGB", b"iCCP", b"cICP", b"pHYs", b"tEXt", b"zTXt", b"iTXt", b"eXIf", b"prVt"];
        let mut seen = Vec::new();
        for bytes in [&fixture!("metadata-srgb")[..], fixture!("metadata-icc")] {
            let is_kept = |chunk: &Chunk| names.contains(&&chunk.name);
            let mut before: Vec<Chunk> = chunks_of(bytes).into_iter().filter(is_kept).collect();
            let after: Vec<Chunk> = chunks_of(&save(&load(bytes).unwrap())).into_iter().filter(is_kept).collect();
            // The resolution goes to the front, because BMP files have it as well.
            before.sort_by_key(|chunk| chunk.name != *b"pHYs");
            assert_eq!(before, after);
            seen.extend(after.iter().map(|chunk| chunk.name));
        }
        assert!(names.iter().all(|name| seen.contains(name)));
        let sheet = load(fixture!("metadata-srgb")).unwrap();
        assert_eq!(sheet.extras.resolution, Resolution::new(5000, 4000));
        let others: Vec<[u8; 4]> = chunks_of(&save(&sheet)).iter().map(|chunk| chunk.name).collect();
        assert!(!others.contains(b"tIME") && others.ends_with(&[*b"IDAT", *b"iTXt", *b"IEND"]));
        // Of what is left out, only that is told which may be missed.
        assert_eq!(sheet.extras.dropped, Vec::<String>::new());
        assert_eq!(load(fixture!("metadata-icc")).unwrap().extras.dropped, ["chunk prVT"; 2]);
    }

    #[test]
    fn the_resolution_goes_through_bmp_files() {
        let mut sheet = load(fixture!("metadata-srgb")).unwrap();
        let through = bmp::read(&bmp::write(&sheet)).unwrap();
        let back = load(&save(&through)).unwrap();
        assert_eq!(back.extras, Extras { resolution: Resolution::new(5000, 4000), ..Extras::default() });
        sheet.extras = load(fixture!("metadata-icc")).unwrap().extras;
        assert_eq!(sheet.extras.resolution, None);
        assert_eq!(bmp::read(&bmp::write(&sheet)).unwrap().extras, Extras::default());
    }

    #[test]
    fn all_sizes_come_back() {
        for (width, height) in [(1, 1), (1, 9), (9, 1), (3, 2), (300, 200), (4096, 2), (2, 4096)] {
            let noise = |at: u32| at.wrapping_mul(2_654_435_761) ^ at.wrapping_mul(40_503) >> 7;
            for smooth in [false, true] {
                let value = |at: u32| {
                    if smooth {
                        pixel(255, (at / 7) as u8, (at / 9) as u8, (at >> 11) as u8)
                    } else {
                        noise(at)
                    }
                };
                let pixels: Vec<u32> = (0..width * height).map(value).collect();
                let sheet = Sheet::new(Surface { width, height, pixels }, false);
                let bytes = save(&sheet);
                assert_eq!(load(&bytes).unwrap().surface, sheet.surface);
                assert_eq!(bytes, save(&sheet));
            }
        }
    }

    /// A file of these chunks.
    fn file(chunks: &[(&[u8; 4], &[u8])]) -> Vec<u8> {
        let mut out = SIGNATURE.to_vec();
        for (name, data) in chunks {
            out.extend((data.len() as u32).to_be_bytes());
            let named = [&name[..], data].concat();
            out.extend(&named);
            out.extend(crc::of(&named).to_be_bytes());
        }
        out
    }

    /// zlib's form of these bytes, not packed.
    fn stored(bytes: &[u8]) -> Vec<u8> {
        let (mut a, mut b) = (1u32, 0u32);
        for &byte in bytes {
            a = (a + byte as u32) % 65_521;
            b = (b + a) % 65_521;
        }
        let length = bytes.len() as u16;
        let mut out = vec![0x78, 1, 1];
        out.extend(length.to_le_bytes());
        out.extend((!length).to_le_bytes());
        out.extend(bytes);
        out.extend((b << 16 | a).to_be_bytes());
        out
    }

    fn header(depth: u8, colours: u8, interlace: u8) -> [u8; 13] {
        [0, 0, 0, 1, 0, 0, 0, 1, depth, colours, 0, 0, interlace]
    }

    /// One pixel, 9, with its IHDR chunk as given and one chunk before IDAT.
    fn built(header: &[u8], name: &[u8; 4], data: &[u8]) -> Vec<u8> {
        file(&[(b"IHDR", header), (name, data), (b"IDAT", &stored(&[0, 9])), (b"IEND", b"")])
    }

    #[track_caller]
    fn refused(bytes: &[u8], words: &str) {
        let said = load(bytes).err().unwrap();
        assert!(said.contains(words), "{said}");
    }

    #[test]
    fn what_is_not_read_is_said() {
        let grey = header(8, 0, 0);
        assert_eq!(load(&built(&grey, b"tIME", b"")).unwrap().surface.pixels, [0xFF09_0909]);
        refused(b"BM", "no PNG file");
        refused(&built(&header(16, 0, 0), b"tIME", b""), "16 bits a channel");
        refused(&built(&[0, 0, 16, 1, 0, 0, 0, 1, 8, 0, 0, 0, 0], b"tIME", b""), "4097 by 1");
        refused(&built(&[0, 0, 0, 1, 0x7F, 0xFF, 0xFF, 0xFF, 8, 0, 0, 0, 0], b"tIME", b""), "1 by 2147483647");
        let damaged = |bytes: &[u8], words: &str| refused(bytes, &format!("the PNG file is damaged: {words}"));
        damaged(&built(&[0, 0, 0, 1, 0, 0, 0, 0, 8, 0, 0, 0, 0], b"tIME", b""), "Image height is zero in IHDR");
        damaged(&built(&header(8, 5, 0), b"tIME", b""), "Invalid color type in IHDR");
        damaged(&built(&header(8, 0, 2), b"tIME", b""), "Unknown interlace method in IHDR");
        damaged(&built(&header(3, 0, 0), b"tIME", b""), "Invalid bit depth in IHDR");
        damaged(&built(&grey, b"NewC", b""), "NewC: unhandled critical chunk");
        damaged(&built(&grey, b"IHDR", &grey), "IHDR: out of place");
        damaged(&built(&grey[..12], b"tIME", b""), "IHDR: invalid");
        damaged(&built(&header(8, 3, 0), b"tIME", b""), "IDAT: Missing PLTE before IDAT");
        damaged(&built(&header(8, 3, 0), b"PLTE", &[1, 2, 3]), "a pixel names a colour that is not in the palette");
        damaged(&file(&[(b"IHDR", &grey), (b"IEND", b"")]), "IEND: out of place");
        damaged(&file(&[(b"IHDR", &grey), (b"IDAT", &stored(&[5, 9])), (b"IEND", b"")]), "bad adaptive filter value");
    }

    #[test]
    fn wrong_image_data() {
        let grey = header(8, 0, 0);
        let with = |pixels: &[u8]| file(&[(b"IHDR", &grey), (b"IDAT", pixels), (b"IEND", b"")]);
        let good = stored(&[0, 9]);
        assert!(load(&with(&good)).is_ok());
        refused(&with(&stored(&[0])), "Not enough image data");
        refused(&with(&stored(&[0, 9, 9])), "Too much image data");
        for length in 0..good.len() {
            assert!(load(&with(&good[..length])).is_err(), "{length} bytes");
        }
        refused(&with(&[&good[..], &[0]].concat()), "Extra compressed data");
        for place in 0..good.len() {
            let mut wrong = good.clone();
            wrong[place] ^= 0x44;
            assert!(load(&with(&wrong)).is_err(), "byte {place}");
        }
    }

    #[test]
    fn kept_chunks_in_disorder() {
        let grey = header(8, 0, 0);
        for (name, length) in [(b"gAMA", 4), (b"cHRM", 32), (b"sRGB", 1), (b"cICP", 4), (b"pHYs", 9)] {
            let said = String::from_utf8_lossy(name);
            assert!(load(&built(&grey, name, &vec![0; length])).is_ok());
            refused(&built(&grey, name, &vec![0; length - 1]), &format!("{said}: it has {} bytes", length - 1));
            refused(&built(&grey, name, &vec![0; length + 1]), &format!("{said}: it has {} bytes", length + 1));
            let (chunk, pixels) = (vec![0; length], stored(&[0, 9]));
            let twice = [(b"IHDR", &grey[..]), (name, &chunk), (name, &chunk), (b"IDAT", &pixels), (b"IEND", &[])];
            refused(&file(&twice), &format!("{said}: there are two"));
            let late = [(b"IHDR", &grey[..]), (b"IDAT", &pixels), (name, &chunk), (b"IEND", &[])];
            refused(&file(&late), &format!("{said}: it stands behind the pixels"));
        }
    }

    #[test]
    fn too_much_beside_the_pixels() {
        let (grey, pixels) = (header(8, 0, 0), stored(&[0, 9]));
        refused(&built(&grey, b"zTXt", &vec![0; 8_000_001]), "too large");
        let with = |count: usize| {
            let texts: Vec<(&[u8; 4], &[u8])> = vec![(b"tEXt", b"a\0b"); count];
            file(&[vec![(b"IHDR", &grey[..])], texts, vec![(b"IDAT", &pixels), (b"IEND", b"")]].concat())
        };
        assert_eq!(load(&with(900)).unwrap().extras.chunks.len(), 900);
        refused(&with(1100), "no space in chunk cache");
    }

    #[test]
    fn every_cut_and_change_is_refused() {
        for good in [&fixture!("rgb-paeth")[..], fixture!("palette-2-interlaced"), fixture!("metadata-srgb")] {
            for length in 0..good.len() {
                assert!(load(&good[..length]).is_err());
            }
            for place in 0..good.len() {
                for change in [1, 0x10, 0x20, 0x80, 0xFF] {
                    let mut wrong = good.to_vec();
                    wrong[place] ^= change;
                    assert!(load(&wrong).is_err(), "byte {place}");
                }
            }
        }
    }
}
