//! BMP sheets: 24 and 32 bits, not compressed.

use crate::bytes::{i32_at, u16_at, u32_at};
use crate::library::Surface;
use crate::sheet::{check_sides, pixel, Extras, Resolution, Sheet};

/// The file header; the bitmap header follows.
const FILE_HEADER: usize = 14;
const PLAIN_HEADER: usize = 40;
/// The header with masks, the alpha's among them, and a colour space.
const V4_HEADER: usize = 108;
const BI_RGB: u32 = 0;
const BI_BITFIELDS: u32 = 3;
/// Red, green, blue and alpha in a 32-bit pixel as it is usually stored.
const MASKS: [u32; 4] = [0x00FF_0000, 0x0000_FF00, 0x0000_00FF, 0xFF00_0000];
/// "sRGB" as the header has it.
const SRGB: u32 = 0x7352_4742;
/// Endpoints and gamma stand in the header; "LINK" and "MBED": a profile stands in another file, or in this one.
const CALIBRATED: u32 = 0;
const LINKED: u32 = 0x4C49_4E4B;
const EMBEDDED: u32 = 0x4D42_4544;

pub fn read(bytes: &[u8]) -> Result<Sheet, String> {
    if !bytes.starts_with(b"BM") {
        return Err("this is no BMP file: it does not begin with BM".to_string());
    }
    let cut_off = || "the BMP file is cut off".to_string();
    let header = |at: usize| u32_at(bytes, FILE_HEADER + at).ok_or_else(cut_off);
    let signed = |at: usize| i32_at(bytes, FILE_HEADER + at).ok_or_else(cut_off);
    let bits_at = u32_at(bytes, 10).ok_or_else(cut_off)? as usize;
    let length = header(0)? as usize;
    if ![40, 52, 56, 108, 124].contains(&length) {
        return Err(format!("the BMP file's header has {length} bytes; 40, 52, 56, 108 and 124 are read"));
    }
    let (width, height) = (signed(4)?, signed(8)?);
    let rows = height.unsigned_abs();
    // A negative width counts as 0, which is refused.
    check_sides(width.max(0) as u64, rows as u64)?;
    let bits = u16_at(bytes, FILE_HEADER + 14).ok_or_else(cut_off)?;
    let masks = match (bits, header(16)?) {
        // Three bytes stand as the first three of four do; of four, the last says nothing here.
        (24 | 32, BI_RGB) => [MASKS[0], MASKS[1], MASKS[2], 0],
        (32, BI_BITFIELDS) => {
            // Behind a 40-byte header stand three masks; an alpha mask is only in longer headers.
            let alpha = if length >= 56 { header(52)? } else { 0 };
            [header(40)?, header(44)?, header(48)?, alpha]
        }
        (24 | 32, packing) => {
            return Err(format!("the BMP file is compressed (number {packing}); only plain ones are read"))
        }
        _ => return Err(format!("the BMP file has {bits} bits a pixel; 24 and 32 are read")),
    };
    if bits_at < FILE_HEADER + length {
        return Err("the BMP file's pixels begin inside its header".to_string());
    }
    let places = places(masks)?;
    let step = bits as usize / 8;
    let row = (width as usize * step).div_ceil(4) * 4;
    let end = bits_at.checked_add(row * rows as usize).ok_or_else(cut_off)?;
    let body = bytes.get(bits_at..end).ok_or_else(cut_off)?;
    let mut pixels = Vec::with_capacity(width as usize * rows as usize);
    for y in 0..rows as usize {
        // A positive height stores the lowest row first.
        let stored = if height > 0 { rows as usize - 1 - y } else { y };
        for point in body[stored * row..][..width as usize * step].chunks_exact(step) {
            let [red, green, blue, alpha] = places.map(|place| place.map_or(255, |place| point[place]));
            pixels.push(pixel(alpha, red, green, blue));
        }
    }
    let colours = if length >= V4_HEADER { colour_space(header(56)?) } else { None };
    // Without an alpha mask there is no alpha, but some programs keep one there all the same.
    let unused = (0..step).find(|byte| !places.contains(&Some(*byte)));
    let fourth = unused.filter(|byte| differs(body.iter().skip(*byte).step_by(step)));
    let fourth = fourth.map(|_| "the byte of its pixels that is no channel".to_string());
    let resolution = Resolution::new(header(24)?, header(28)?);
    let extras = Extras { resolution, dropped: colours.into_iter().chain(fourth).collect(), ..Extras::default() };
    Ok(Sheet { surface: Surface { width: width as u32, height: rows, pixels }, deep: bits == 32, extras })
}

/// Whether the bytes are neither all 0 nor all 255.
fn differs<'a>(mut bytes: impl Iterator<Item = &'a u8>) -> bool {
    let first = bytes.next();
    !matches!(first, None | Some(0 | 255)) || bytes.any(|byte| Some(byte) != first)
}

/// What the header says of the colours, where it is more than that they are usual ones. No file that is written has it.
fn colour_space(number: u32) -> Option<String> {
    match number {
        CALIBRATED => Some("the calibrated colours of the header".to_string()),
        LINKED | EMBEDDED => Some("the colour profile".to_string()),
        _ => None,
    }
}

/// Which byte of a pixel each mask stands for; only an alpha mask may be 0.
fn places(masks: [u32; 4]) -> Result<[Option<usize>; 4], String> {
    let mut places = [None; 4];
    for (place, mask) in places.iter_mut().zip(masks) {
        *place = (0..4).find(|byte| mask == 0xFF << (8 * byte));
    }
    let twice = (1..4).any(|place| places[place].is_some() && places[..place].contains(&places[place]));
    if twice || places[..3].contains(&None) || (places[3].is_none() && masks[3] != 0) {
        return Err("the BMP file's channel masks are not a byte of its own each; others are not read".to_string());
    }
    Ok(places)
}

/// 32 bits with alpha where the sheet came with as many, or where a pixel is not solid; else 24 bits.
pub fn write(sheet: &Sheet) -> Vec<u8> {
    let surface = &sheet.surface;
    let deep = sheet.deep || surface.pixels.iter().any(|pixel| pixel >> 24 != 255);
    let (length, step) = if deep { (V4_HEADER, 4) } else { (PLAIN_HEADER, 3) };
    let row = (surface.width as usize * step).div_ceil(4) * 4;
    let size = row * surface.height as usize;
    let mut out = Vec::with_capacity(FILE_HEADER + length + size);
    out.extend(b"BM");
    let numbers = |out: &mut Vec<u8>, numbers: &[u32]| {
        for number in numbers {
            out.extend(number.to_le_bytes());
        }
    };
    let bits_at = (FILE_HEADER + length) as u32;
    numbers(&mut out, &[bits_at + size as u32, 0, bits_at, length as u32, surface.width, surface.height]);
    // One plane, and the bits above it.
    numbers(&mut out, &[1 | (step as u32 * 8) << 16, if deep { BI_BITFIELDS } else { BI_RGB }, size as u32]);
    let (across, down) = sheet.extras.resolution.map_or((0, 0), |found| (found.across, found.down));
    // No colour table behind the resolution.
    numbers(&mut out, &[across, down, 0, 0]);
    if deep {
        numbers(&mut out, &MASKS);
        numbers(&mut out, &[SRGB]);
        out.resize(FILE_HEADER + V4_HEADER, 0);
    }
    for line in surface.pixels.chunks_exact(surface.width.max(1) as usize).rev() {
        let begin = out.len();
        for pixel in line {
            out.extend_from_slice(&pixel.to_le_bytes()[..step]);
        }
        out.resize(begin + row, 0);
    }
    out
}

#[cfg(test)]
mod tests {
    use super::*;

    fn sheet(width: u32, height: u32, deep: bool) -> Sheet {
        let solid = if deep { 0 } else { 0xFF00_0000 };
        let pixels = (0..width * height).map(|at| at.wrapping_mul(2_654_435_761) | solid).collect();
        Sheet::new(Surface { width, height, pixels }, deep)
    }

    #[test]
    fn both_depths_come_back() {
        for deep in [false, true] {
            for (width, height) in [(1, 1), (2, 3), (3, 2), (5, 7), (64, 1), (1, 64), (4096, 3)] {
                let sheet = sheet(width, height, deep);
                let bytes = write(&sheet);
                assert_eq!(u16_at(&bytes, 28), Some(if deep { 32 } else { 24 }));
                assert_eq!(u32_at(&bytes, 2), Some(bytes.len() as u32));
                let back = read(&bytes).unwrap();
                assert_eq!((&back.surface, back.deep), (&sheet.surface, deep));
                assert_eq!(write(&back), bytes);
            }
        }
    }

    #[test]
    fn the_resolution_comes_back() {
        for deep in [false, true] {
            let mut sheet = sheet(3, 2, deep);
            assert_eq!(write(&sheet)[38..46], [0; 8]);
            sheet.extras.resolution = Resolution::new(2835, 0x7FFF_FFFF);
            let bytes = write(&sheet);
            assert_eq!((u32_at(&bytes, 38), u32_at(&bytes, 42)), (Some(2835), Some(0x7FFF_FFFF)));
            let back = read(&bytes).unwrap();
            assert_eq!(back.extras, sheet.extras);
            assert_eq!(write(&back), bytes);
        }
    }

    #[test]
    fn a_resolution_below_one_says_nothing() {
        for numbers in [[0, 5], [5, 0], [-5, 5], [5, -5]] {
            let mut bytes = write(&sheet(2, 2, false));
            bytes[38..46].copy_from_slice(&numbers.map(i32::to_le_bytes).concat());
            assert_eq!(read(&bytes).unwrap().extras, Extras::default());
        }
    }

    #[test]
    fn a_pixel_that_is_not_solid_needs_32_bits() {
        let mut sheet = sheet(3, 3, false);
        sheet.surface.pixels[4] = 0xFE01_0203;
        let back = read(&write(&sheet)).unwrap();
        assert_eq!((back.surface, back.deep), (sheet.surface, true));
    }

    /// A file of 2 by 2 pixels; `tail` are masks and what else the header has behind byte 40.
    fn built(length: u32, height: i32, bits: u32, packing: u32, tail: &[u32], body: &[u8]) -> Vec<u8> {
        let mut out = b"BM".to_vec();
        let bits_at = 14 + 40 + tail.len() as u32 * 4;
        let front = [0, 0, bits_at, length, 2, height as u32, 1 | bits << 16, packing, 0, 0, 0, 0, 0];
        for number in front.iter().chain(tail) {
            out.extend(number.to_le_bytes());
        }
        out.extend(body);
        out
    }

    const BODY: [u8; 16] = [1, 2, 3, 4, 5, 6, 7, 8, 9, 10, 11, 12, 13, 14, 15, 16];

    #[test]
    fn rows_from_both_ends() {
        let top = [0xFF03_0201, 0xFF06_0504];
        let low = [0xFF0B_0A09, 0xFF0E_0D0C];
        assert_eq!(read(&built(40, -2, 24, 0, &[], &BODY)).unwrap().surface.pixels, [top, low].concat());
        assert_eq!(read(&built(40, 2, 24, 0, &[], &BODY)).unwrap().surface.pixels, [low, top].concat());
    }

    #[test]
    fn alpha_only_where_there_is_a_mask() {
        let pixels = |bytes: &[u8]| read(bytes).unwrap().surface.pixels;
        let solid = [0xFF03_0201, 0xFF07_0605, 0xFF0B_0A09, 0xFF0F_0E0D];
        assert_eq!(pixels(&built(40, -2, 32, 0, &[], &BODY)), solid);
        assert_eq!(pixels(&built(40, -2, 32, 3, &MASKS[..3], &BODY)), solid);
        let mut tail = MASKS.to_vec();
        tail.resize(17, 0);
        let with_alpha = [0x0403_0201, 0x0807_0605, 0x0C0B_0A09, 0x100F_0E0D];
        assert_eq!(pixels(&built(108, -2, 32, 3, &tail, &BODY)), with_alpha);
        tail.resize(21, 0);
        assert_eq!(pixels(&built(124, -2, 32, 3, &tail, &BODY)), with_alpha);
        assert_eq!(pixels(&built(124, -2, 32, 0, &tail, &BODY)), solid);
        // Red and blue the other way round, and no alpha mask.
        let turned = [0xFF, 0xFF00, 0xFF_0000, 0];
        assert_eq!(pixels(&built(56, -2, 32, 3, &turned, &BODY))[0], 0xFF01_0203);
    }

    #[test]
    fn what_is_not_read_is_said() {
        let says = |bytes: Vec<u8>| read(&bytes).err().unwrap();
        assert!(says(b"\x89PNG".to_vec()).contains("no BMP file"));
        assert!(says(b"BM".to_vec()).contains("cut off"));
        assert!(says(built(12, 2, 24, 0, &[], &BODY)).contains("header has 12 bytes"));
        assert!(says(built(40, 2, 8, 0, &[], &BODY)).contains("8 bits a pixel"));
        assert!(says(built(40, 2, 32, 4, &[], &BODY)).contains("compressed (number 4)"));
        assert!(says(built(40, 0, 24, 0, &[], &BODY)).contains("2 by 0"));
        assert!(says(built(40, i32::MIN, 24, 0, &[], &BODY)).contains("2 by 2147483648"));
        assert!(says(built(40, 2, 24, 0, &[], &BODY[..15])).contains("cut off"));
        assert!(says(built(40, 2, 32, 3, &[0x7C00, 0x03E0, 0x1F], &BODY)).contains("masks"));
        assert!(says(built(40, 2, 32, 3, &[0; 3], &BODY)).contains("masks"));
        assert!(says(built(40, 2, 32, 3, &[0xFF, 0xFF00, 0xFF], &BODY)).contains("masks"));
        assert!(says(built(56, 2, 32, 3, &[0xFF, 0xFF00, 0xFF_0000, 0xFF], &BODY)).contains("masks"));
        let mut early = built(40, 2, 24, 0, &[], &BODY);
        early[10] = 53;
        assert!(says(early).contains("inside its header"));
        let mut far = built(40, 2, 24, 0, &[], &BODY);
        far[10..14].fill(0xFF);
        assert!(says(far).contains("cut off"));
    }

    #[test]
    fn every_cut_and_change_ends() {
        let good = write(&sheet(3, 3, true));
        for length in 0..good.len() {
            assert!(read(&good[..length]).is_err());
        }
        for place in 0..good.len() {
            for value in [0, 1, 0x7F, 0x80, 0xFF] {
                let mut wrong = good.clone();
                wrong[place] = value;
                let _ = read(&wrong);
            }
        }
    }
}
