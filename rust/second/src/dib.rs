//! A picture's header: what it says, and whether it is lawful.

use crate::arithmetic::{bit_of, power, without_sign};
use crate::fields::{number, signed, unsigned};

/// A stretch of the record's own bytes.
#[derive(Clone, Copy, Debug, PartialEq, Eq)]
pub struct Part {
    pub offset: u64,
    pub length: u64,
}

/// A picture that passed the refusals ordered from 6 to 10.
#[derive(Clone, Debug)]
pub struct Dib {
    /// "all cbBmi bytes where they stand"
    pub header: Part,
    /// "the first row length · rows bytes of the bits part"
    pub view: Part,
    pub width: i64,
    pub rows: i64,
    pub bits: i64,
    pub compression: i64,
    pub top_down: bool,
    /// The masks under BI_BITFIELDS, 0 under BI_RGB.
    pub red: i64,
    pub green: i64,
    pub blue: i64,
    pub alpha: i64,
    pub palette: [u32; 256],
}

/// "Header: size 0, width 4, height 8, planes 12, bits 14, compression 16,
/// colours used 32"
struct Header {
    size: i64,
    width: i64,
    height: i64,
    planes: i64,
    bits: i64,
    compression: i64,
    used: i64,
}

/// The fields, if the part holds at least the 40 bytes they stand in.
fn header(part: &[u8]) -> Option<Header> {
    if part.len() < 40 {
        return None;
    }
    Some(Header {
        size: unsigned(part, 0),
        width: signed(part, 4),
        height: signed(part, 8),
        planes: number(part, 12, 2),
        bits: number(part, 14, 2),
        compression: unsigned(part, 16),
        used: unsigned(part, 32),
    })
}

/// "With a 40-byte header, and only then, BI_BITFIELDS is followed by three
/// masks."
fn masks_behind(h: &Header) -> i64 {
    if h.size == 40 && h.compression == 3 {
        12
    } else {
        0
    }
}

/// "At 1, 4, 8 bits it has the colours used, or 2^bits where that is 0. At
/// 16, 24, 32 it has the colours used (at most 256) and is skipped."
fn table_entries(h: &Header) -> i64 {
    if h.bits <= 8 && h.used == 0 {
        power(h.bits)
    } else {
        h.used
    }
}

/// Refusal 8, the other way round: the header part is lawful.
pub fn header_passes(part: &[u8]) -> bool {
    // "header part too short for header": under 40 bytes no header fits.
    let h = match header(part) {
        None => return false,
        Some(h) => h,
    };
    // "size, planes (1), bits or compression not listed"
    if h.size != 40 && h.size != 108 {
        return false;
    }
    if h.planes != 1 {
        return false;
    }
    let listed_bits = h.bits == 1 || h.bits == 4 || h.bits == 8 || h.bits == 16 || h.bits == 24 || h.bits == 32;
    if !listed_bits {
        return false;
    }
    // "Compression 0 (BI_RGB) or 3 (BI_BITFIELDS, 16 and 32 bits only)."
    let listed_compression = h.compression == 0 || (h.compression == 3 && (h.bits == 16 || h.bits == 32));
    if !listed_compression {
        return false;
    }
    // "width, or height without sign, not 1..16,384"
    if h.width < 1 || h.width > 16_384 {
        return false;
    }
    if without_sign(h.height) < 1 || without_sign(h.height) > 16_384 {
        return false;
    }
    // "colours used over 2^bits or over 256"
    if h.used > power(h.bits) || h.used > 256 {
        return false;
    }
    // "header part too short for header, masks and table"
    let needed = h.size + masks_behind(&h) + 4 * table_entries(&h);
    part.len() as i64 >= needed
}

/// The four masks of a header part that passes 8; 0 under BI_RGB.
fn masks(part: &[u8]) -> (i64, i64, i64, i64) {
    let h = header(part).expect("passes 8");
    if h.compression != 3 {
        return (0, 0, 0, 0);
    }
    // "V4 masks red, green, blue, alpha at 40, 44, 48, 52"; the three masks
    // behind a 40-byte header stand at 40, 44, 48 as well.
    let alpha = if h.size == 108 { unsigned(part, 52) } else { 0 };
    (unsigned(part, 40), unsigned(part, 44), unsigned(part, 48), alpha)
}

/// "its width is the number of its ones"
pub fn ones(mask: i64) -> i64 {
    let mut count = 0;
    for k in 0..32 {
        count += bit_of(mask, k);
    }
    count
}

/// "and its place the zeros below them"
pub fn zeros_below(mask: i64) -> i64 {
    let mut place = 0;
    while place < 32 && bit_of(mask, place) == 0 {
        place += 1;
    }
    place
}

/// "A mask's ones are contiguous; its width is the number of its ones, 1 to
/// 8 ... all lie in the pixel's bits."
fn mask_passes(mask: i64, bits: i64) -> bool {
    let width = ones(mask);
    if !(1..=8).contains(&width) {
        return false;
    }
    let run = (power(width) - 1) * power(zeros_below(mask));
    mask == run && mask < power(bits)
}

/// "no two masks overlap"
fn overlap(a: i64, b: i64) -> bool {
    for k in 0..32 {
        if bit_of(a, k) == 1 && bit_of(b, k) == 1 {
            return true;
        }
    }
    false
}

/// Refusal 9, the other way round, for a part that passes 8:
/// "under BI_BITFIELDS, a mask breaks its rules (BI_RGB ignores masks)".
pub fn masks_pass(part: &[u8]) -> bool {
    let h = header(part).expect("passes 8");
    if h.compression == 0 {
        return true;
    }
    let (red, green, blue, alpha) = masks(part);
    // "Red, green and blue are each non-zero"
    if !mask_passes(red, h.bits) || !mask_passes(green, h.bits) || !mask_passes(blue, h.bits) {
        return false;
    }
    // "The alpha mask (V4 with BI_BITFIELDS) may be zero."  If it is not, it
    // keeps the rules of the others (A16).
    if alpha != 0 && !mask_passes(alpha, h.bits) {
        return false;
    }
    !overlap(red, green)
        && !overlap(red, blue)
        && !overlap(green, blue)
        && !overlap(red, alpha)
        && !overlap(green, alpha)
        && !overlap(blue, alpha)
}

/// "Row length in bytes: floor((width·bits + 31)/32)·4."
pub fn row_length(width: i64, bits: i64) -> i64 {
    (width * bits + 31) / 32 * 4
}

/// Row length · rows of a part that passes 8.
pub fn view_length(part: &[u8]) -> i64 {
    let h = header(part).expect("passes 8");
    row_length(h.width, h.bits) * without_sign(h.height)
}

/// "The palette read out is a table of 256 colours, black before it is
/// filled; an index past the given entries shows black. Each is red·2^16 +
/// green·2^8 + blue."
fn palette(part: &[u8]) -> [u32; 256] {
    let mut colours = [0u32; 256];
    let h = header(part).expect("passes 8");
    // At 16 bits and up the table "is skipped" (A12).
    if h.bits > 8 {
        return colours;
    }
    let start = h.size + masks_behind(&h);
    for k in 0..table_entries(&h) {
        // "blue, green, red, unused byte"
        let at = (start + 4 * k) as usize;
        let blue = part[at] as u32;
        let green = part[at + 1] as u32;
        let red = part[at + 2] as u32;
        colours[k as usize] = red * 65_536 + green * 256 + blue;
    }
    colours
}

/// The picture of a header part that passes 8 and 9.
pub fn read(part: &[u8], header_at: Part, bits_offset: u64) -> Dib {
    let h = header(part).expect("passes 8");
    let (red, green, blue, alpha) = masks(part);
    Dib {
        header: header_at,
        view: Part { offset: bits_offset, length: view_length(part) as u64 },
        width: h.width,
        rows: without_sign(h.height),
        bits: h.bits,
        compression: h.compression,
        // "Positive height: the last stored row is the top one."
        top_down: h.height < 0,
        red,
        green,
        blue,
        alpha,
        palette: palette(part),
    }
}
