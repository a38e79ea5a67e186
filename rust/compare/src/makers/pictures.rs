//! Random pictures: lawful headers of every depth, with the lengths of their parts.

use crate::random::Random;
use records::dib::{INFO, V4};
use records::Header;

/// A picture to be put into a record. Its parts may be longer than it needs; table and pixels are left to chance.
#[derive(Clone, Copy)]
pub struct Picture {
    pub header: Header,
    pub header_len: usize,
    pub bits_len: usize,
}

/// What a picture must have; the rest is left to chance.
#[derive(Clone, Copy)]
pub struct Form {
    pub depth: u16,
    /// BI_BITFIELDS, if the depth can have them.
    pub bitfields: bool,
    /// One that format 1 may blend.
    pub alpha: bool,
}

/// Lawful masks: widths of 1 to 8 in any order, with gaps or without.
fn masks(r: &mut Random, depth: u16, alpha: bool) -> [u32; 4] {
    const SIXTEEN: [[u32; 4]; 4] = [
        [0x7C00, 0x3E0, 0x1F, 0x8000],
        [0xF800, 0x7E0, 0x1F, 0],
        [0xF00, 0xF0, 0xF, 0xF000],
        [0x1F, 0x3E0, 0x7C00, 0x8000],
    ];
    const THIRTY_TWO: [[u32; 4]; 4] = [
        [0xFF_0000, 0xFF00, 0xFF, 0xFF00_0000],
        [0xFF, 0xFF00, 0xFF_0000, 0xFF00_0000],
        [0xFF00_0000, 0xFF_0000, 0xFF00, 0xFF],
        [0x8000_0000, 1, 0x18_0000, 0x7F00],
    ];
    if r.percent(25) {
        let mut known = r.pick(if depth == 16 { &SIXTEEN } else { &THIRTY_TWO });
        if !alpha {
            known[3] = 0;
        }
        if !alpha || known[3] != 0 {
            return known;
        }
    }
    let mut order: Vec<usize> = if alpha { vec![0, 1, 2, 3] } else { vec![0, 1, 2] };
    r.shuffle(&mut order);
    let mut left = depth as u64;
    let mut widths = Vec::new();
    for k in 0..order.len() {
        let later = (order.len() - 1 - k) as u64;
        let most = (left - later).min(8);
        let width = if r.percent(30) { most } else { 1 + r.below(most) };
        widths.push(width);
        left -= width;
    }
    let mut place = 0;
    let mut out = [0; 4];
    for (channel, width) in order.into_iter().zip(widths) {
        if r.percent(50) {
            let gap = r.below(left + 1);
            place += gap;
            left -= gap;
        }
        out[channel] = (((1u64 << width) - 1) << place) as u32;
        place += width;
    }
    out
}

/// A lawful picture.
pub fn picture(r: &mut Random, form: Form, width: i64, rows: i64) -> Picture {
    let Form { depth, alpha, .. } = form;
    let bitfields = (depth == 16 || depth == 32) && (form.bitfields || r.percent(55));
    let size = if (bitfields && alpha) || r.percent(50) { V4 } else { INFO };
    let with_alpha = size == V4 && (alpha || r.percent(60));
    let masks = if bitfields {
        Some(masks(r, depth, with_alpha))
    } else {
        // As many are drawn, so that a seed keeps its cases.
        let _ignored = [r.word(), r.word(), r.word(), r.word()];
        None
    };
    let most = if depth <= 8 { 1u64 << depth } else { 256 };
    let used = match r.below(10) {
        0..=3 => 0,
        4..=5 if depth <= 8 => most,
        4 => most,
        _ => 1 + r.below(most.min(if depth <= 8 { most } else { 9 })),
    };
    let height = if r.percent(50) { -rows } else { rows };
    let header = Header { size, width: width as i32, height: height as i32, bits: depth, used: used as u32, masks };
    let spare = |r: &mut Random| if r.percent(70) { 0 } else { r.below(10) as usize };
    Picture { header, header_len: header.part_length() + spare(r), bits_len: header.rows_length() + spare(r) }
}

/// At least one side of a picture is not longer, to keep records short.
pub const SHORT: i64 = 100;

/// A side of a picture that is not bound to the target.
fn side(r: &mut Random) -> i64 {
    match r.below(10) {
        0 => 1,
        1 => r.between(1, 80),
        _ => r.between(1, 24),
    }
}

/// A side around the largest.
fn large_side(r: &mut Random) -> i64 {
    r.pick_or(&[16_384, 16_383, 4_096], |r| r.between(100, 16_384))
}

/// A picture's sides. One may be large; the other is small then.
pub fn sides(r: &mut Random) -> [i64; 2] {
    match r.below(60) {
        0 => [large_side(r), r.between(1, 4)],
        1 => [r.between(1, 4), large_side(r)],
        _ => [side(r), side(r)],
    }
}
