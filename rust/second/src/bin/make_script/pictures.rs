//! Random pictures of every form.

use crate::random::Random;
use records::{Header, Picture};

/// A picture of random pixels; under 16 bits with `entries` random colours.
pub fn picture(r: &mut Random, header: u32, width: i32, height: i32, bits: u16, entries: u32) -> Picture {
    let header = Header { used: entries, ..Header::new(header, width, height, bits) };
    let table = (0..entries).map(|_| r.word()).collect();
    Picture { header, table, pixels: r.bytes(header.rows_length()) }
}

/// Colours used 0 stands for the whole table, so it must be there.
pub fn filled_table(mut p: Picture) -> Picture {
    if p.header.used == 0 && p.header.bits <= 8 {
        p.table = (0..1u32 << p.header.bits).map(|k| 0x0102_0304 * (k % 60)).collect();
    }
    p
}

/// The pictures of one depth: header 40 and 108, bottom-up and top-down.
pub fn four_forms(r: &mut Random, bits: u16, entries: u32) -> Vec<Picture> {
    let mut list = Vec::new();
    for header in [40, 108] {
        for height in [5, -5] {
            list.push(picture(r, header, 7, height, bits, entries));
        }
    }
    list
}

/// Each depth under BI_RGB, with colours used: short tables leave indices
/// that show black, and tables at 16 bits and up are skipped.
pub fn plain_pictures(r: &mut Random) -> Vec<Picture> {
    let mut list = Vec::new();
    for (bits, entries) in [(1, 2), (4, 11), (8, 40), (16, 0), (24, 3), (32, 1)] {
        list.extend(four_forms(r, bits, entries));
    }
    list
}

/// 16 and 32 bits under BI_BITFIELDS, channels of widths 1 to 8 in any order.
pub fn field_pictures(r: &mut Random) -> Vec<Picture> {
    let mut list = Vec::new();
    let masks_16 = [
        [0xF800, 0x07E0, 0x001F, 0],
        [0x000F, 0x00F0, 0x0F00, 0],
        [0x0001, 0x01FE, 0x7000, 0x8000],
        [0xFC00, 0x0003, 0x0004, 0x03F8],
    ];
    let masks_32 = [
        [0x0000_00FF, 0x0000_FF00, 0x00FF_0000, 0],
        [0xFF00_0000, 0x0000_0001, 0x0000_7F00, 0],
        [0x3FC0_0000, 0x0000_03F0, 0x0000_0006, 0x000F_8000],
        [0x0000_00FF, 0x00FF_0000, 0x0000_FF00, 0xFF00_0000],
    ];
    for (p, m) in four_forms(r, 16, 0).into_iter().zip(masks_16) {
        list.push(p.bitfields(m));
    }
    for (p, m) in four_forms(r, 32, 2).into_iter().zip(masks_32) {
        list.push(p.bitfields(m));
    }
    list
}

/// A 1-bit mask; forms turn about.
pub fn mask_picture(r: &mut Random, k: usize) -> Picture {
    let header = if k % 2 == 0 { 40 } else { 108 };
    let height = if k / 2 % 2 == 0 { 5 } else { -6 };
    filled_table(picture(r, header, 9, height, 1, (k % 3) as u32))
}
