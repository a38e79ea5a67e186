//! A picture's two parts, document 004: header with masks and colour table, and the rows.

use crate::bytes::{set, set_half, set_signed, words};
use crate::places::header;

/// BITMAPINFOHEADER and BITMAPV4HEADER, by their length.
pub const INFO: u32 = 40;
pub const V4: u32 = 108;

pub const BI_RGB: u32 = 0;
pub const BI_BITFIELDS: u32 = 3;

/// "floor((width·bits + 31)/32)·4", times the rows.
pub fn rows_length(width: i64, rows: i64, bits: u16) -> usize {
    ((width * bits as i64 + 31) / 32 * 4 * rows) as usize
}

/// The fields that document 01 names.
#[derive(Clone, Copy, Debug)]
pub struct Header {
    pub size: u32,
    pub width: i32,
    /// Negative: the first stored row is the top one.
    pub height: i32,
    pub bits: u16,
    /// Colours used; 0 stands for all at 1, 4 and 8 bits.
    pub used: u32,
    /// Red, green, blue, alpha: given under BI_BITFIELDS. A 40-byte header has no alpha.
    pub masks: Option<[u32; 4]>,
}

impl Header {
    /// BI_RGB without colours used.
    pub fn new(size: u32, width: i32, height: i32, bits: u16) -> Header {
        Header { size, width, height, bits, used: 0, masks: None }
    }

    /// The length of the part: header, masks and colour table.
    pub fn part_length(&self) -> usize {
        part_length(self.size, self.masks.is_some(), self.bits, self.used)
    }

    /// The length of the bits part.
    pub fn rows_length(&self) -> usize {
        rows_length(self.width as i64, self.height.unsigned_abs() as i64, self.bits)
    }

    /// Writes the fields and leaves all other bytes, the table's too.
    pub fn write(&self, bytes: &mut [u8], at: usize) {
        set(bytes, at + header::SIZE, self.size);
        set_signed(bytes, at + header::WIDTH, self.width as i64);
        set_signed(bytes, at + header::HEIGHT, self.height as i64);
        set_half(bytes, at + header::PLANES, 1);
        set_half(bytes, at + header::BITS, self.bits);
        set(bytes, at + header::COMPRESSION, if self.masks.is_some() { BI_BITFIELDS } else { BI_RGB });
        set(bytes, at + header::USED, self.used);
        if let Some(masks) = self.masks {
            let given = if self.size == V4 { 4 } else { 3 };
            for (k, mask) in masks.into_iter().take(given).enumerate() {
                set(bytes, at + header::MASKS + 4 * k, mask);
            }
        }
    }
}

/// How many bytes a header part needs.
pub fn part_length(size: u32, bitfields: bool, bits: u16, used: u32) -> usize {
    let masks = if size == INFO && bitfields { 12 } else { 0 };
    let entries = if bits <= 8 && used == 0 { 1 << bits } else { used };
    size as usize + masks + 4 * entries as usize
}

/// A picture with its own bytes.
#[derive(Clone, Debug)]
pub struct Picture {
    pub header: Header,
    /// Blue, green, red and an unused byte each, from the lowest.
    pub table: Vec<u32>,
    pub pixels: Vec<u8>,
}

impl Picture {
    /// The same picture under BI_BITFIELDS.
    pub fn bitfields(mut self, masks: [u32; 4]) -> Picture {
        self.header.masks = Some(masks);
        self
    }

    /// The header part. What document 01 does not name is nonsense, so that a player that looks at it is found out.
    pub fn header_part(&self) -> Vec<u8> {
        let info = INFO as usize;
        let mut bytes = words(&[0; 5]);
        // Size of the image, two resolutions, colours used, important colours.
        bytes.extend(words(&[0xDEAD_BEEF, 2_835, 2_835, 0, 7]));
        if self.header.size == V4 {
            // Under BI_RGB the masks are ignored.
            bytes.extend(words(&[0xFFFF_FFFF, 0, 0x55, 0x00FF_00FF]));
            // Colour space, end points and gamma.
            bytes.extend((0..13).flat_map(|k: u32| (0x0101_0101 * (k + 3)).to_le_bytes()));
        } else if self.header.masks.is_some() {
            bytes.resize(info + 12, 0);
        }
        self.header.write(&mut bytes, 0);
        bytes.extend(words(&self.table));
        bytes
    }
}
