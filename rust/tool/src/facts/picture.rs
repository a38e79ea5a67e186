//! A picture of a record: where its parts stand, and what its header says.

use super::places::PictureAt;
use crate::bytes::{i32_at, u16_at, u32_at};

/// A present picture: one whose four offset and size fields are not all zero.
#[derive(Clone, Copy, Debug, PartialEq, Eq)]
pub struct Picture {
    pub role: Role,
    pub usage: u32,
    pub header_part: Part,
    pub bits_part: Part,
    /// None where the header part has no 4 bytes inside the record.
    pub header: Option<Header>,
}

/// Which of a record's pictures it is.
#[derive(Clone, Copy, Debug, PartialEq, Eq)]
pub enum Role {
    Source,
    Mask,
}

/// All bytes that the record's offset and size name, inside the record or not.
#[derive(Clone, Copy, Debug, PartialEq, Eq)]
pub struct Part {
    pub offset: u32,
    pub size: u32,
}

/// A field that the header part or the record does not reach is None.
#[derive(Clone, Copy, Debug, PartialEq, Eq)]
pub struct Header {
    pub size: u32,
    pub width: Option<i32>,
    pub height: Option<i32>,
    pub planes: Option<u16>,
    pub bits: Option<u16>,
    pub compression: Option<u32>,
    /// Colours used.
    pub used: Option<u32>,
    /// Under BI_BITFIELDS only.
    pub masks: Option<Masks>,
}

#[derive(Clone, Copy, Debug, PartialEq, Eq)]
pub struct Masks {
    pub red: u32,
    pub green: u32,
    pub blue: u32,
    /// None where the header has no place for it.
    pub alpha: Option<u32>,
}

/// The header of OS/2: 16-bit sides, no compression.
const CORE: u32 = 12;
/// The shortest header with an alpha mask.
const WITH_ALPHA: u32 = 56;

pub const BI_RGB: u32 = 0;
pub const BI_BITFIELDS: u32 = 3;

impl Picture {
    /// None where the picture is absent or the record ends before its fields.
    pub fn read(record: &[u8], at: PictureAt, role: Role) -> Option<Picture> {
        let part = |at| Some(Part { offset: u32_at(record, at)?, size: u32_at(record, at + 4)? });
        let (header_part, bits_part) = (part(at.four)?, part(at.four + 8)?);
        let absent = Part { offset: 0, size: 0 };
        if header_part == absent && bits_part == absent {
            return None;
        }
        let header = Header::read(header_part.of(record));
        Some(Picture { role, usage: u32_at(record, at.usage)?, header_part, bits_part, header })
    }
}

impl Role {
    /// As the names of the picture's fields end.
    pub fn ending(self) -> &'static str {
        match self {
            Role::Source => "Src",
            Role::Mask => "Mask",
        }
    }
}

impl Part {
    /// Where it ends; more than 32 bits can hold.
    pub fn end(self) -> u64 {
        u64::from(self.offset) + u64::from(self.size)
    }

    /// Those of its bytes that the record has.
    fn of(self, record: &[u8]) -> &[u8] {
        let end = self.end().min(record.len() as u64) as usize;
        record.get(self.offset as usize..end).unwrap_or(&[])
    }
}

impl Header {
    fn read(part: &[u8]) -> Option<Header> {
        let size = u32_at(part, 0)?;
        if size == CORE {
            let half = |at| u16_at(part, at);
            let (width, height) = (half(4).map(i32::from), half(6).map(i32::from));
            let (planes, bits) = (half(8), half(10));
            return Some(Header { size, width, height, planes, bits, compression: None, used: None, masks: None });
        }
        let compression = u32_at(part, 16);
        Some(Header {
            size,
            width: i32_at(part, 4),
            height: i32_at(part, 8),
            planes: u16_at(part, 12),
            bits: u16_at(part, 14),
            compression,
            used: u32_at(part, 32),
            masks: if compression == Some(BI_BITFIELDS) { Masks::read(part, size) } else { None },
        })
    }
}

impl Masks {
    /// They stand at the same places behind a 40-byte header and inside the longer ones.
    fn read(part: &[u8], header: u32) -> Option<Masks> {
        let alpha = if header >= WITH_ALPHA { Some(u32_at(part, 52)?) } else { None };
        Some(Masks { red: u32_at(part, 40)?, green: u32_at(part, 44)?, blue: u32_at(part, 48)?, alpha })
    }
}
