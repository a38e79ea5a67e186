//! The header's constants, each under its name there without the prefix. A test holds them against the header.

/// Longest side of a surface.
pub const MOST_SIDE: u32 = 4_096;
/// Most bytes of an EMF record.
pub const MOST_RECORD: usize = 16_777_216;
/// Most records of a journal.
pub const MOST_JOURNAL: usize = 20_000_000;
/// Bytes of a journal record.
pub const JOURNAL_RECORD: usize = 12;

pub const OK: u32 = 0;
pub const BAD_SURFACE: u32 = 1;
pub const BAD_JOURNAL: u32 = 2;
pub const BAD_LENGTH: u32 = 3;
pub const BAD_TYPE: u32 = 4;
pub const BAD_SIZE: u32 = 5;
pub const BAD_PART: u32 = 6;
/// Judged between 6 and 7.
pub const SHARED_PARTS: u32 = 21;
pub const BAD_TRANSFORM: u32 = 7;
pub const BAD_HEADER: u32 = 8;
pub const BAD_MASKS: u32 = 9;
pub const BAD_BITS: u32 = 10;
pub const BAD_OPERATION: u32 = 11;
pub const BAD_GEOMETRY: u32 = 12;
pub const BAD_MASK: u32 = 13;
pub const NO_ROOM: u32 = 14;
pub const NOTHING: u32 = 15;
pub const BAD_CLOSING: u32 = 16;
pub const BAD_LIST: u32 = 29;
pub const FEW_ANSWERS: u32 = 30;

/// The numbers of a reading, by their place.
pub const HEADER_AT: usize = 0;
pub const HEADER_LENGTH: usize = 1;
pub const VIEW_AT: usize = 2;
pub const VIEW_LENGTH: usize = 3;
pub const WIDTH: usize = 4;
pub const ROWS: usize = 5;
pub const BITS: usize = 6;
pub const COMPRESSION: usize = 7;
pub const TOP_DOWN: usize = 8;
pub const RED: usize = 9;
pub const GREEN: usize = 10;
pub const BLUE: usize = 11;
pub const ALPHA: usize = 12;
pub const NUMBERS: usize = 13;
