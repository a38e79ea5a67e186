//! Walks an EMF file's records from front to back. Sizes are tested before they are trusted.

use std::fmt;

use crate::bytes::u32_at;
use crate::record_types::{self, EOF, HEADER};
use crate::words;

/// " EMF", at byte 40 of the header record.
const SIGNATURE: u32 = 0x464D_4520;
/// The shortest header record there is.
const HEADER_BYTES: usize = 88;

/// One record with all its bytes.
#[derive(Clone, Copy, Debug, PartialEq, Eq)]
pub struct Record<'a> {
    pub offset: usize,
    pub kind: u32,
    pub bytes: &'a [u8],
}

impl Record<'_> {
    /// True for the three types that are played.
    pub fn is_played(&self) -> bool {
        record_types::played(self.kind).is_some()
    }
}

/// Why a walk cannot go on.
#[derive(Clone, Copy, Debug, PartialEq, Eq)]
pub enum Damage {
    /// Under 8 bytes are left where a record should begin.
    CutOff {
        offset: usize,
        left: usize,
    },
    /// Size does not even cover Type and Size.
    TooSmall {
        offset: usize,
        size: u32,
    },
    NotWhole {
        offset: usize,
        size: u32,
    },
    PastEnd {
        offset: usize,
        size: u32,
        left: usize,
    },
    NoHeader {
        kind: u32,
    },
    ShortHeader {
        size: usize,
    },
    NoSignature,
    /// The file is over before an EOF record came.
    NoEnd {
        offset: usize,
    },
}

impl fmt::Display for Damage {
    fn fmt(&self, f: &mut fmt::Formatter) -> fmt::Result {
        match *self {
            Damage::CutOff { offset, left } => {
                write!(f, "offset {offset}: {} left, too few for a record", words::things(left as u64, "byte"))
            }
            Damage::TooSmall { offset, size } => {
                write!(f, "offset {offset}: the record's Size is {size}; 8 is the least")
            }
            Damage::NotWhole { offset, size } => {
                write!(f, "offset {offset}: the record's Size is {size}, not a multiple of 4")
            }
            Damage::PastEnd { offset, size, left } => {
                let left = words::things(left as u64, "byte");
                write!(f, "offset {offset}: the record's Size is {size}, but the file has {left} left")
            }
            Damage::NoHeader { kind } => {
                write!(f, "this is no EMF file: the first record has type {kind}, not 1 (header)")
            }
            Damage::ShortHeader { size } => {
                write!(f, "the header record has {size} bytes; {HEADER_BYTES} are the least")
            }
            Damage::NoSignature => write!(f, "this is no EMF file: the header record has no \" EMF\" at byte 40"),
            Damage::NoEnd { offset } => write!(f, "the file ends at {offset} without an EOF record (type 14)"),
        }
    }
}

/// A walk under way. It ends behind the EOF record or at the first damage, and each step goes on by 8 bytes or more.
pub struct Walk<'a> {
    bytes: &'a [u8],
    at: usize,
    over: bool,
}

pub fn walk(bytes: &[u8]) -> Walk<'_> {
    Walk { bytes, at: 0, over: false }
}

impl<'a> Walk<'a> {
    /// How many bytes the walk has not come to. At its end without damage: what stands behind the EOF record.
    pub fn left(&self) -> usize {
        self.bytes.len() - self.at
    }

    fn step(&mut self) -> Result<Record<'a>, Damage> {
        let offset = self.at;
        let rest = &self.bytes[offset..];
        if rest.is_empty() && offset > 0 {
            return Err(Damage::NoEnd { offset });
        }
        let (kind, size) = match (u32_at(rest, 0), u32_at(rest, 4)) {
            (Some(kind), Some(size)) => (kind, size),
            _ => return Err(Damage::CutOff { offset, left: rest.len() }),
        };
        // Said first: of a file that is no EMF, no other number means anything.
        if offset == 0 && kind != HEADER {
            return Err(Damage::NoHeader { kind });
        }
        if size < 8 {
            return Err(Damage::TooSmall { offset, size });
        }
        if size % 4 != 0 {
            return Err(Damage::NotWhole { offset, size });
        }
        let bytes = match rest.get(..size as usize) {
            Some(bytes) => bytes,
            None => return Err(Damage::PastEnd { offset, size, left: rest.len() }),
        };
        if offset == 0 {
            if bytes.len() < HEADER_BYTES {
                return Err(Damage::ShortHeader { size: bytes.len() });
            }
            if u32_at(bytes, 40) != Some(SIGNATURE) {
                return Err(Damage::NoSignature);
            }
        }
        self.at += bytes.len();
        Ok(Record { offset, kind, bytes })
    }
}

impl<'a> Iterator for Walk<'a> {
    type Item = Result<Record<'a>, Damage>;

    fn next(&mut self) -> Option<Self::Item> {
        if self.over {
            return None;
        }
        let step = self.step();
        self.over = match step {
            Ok(record) => record.kind == EOF,
            Err(_) => true,
        };
        Some(step)
    }
}

#[cfg(test)]
mod tests {
    use super::*;

    fn record(kind: u32, size: u32, length: usize) -> Vec<u8> {
        let mut bytes = [kind.to_le_bytes(), size.to_le_bytes()].concat();
        bytes.resize(length, 0);
        bytes
    }

    fn header() -> Vec<u8> {
        let mut bytes = record(HEADER, 88, 88);
        bytes[40..44].copy_from_slice(b" EMF");
        bytes
    }

    fn file(parts: &[Vec<u8>]) -> Vec<u8> {
        parts.concat()
    }

    /// What the walk gives in the end, and how many records came before.
    fn end(bytes: &[u8]) -> (usize, Option<Damage>) {
        let steps: Vec<_> = walk(bytes).collect();
        let good = steps.iter().filter(|step| step.is_ok()).count();
        (good, steps.last().and_then(|step| step.err()))
    }

    #[test]
    fn a_whole_file() {
        let bytes = file(&[header(), record(0x51, 80, 80), record(70, 12, 12), record(EOF, 20, 20)]);
        let records: Vec<Record> = walk(&bytes).map(|step| step.unwrap()).collect();
        let places: Vec<(usize, u32, usize)> = records.iter().map(|r| (r.offset, r.kind, r.bytes.len())).collect();
        assert_eq!(places, [(0, 1, 88), (88, 0x51, 80), (168, 70, 12), (180, 14, 20)]);
        assert!(records[1].is_played() && !records[2].is_played());
    }

    #[test]
    fn what_stands_behind_the_end_is_left() {
        let bytes = file(&[header(), record(EOF, 20, 20), vec![7; 5]]);
        let mut steps = walk(&bytes);
        assert_eq!(steps.by_ref().count(), 2);
        assert_eq!(steps.left(), 5);
        assert!(steps.next().is_none());
    }

    #[test]
    fn damaged_sizes() {
        let after = |kind, size| end(&file(&[header(), record(kind, size, 80)]));
        assert_eq!(after(0x51, 0), (1, Some(Damage::TooSmall { offset: 88, size: 0 })));
        assert_eq!(after(0x51, 4), (1, Some(Damage::TooSmall { offset: 88, size: 4 })));
        assert_eq!(after(0x51, 79), (1, Some(Damage::NotWhole { offset: 88, size: 79 })));
        assert_eq!(after(0x51, 84), (1, Some(Damage::PastEnd { offset: 88, size: 84, left: 80 })));
        assert_eq!(after(0x51, 0xFFFF_FFFC), (1, Some(Damage::PastEnd { offset: 88, size: 0xFFFF_FFFC, left: 80 })));
        assert_eq!(after(0x51, 80), (2, Some(Damage::NoEnd { offset: 168 })));
        let cut = file(&[header(), vec![14, 0, 0, 0, 20, 0, 0]]);
        assert_eq!(end(&cut), (1, Some(Damage::CutOff { offset: 88, left: 7 })));
    }

    #[test]
    fn no_header() {
        assert_eq!(end(b""), (0, Some(Damage::CutOff { offset: 0, left: 0 })));
        assert_eq!(end(b"EMF"), (0, Some(Damage::CutOff { offset: 0, left: 3 })));
        assert_eq!(end(&record(EOF, 20, 20)), (0, Some(Damage::NoHeader { kind: EOF })));
        assert_eq!(end(b"\x89PNG\r\n\x1a\n").1, Some(Damage::NoHeader { kind: 0x474E_5089 }));
        assert_eq!(end(&record(HEADER, 80, 80)), (0, Some(Damage::ShortHeader { size: 80 })));
        assert_eq!(end(&record(HEADER, 88, 88)), (0, Some(Damage::NoSignature)));
        assert_eq!(end(&record(HEADER, 0, 88)), (0, Some(Damage::TooSmall { offset: 0, size: 0 })));
        assert_eq!(end(&header()), (1, Some(Damage::NoEnd { offset: 88 })));
    }

    #[test]
    fn damage_is_said_with_its_numbers() {
        let words = Damage::PastEnd { offset: 88, size: 84, left: 1 }.to_string();
        assert_eq!(words, "offset 88: the record's Size is 84, but the file has 1 byte left");
        assert!(Damage::NoSignature.to_string().contains("no EMF file"));
    }

    /// Each cut, and each byte of the small numbers changed: the walk ends, and covers no more than the file.
    #[test]
    fn every_cut_and_change_ends() {
        let whole = file(&[header(), record(0x72, 108, 108), record(0x4E, 128, 128), record(EOF, 20, 20)]);
        for length in 0..whole.len() {
            assert!(end(&whole[..length]).1.is_some());
        }
        for place in 0..whole.len() {
            for value in [0, 1, 3, 4, 8, 0x7F, 0x80, 0xFF] {
                let mut bytes = whole.clone();
                bytes[place] = value;
                let records: Vec<_> = walk(&bytes).filter_map(Result::ok).collect();
                assert!(records.iter().map(|record| record.bytes.len()).sum::<usize>() <= bytes.len());
            }
        }
    }
}
