//! A record's type, and its fixed part by document 01's byte places.

use crate::dib::{Dib, Part};
use crate::fields::{is_identity, signed, unsigned};
use crate::region::{covered, Bounds, Span};
use std::ops::Range;

#[derive(Clone, Copy, Debug, PartialEq, Eq)]
pub enum Kind {
    /// "EMR_ALPHABLEND (type 0x72, source document 000)"
    AlphaBlend,
    /// "EMR_MASKBLT (0x4E, document 001)"
    MaskBlt,
    /// "EMR_STRETCHDIBITS (0x51, document 003)"
    StretchDibits,
}

impl Kind {
    pub fn of(number: i64) -> Option<Kind> {
        match number {
            0x72 => Some(Kind::AlphaBlend),
            0x4E => Some(Kind::MaskBlt),
            0x51 => Some(Kind::StretchDibits),
            _ => None,
        }
    }

    pub fn number(self) -> u32 {
        match self {
            Kind::AlphaBlend => 0x72,
            Kind::MaskBlt => 0x4E,
            Kind::StretchDibits => 0x51,
        }
    }

    /// "end of fixed part | 108 | 128 | 80"
    pub fn fixed_end(self) -> i64 {
        match self {
            Kind::AlphaBlend => 108,
            Kind::MaskBlt => 128,
            Kind::StretchDibits => 80,
        }
    }
}

/// What is done to each pixel.
#[derive(Clone, Copy, Debug)]
pub enum Operation {
    Blend { code: i64, constant: i64, format: i64 },
    Masked { foreground: i64, background: i64 },
    Plain { raster: i64 },
}

/// A picture's four offset and size fields and its usage.
#[derive(Clone, Copy, Debug)]
pub struct Named {
    pub header_at: i64,
    pub header_size: i64,
    pub bits_at: i64,
    pub bits_size: i64,
    pub usage: i64,
}

impl Named {
    /// The bytes of a header part that passes 6.
    pub fn header_part<'a>(&self, record: &'a [u8]) -> &'a [u8] {
        &record[self.header_at as usize..(self.header_at + self.header_size) as usize]
    }

    pub fn header_place(&self) -> Part {
        Part { offset: self.header_at as u64, length: self.header_size as u64 }
    }

    /// Header part and bits part, where they begin and end: all cbBmi and
    /// cbBits bytes.
    pub fn parts(&self) -> [Range<i64>; 2] {
        [self.header_at..self.header_at + self.header_size, self.bits_at..self.bits_at + self.bits_size]
    }
}

/// The fixed part of a record that passes 3, 4 and 5.
#[derive(Clone, Copy, Debug)]
pub struct Fixed {
    pub kind: Kind,
    pub size: i64,
    pub bounds: Bounds,
    pub x_dest: i64,
    pub y_dest: i64,
    pub cx_dest: i64,
    pub cy_dest: i64,
    pub x_src: i64,
    pub y_src: i64,
    pub cx_src: i64,
    pub cy_src: i64,
    pub x_mask: i64,
    pub y_mask: i64,
    pub operation: Operation,
    /// True also where the type has no XformSrc.
    pub identity: bool,
    pub source: Option<Named>,
    pub mask: Option<Named>,
}

impl Fixed {
    pub fn read(record: &[u8], kind: Kind) -> Fixed {
        let pair = |x: usize, y: usize| (signed(record, x), signed(record, y));
        // "xDest, yDest | 24, 28 | 24, 28 | 24, 28"
        let (x_dest, y_dest) = pair(24, 28);
        // "cxDest, cyDest | 32, 36 | 32, 36 | 72, 76"
        let (cx_dest, cy_dest) = match kind {
            Kind::StretchDibits => pair(72, 76),
            _ => pair(32, 36),
        };
        // "xSrc, ySrc | 44, 48 | 44, 48 | 32, 36"
        let (x_src, y_src) = match kind {
            Kind::StretchDibits => pair(32, 36),
            _ => pair(44, 48),
        };
        // "cxSrc, cySrc | 100, 104 | as target | 40, 44"
        let (cx_src, cy_src) = match kind {
            Kind::AlphaBlend => pair(100, 104),
            Kind::MaskBlt => (cx_dest, cy_dest),
            Kind::StretchDibits => pair(40, 44),
        };
        // "xMask, yMask, UsageMask | | 100..111 |"
        let (x_mask, y_mask) = match kind {
            Kind::MaskBlt => pair(100, 104),
            _ => (0, 0),
        };
        Fixed {
            kind,
            // "Common: Type 0, Size 4, Bounds 8..23 (left, top, right, bottom)."
            size: unsigned(record, 4),
            bounds: Bounds {
                left: signed(record, 8),
                top: signed(record, 12),
                right: signed(record, 16),
                bottom: signed(record, 20),
            },
            x_dest,
            y_dest,
            cx_dest,
            cy_dest,
            x_src,
            y_src,
            cx_src,
            cy_src,
            x_mask,
            y_mask,
            operation: operation(record, kind),
            // "XformSrc | 52 | 52 | none"
            identity: kind == Kind::StretchDibits || is_identity(record, 52),
            source: source(record, kind),
            mask: mask(record, kind),
        }
    }

    pub fn target_columns(&self) -> Span {
        covered(self.x_dest, self.cx_dest)
    }

    pub fn target_rows(&self) -> Span {
        covered(self.y_dest, self.cy_dest)
    }

    pub fn source_columns(&self) -> Span {
        covered(self.x_src, self.cx_src)
    }

    pub fn source_rows(&self) -> Span {
        covered(self.y_src, self.cy_src)
    }
}

/// "offBmi, cbBmi, offBits, cbBits | 84..99 | 84..99 | 48..63",
/// "UsageSrc | 80 | 80 | 64"
fn source(record: &[u8], kind: Kind) -> Option<Named> {
    match kind {
        Kind::AlphaBlend => named(record, 84, 80),
        Kind::MaskBlt => named(record, 84, 80),
        Kind::StretchDibits => named(record, 48, 64),
    }
}

/// "xMask, yMask, UsageMask | 100..111", "the mask's four | 112..127"
fn mask(record: &[u8], kind: Kind) -> Option<Named> {
    match kind {
        Kind::MaskBlt => named(record, 112, 108),
        _ => None,
    }
}

/// "A picture is absent when its four offset and size fields are all zero;
/// its usage and rectangle fields are then not looked at."
fn named(record: &[u8], four: usize, usage: usize) -> Option<Named> {
    let n = Named {
        header_at: unsigned(record, four),
        header_size: unsigned(record, four + 4),
        bits_at: unsigned(record, four + 8),
        bits_size: unsigned(record, four + 12),
        usage: unsigned(record, usage),
    };
    if n.header_at == 0 && n.header_size == 0 && n.bits_at == 0 && n.bits_size == 0 {
        None
    } else {
        Some(n)
    }
}

/// "blend / ROP4 / ROP | 40 | 40 | 68"
fn operation(record: &[u8], kind: Kind) -> Operation {
    match kind {
        // "The blend field's bytes in order: operation, flags (ignored),
        // constant alpha, format."
        Kind::AlphaBlend => {
            Operation::Blend { code: record[40] as i64, constant: record[42] as i64, format: record[43] as i64 }
        }
        // wingdi.h: MAKEROP4(fore, back) is ((back << 8) & 0xFF000000) | fore,
        // so that bits 16 to 23 are the foreground's and 24 to 31 the background's
        Kind::MaskBlt => {
            let rop4 = unsigned(record, 40);
            Operation::Masked { foreground: rop4 >> 16 & 0xFF, background: rop4 >> 24 & 0xFF }
        }
        // "A plain ROP uses bits 16..23 of its field."
        Kind::StretchDibits => Operation::Plain { raster: unsigned(record, 68) / 65_536 % 256 },
    }
}

/// A record that no refusal ordered from 3 to 13, 21 among them, meets.
#[derive(Clone, Debug)]
pub struct Sound {
    pub fixed: Fixed,
    pub source: Option<Dib>,
    pub mask: Option<Dib>,
}
