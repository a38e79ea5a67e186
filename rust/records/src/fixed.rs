//! A record's fixed part, written field by field over whatever bytes are there.

use crate::bytes::{set, set_signed};
use crate::places::{places, Places, BOUNDS, MASKBLT, MASK_CORNER, MASK_FOUR, MASK_USAGE, SIZE, TARGET, TYPE};

/// The identity of XformSrc.
pub const IDENTITY: [f32; 6] = [1.0, 0.0, 0.0, 1.0, 0.0, 0.0];

/// Where a picture's two parts stand in the record.
#[derive(Clone, Copy, Debug, Default, PartialEq, Eq)]
pub struct Parts {
    pub header_at: usize,
    pub header_len: usize,
    pub bits_at: usize,
    pub bits_len: usize,
}

/// The fixed part of these bytes. A rectangle is x, y, cx, cy.
pub struct Fixed<'a> {
    bytes: &'a mut [u8],
    kind: u32,
    at: Places,
}

impl<'a> Fixed<'a> {
    /// Writes Type, and for Size the length of the bytes.
    pub fn new(kind: u32, bytes: &'a mut [u8]) -> Fixed<'a> {
        let size = bytes.len() as u32;
        set(bytes, TYPE, kind);
        set(bytes, SIZE, size);
        Fixed { bytes, kind, at: places(kind) }
    }

    /// Left, top, right, bottom.
    pub fn bounds(&mut self, bounds: [i32; 4]) -> &mut Self {
        for (k, n) in bounds.into_iter().enumerate() {
            self.signed([BOUNDS + 4 * k], [n]);
        }
        self
    }

    pub fn target(&mut self, [x, y, cx, cy]: [i32; 4]) -> &mut Self {
        self.signed(TARGET, [x, y]);
        self.signed(self.at.extent, [cx, cy])
    }

    pub fn operation(&mut self, operation: u32) -> &mut Self {
        set(self.bytes, self.at.operation, operation);
        self
    }

    /// The source's rectangle; 0x4E has no place for its extent.
    pub fn source(&mut self, [x, y, cx, cy]: [i32; 4]) -> &mut Self {
        self.signed(self.at.corner, [x, y]);
        match self.at.source_extent {
            Some(extent) => self.signed(extent, [cx, cy]),
            None => self,
        }
    }

    /// XformSrc, where the type has it.
    pub fn transform(&mut self, numbers: [f32; 6]) -> &mut Self {
        if let Some(transform) = self.at.transform {
            for (k, n) in numbers.into_iter().enumerate() {
                set(self.bytes, transform + 4 * k, n.to_bits());
            }
        }
        self
    }

    /// BkColorSrc, where the type has it.
    pub fn background(&mut self, colour: u32) -> &mut Self {
        if let Some(background) = self.at.background {
            set(self.bytes, background, colour);
        }
        self
    }

    pub fn usage(&mut self, usage: u32) -> &mut Self {
        set(self.bytes, self.at.usage, usage);
        self
    }

    /// The source's parts; four zeros say that there is none.
    pub fn source_parts(&mut self, parts: Option<Parts>) -> &mut Self {
        self.four(self.at.four, parts)
    }

    /// The mask's corner, usage and parts have places in 0x4E only.
    pub fn mask_corner(&mut self, corner: [i32; 2]) -> &mut Self {
        if self.kind == MASKBLT {
            self.signed(MASK_CORNER, corner);
        }
        self
    }

    pub fn mask_usage(&mut self, usage: u32) -> &mut Self {
        if self.kind == MASKBLT {
            set(self.bytes, MASK_USAGE, usage);
        }
        self
    }

    pub fn mask_parts(&mut self, parts: Option<Parts>) -> &mut Self {
        if self.kind == MASKBLT {
            self.four(MASK_FOUR, parts);
        }
        self
    }

    fn signed<const N: usize>(&mut self, at: [usize; N], numbers: [i32; N]) -> &mut Self {
        for (at, n) in at.into_iter().zip(numbers) {
            set_signed(self.bytes, at, n as i64);
        }
        self
    }

    fn four(&mut self, at: usize, parts: Option<Parts>) -> &mut Self {
        let parts = parts.unwrap_or_default();
        for (k, n) in [parts.header_at, parts.header_len, parts.bits_at, parts.bits_len].into_iter().enumerate() {
            set(self.bytes, at + 4 * k, n as u32);
        }
        self
    }
}
