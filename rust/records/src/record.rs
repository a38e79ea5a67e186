//! A whole record: every field of the three types, and the parts behind the fixed part.

use crate::dib::Picture;
use crate::fixed::{Fixed, Parts, IDENTITY};
use crate::places::places;

#[derive(Clone, Debug)]
pub struct Record {
    pub kind: u32,
    /// Left, top, right, bottom.
    pub bounds: [i32; 4],
    /// Rectangles are x, y, cx, cy.
    pub target: [i32; 4],
    pub operation: u32,
    pub source_at: [i32; 4],
    pub usage: u32,
    pub source: Option<Picture>,
    pub mask_corner: [i32; 2],
    pub mask_usage: u32,
    pub mask: Option<Picture>,
    gap: usize,
    backwards: bool,
}

impl Record {
    /// A record without pictures whose Bounds hold the largest sheet.
    pub fn new(kind: u32, target: [i32; 4], operation: u32) -> Record {
        Record {
            kind,
            bounds: [0, 0, 4_095, 4_095],
            target,
            operation,
            source_at: [0; 4],
            usage: 0,
            source: None,
            mask_corner: [0; 2],
            mask_usage: 0,
            mask: None,
            gap: 0,
            backwards: false,
        }
    }

    /// With this source; in 0x4E its extent is the target's.
    pub fn from(mut self, source_at: [i32; 4], picture: Picture) -> Record {
        self.source_at = source_at;
        self.source = Some(picture);
        self
    }

    pub fn masked(mut self, corner: [i32; 2], picture: Picture) -> Record {
        self.mask_corner = corner;
        self.mask = Some(picture);
        self
    }

    pub fn bounded(mut self, bounds: [i32; 4]) -> Record {
        self.bounds = bounds;
        self
    }

    /// With so many bytes before each part; backwards, bits stand before headers and the mask before the source.
    pub fn gapped(mut self, gap: usize, backwards: bool) -> Record {
        self.gap = gap;
        self.backwards = backwards;
        self
    }

    /// The record, its parts one behind the other, filled up to a multiple of 4. What no field claims is nonsense.
    pub fn bytes(&self) -> Vec<u8> {
        let mut bytes = vec![0; places(self.kind).fixed];
        let mut parts = [Parts::default(); 2];
        let mut order: Vec<(usize, &Picture, bool)> = Vec::new();
        for (k, picture) in [&self.source, &self.mask].into_iter().enumerate() {
            order.extend(picture.iter().flat_map(|picture| [(k, picture, false), (k, picture, true)]));
        }
        if self.backwards {
            order.reverse();
        }
        for (k, picture, is_bits) in order {
            bytes.extend((0..self.gap).map(|g| 0xE0 + g as u8));
            let at = bytes.len();
            if is_bits {
                bytes.extend(&picture.pixels);
                (parts[k].bits_at, parts[k].bits_len) = (at, bytes.len() - at);
            } else {
                bytes.extend(picture.header_part());
                (parts[k].header_at, parts[k].header_len) = (at, bytes.len() - at);
            }
        }
        bytes.resize(bytes.len().div_ceil(4) * 4, 0xEE);
        Fixed::new(self.kind, &mut bytes)
            .bounds(self.bounds)
            .target(self.target)
            .operation(self.operation)
            .source(self.source_at)
            .transform(IDENTITY)
            .background(0x00C0_FFEE)
            .usage(self.usage)
            .source_parts(self.source.as_ref().map(|_| parts[0]))
            .mask_corner(self.mask_corner)
            .mask_usage(self.mask_usage)
            .mask_parts(self.mask.as_ref().map(|_| parts[1]));
        bytes
    }
}
