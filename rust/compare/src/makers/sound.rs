//! Sound records.

use super::geometry::{bounds, read_of, source_axis, target, Aim, Target, FAR};
use super::layout::{laid_out, Laid};
use super::pictures::{picture, sides, Form, Picture, SHORT};
use crate::random::Random;
use records::places::places;
use records::{Fixed, Parts, ALPHABLEND, MASKBLT, STRETCHDIBITS};

/// What a record must have; the rest is left to chance.
#[derive(Clone, Copy, Debug, Default)]
pub struct Wish {
    pub kind: Option<u32>,
    /// The source is there.
    pub source: bool,
    /// And it has BI_BITFIELDS.
    pub bitfields: bool,
    /// Format 1, whatever the source is.
    pub format_1: bool,
    /// The mask's depth, 1 if none is given.
    pub mask_depth: Option<u16>,
    pub no_mask: bool,
}

/// A record's bytes, and where its maker put the parts.
#[derive(Clone, Debug)]
pub struct Record {
    pub bytes: Vec<u8>,
    pub kind: u32,
    pub source: Option<Parts>,
    pub mask: Option<Parts>,
}

/// Raster bytes that need no source: bits k and k + 2 are alike.
pub fn sourceless(r: &mut Random) -> u8 {
    let (low, high) = (r.below(4) as u8, r.below(4) as u8);
    low | low << 2 | high << 4 | high << 6
}

pub fn raster(r: &mut Random) -> u8 {
    const KNOWN: [u8; 12] = [0xCC, 0xAA, 0xF0, 0x66, 0x5A, 0x88, 0xEE, 0x00, 0xFF, 0x0F, 0x33, 0x55];
    if r.percent(20) {
        r.pick(&KNOWN)
    } else {
        r.byte()
    }
}

/// A record that neither 3 to 13 nor 21 meets, unless the wish brings one.
pub fn sound(r: &mut Random, aim: Aim, wish: Wish) -> Record {
    let kind = wish.kind.unwrap_or_else(|| r.pick(&[ALPHABLEND, MASKBLT, STRETCHDIBITS]));
    let absent = kind != ALPHABLEND && !wish.source && !wish.bitfields && r.percent(22);
    let format = u8::from(kind == ALPHABLEND && (wish.format_1 || r.percent(50)));
    let alpha = format == 1 && !wish.format_1;
    let depth = if alpha {
        32
    } else if wish.bitfields {
        r.pick(&[16, 32])
    } else {
        r.pick(&[1, 4, 8, 16, 24, 32])
    };
    let form = Form { depth, bitfields: wish.bitfields, alpha };
    let operation = operation(r, kind, format, absent);
    let target = target(r, aim, kind);
    let bounds = bounds(r, aim, &target);
    let (rectangle, source) = if absent {
        // Not looked at.
        ([r.word(), r.word(), r.word(), r.word()].map(|n| n as i32), None)
    } else {
        let (rectangle, source) = source(r, kind, &target, form);
        (rectangle, Some(source))
    };
    let mask = if kind != MASKBLT || wish.no_mask { None } else { Some(mask(r, wish)) };
    let Laid { mut bytes, source, mask } = laid_out(r, places(kind).fixed, source, mask);

    let mut fixed = Fixed::new(kind, &mut bytes);
    fixed.bounds(bounds).target(target.rectangle()).operation(operation).source(rectangle);
    if kind != STRETCHDIBITS {
        fixed.transform(identity(r));
    }
    fixed.source_parts(source).mask_parts(mask);
    // The usage of an absent picture, and an absent mask's corner, stay random.
    if source.is_some() {
        fixed.usage(0);
    }
    if mask.is_some() {
        fixed.mask_usage(0).mask_corner([mask_corner(r), mask_corner(r)]);
    }
    Record { bytes, kind, source, mask }
}

/// The operation field; without a source it needs none.
fn operation(r: &mut Random, kind: u32, format: u8, absent: bool) -> u32 {
    if kind == ALPHABLEND {
        let constant = if r.percent(40) { r.pick(&[0, 1, 127, 128, 254, 255]) } else { r.byte() };
        return u32::from_le_bytes([0, r.byte(), constant, format]);
    }
    let (one, two) = if absent { (sourceless(r), sourceless(r)) } else { (raster(r), raster(r)) };
    let ignored = [r.byte(), r.byte()];
    u32::from_le_bytes([ignored[0], ignored[1], one, if kind == MASKBLT { two } else { r.byte() }])
}

/// A source and the rectangle of it that the target reads.
fn source(r: &mut Random, kind: u32, target: &Target, form: Form) -> ([i32; 4], Picture) {
    let stretches = kind != MASKBLT;
    let mut rectangle = [0; 4];
    let mut size = if stretches { sides(r) } else { [0; 2] };
    for axis in 0..2 {
        // Mask blits do not stretch; of the others some have the target's size by chance, on one axis or both.
        let covers = target.covers[axis];
        let fits = covers <= SHORT || size[1 - axis] <= SHORT;
        let plain = !stretches || (size[axis] <= SHORT && fits && r.percent(35));
        let n = if plain {
            size[axis] = covers + r.below(7) as i64;
            covers
        } else {
            read_of(r, size[axis], covers)
        };
        let negative = kind == STRETCHDIBITS && r.percent(35);
        (rectangle[axis], rectangle[2 + axis]) = source_axis(r, size[axis], n, negative);
    }
    (rectangle.map(|n| n as i32), picture(r, form, size[0], size[1]))
}

fn mask(r: &mut Random, wish: Wish) -> Picture {
    let [width, rows] = sides(r);
    let form = Form { depth: wish.mask_depth.unwrap_or(1), bitfields: false, alpha: false };
    picture(r, form, width, rows)
}

/// XformSrc, with zeros of both signs.
fn identity(r: &mut Random) -> [f32; 6] {
    let mut zero = || if r.percent(20) { -0.0 } else { 0.0 };
    [1.0, zero(), zero(), 1.0, zero(), zero()]
}

fn mask_corner(r: &mut Random) -> i32 {
    let n = match r.below(10) {
        0 => r.pick(&[-FAR, FAR]),
        1 => r.between(-FAR, FAR),
        2 => 0,
        _ => r.between(-60, 60),
    };
    n as i32
}
