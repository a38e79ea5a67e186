//! Targets, source rectangles and Bounds.

use super::pictures::SHORT;
use crate::random::Random;
use records::{MASKBLT, STRETCHDIBITS};

/// Document 01's farthest corner.
pub const FAR: i64 = 1_000_000;

/// The surface a record is aimed at, so that most targets meet it.
#[derive(Clone, Copy, Debug)]
pub struct Aim {
    pub width: u32,
    pub height: u32,
}

/// A target by the pixels that it covers, and which of its extents are negative.
pub struct Target {
    pub first: [i64; 2],
    pub covers: [i64; 2],
    negative: [bool; 2],
}

impl Target {
    /// Corner and extent.
    pub fn rectangle(&self) -> [i32; 4] {
        let axis = |k: usize| turned(self.first[k], self.covers[k], self.negative[k]);
        let ((x, cx), (y, cy)) = (axis(0), axis(1));
        [x, y, cx, cy].map(|n| n as i32)
    }
}

/// Corner and extent of `n` columns or rows from `first` on.
fn turned(first: i64, n: i64, negative: bool) -> (i64, i64) {
    if negative {
        (first + n, -n)
    } else {
        (first, n)
    }
}

/// A target that mostly meets the surface. At most one side is large where the picture must be as large.
pub fn target(r: &mut Random, aim: Aim, kind: u32) -> Target {
    let stretches = kind != MASKBLT;
    let large = match r.below(60) {
        0 if stretches || aim.height <= SHORT as u32 => [true, false],
        1 if stretches || aim.width <= SHORT as u32 => [false, true],
        2 if stretches => [true, true],
        _ => [false, false],
    };
    let may_turn = kind == STRETCHDIBITS;
    let negative = [may_turn && r.percent(35), may_turn && r.percent(35)];
    let (x, across) = target_axis(r, aim.width as i64, large[0], negative[0]);
    let (y, down) = target_axis(r, aim.height as i64, large[1], negative[1]);
    Target { first: [x, y], covers: [across, down], negative }
}

/// A target's first pixel on one axis, and how many it covers.
fn target_axis(r: &mut Random, size: i64, large: bool, negative: bool) -> (i64, i64) {
    let covers = if large {
        match r.below(4) {
            0 => 4_096,
            1 => 4_095,
            _ => r.between(200, 4_096),
        }
    } else {
        match r.below(10) {
            0 => 1,
            1 => size.min(4_096),
            2 => r.between(1, 60),
            _ => r.between(1, (size + 4).min(40)),
        }
    };
    let mut first = match r.below(60) {
        0..=29 => r.between(1 - covers, size - 1),
        30..=42 => 0,
        43..=49 => size - covers,
        50..=52 => 1 - covers,
        53..=55 => size - 1,
        // Just beside the surface, on either side.
        56 => r.pick(&[-covers, size]),
        57..=58 => r.between(-covers - 5, size + 5),
        _ => r.pick_or(&[-FAR, FAR, 1 - FAR, FAR - 1], |r| r.between(-FAR, FAR)),
    };
    // The corner is behind a negative extent's pixels and must not be too far.
    if negative && first + covers > FAR {
        first = FAR - covers;
    }
    (first, covers)
}

/// A source's corner and extent of `n` of `size` columns or rows.
pub fn source_axis(r: &mut Random, size: i64, n: i64, negative: bool) -> (i64, i64) {
    let first = if r.percent(30) { r.pick(&[0, size - n]) } else { r.between(0, size - n) };
    turned(first, n, negative)
}

/// How many columns or rows of a picture of this size a target of `covers` reads.
pub fn read_of(r: &mut Random, size: i64, covers: i64) -> i64 {
    match r.below(10) {
        0..=1 => size,
        2 => 1,
        // A whole number of times, if it goes.
        3 => (covers * r.between(1, 3)).min(size),
        4 => (covers / r.between(1, 3)).clamp(1, size),
        _ => r.between(1, size),
    }
}

pub fn bounds(r: &mut Random, aim: Aim, target: &Target) -> [i32; 4] {
    let (w, h) = (aim.width as i64, aim.height as i64);
    let (low, high) = (i32::MIN as i64, i32::MAX as i64);
    let ([x, y], [cx, cy]) = (target.first, target.covers);
    let bounds = match r.below(60) {
        0..=30 => [0, 0, w - 1, h - 1],
        31..=40 => [low, low, high, high],
        41..=53 => [x, y, x + cx - 1, y + cy - 1],
        // One pixel, on the surface or just beside it.
        54..=55 => {
            let (x, y) = (r.between(-1, w), r.between(-1, h));
            [x, y, x, y]
        }
        56 => {
            let (x, y) = (r.between(-3, w + 1), r.between(-3, h + 1));
            [x, y, x + r.between(0, w + 3), y + r.between(0, h + 3)]
        }
        // Inverted by one, or just beside the surface.
        57 => r.pick(&[[5, 0, 4, h], [0, 5, w, 4], [high, high, low, low]]),
        58 => r.pick(&[[w, 0, high, high], [0, h, high, high], [low, low, -1, high], [low, low, high, -1]]),
        _ => [r.word(), r.word(), r.word(), r.word()].map(|n| n as i32 as i64),
    };
    bounds.map(|n| n as i32)
}
