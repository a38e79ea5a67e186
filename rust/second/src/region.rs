//! Which pixels, from where.

/// "A clip rectangle (left, top, right, bottom; right and bottom not
/// included)"
#[derive(Clone, Copy, Debug, PartialEq, Eq)]
pub struct Clip {
    pub left: i32,
    pub top: i32,
    pub right: i32,
    pub bottom: i32,
}

impl Clip {
    /// A clip with right ≤ left or bottom ≤ top holds nothing (A28).
    pub fn holds(&self, x: i64, y: i64) -> bool {
        self.left as i64 <= x && x < self.right as i64 && self.top as i64 <= y && y < self.bottom as i64
    }
}

/// "Bounds (both corners included; inverted Bounds meet nothing)"
#[derive(Clone, Copy, Debug)]
pub struct Bounds {
    pub left: i64,
    pub top: i64,
    pub right: i64,
    pub bottom: i64,
}

impl Bounds {
    pub fn holds(&self, x: i64, y: i64) -> bool {
        self.left <= x && x <= self.right && self.top <= y && y <= self.bottom
    }
}

/// A run of columns or rows: `first` included, `end` not.
#[derive(Clone, Copy, Debug, PartialEq, Eq)]
pub struct Span {
    pub first: i64,
    pub end: i64,
}

/// "A negative extent covers the pixels before its corner: x + cx up to
/// x − 1."
pub fn covered(corner: i64, extent: i64) -> Span {
    if extent < 0 {
        Span { first: corner + extent, end: corner }
    } else {
        Span { first: corner, end: corner + extent }
    }
}

impl Span {
    pub fn holds(&self, place: i64) -> bool {
        self.first <= place && place < self.end
    }

    pub fn length(&self) -> i64 {
        self.end - self.first
    }

    /// The span lies in 0..size.
    pub fn inside(&self, size: i64) -> bool {
        0 <= self.first && self.end <= size
    }
}

/// "With target extent m and source extent n (both without sign), target
/// column i from the left reads source column j = floor(i·n/m), or n − 1 − j
/// if the signs differ; rows alike."
pub fn source_step(i: i64, n: i64, m: i64, signs_differ: bool) -> i64 {
    let j = (i as i128 * n as i128 / m as i128) as i64;
    if signs_differ {
        n - 1 - j
    } else {
        j
    }
}

/// "Its mask pixel for (i, j) is at (xMask + i) and (yMask + j), each taken
/// as the least non-negative remainder by the mask's width and height"
pub fn mask_step(corner: i64, i: i64, size: i64) -> i64 {
    let mut rest = (corner + i) % size;
    if rest < 0 {
        rest += size;
    }
    rest
}

/// "the clip ... is cut to the sheet": the place is on the sheet and in the
/// clip.
pub fn in_cut_clip(width: u32, height: u32, clip: &Clip, x: i64, y: i64) -> bool {
    0 <= x && x < width as i64 && 0 <= y && y < height as i64 && clip.holds(x, y)
}

/// "If Bounds ... does not meet the cut clip": is there a pixel in both?
pub fn bounds_meet(width: u32, height: u32, clip: &Clip, bounds: &Bounds) -> bool {
    for y in 0..height as i64 {
        for x in 0..width as i64 {
            if in_cut_clip(width, height, clip, x, y) && bounds.holds(x, y) {
                return true;
            }
        }
    }
    false
}

/// "Otherwise it counts every pixel of target and cut clip. The pixels
/// counted are the clipped target."  Row by row, left to right.
pub fn clipped_target(
    width: u32,
    height: u32,
    clip: &Clip,
    bounds: &Bounds,
    columns: Span,
    rows: Span,
) -> Vec<(u32, u32)> {
    let mut places = Vec::new();
    // "the play changes no pixel and counts 0"
    if !bounds_meet(width, height, clip, bounds) {
        return places;
    }
    for y in 0..height as i64 {
        for x in 0..width as i64 {
            if in_cut_clip(width, height, clip, x, y) && columns.holds(x) && rows.holds(y) {
                places.push((x as u32, y as u32));
            }
        }
    }
    places
}
