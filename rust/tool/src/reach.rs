//! Which pixels a play can reach: how many, and why none (document 01, "Which pixels, from where").

use face::Clip;

/// A rectangle whose right and bottom are not included; wide enough for any corner and extent of a record.
#[derive(Clone, Copy, Debug, PartialEq, Eq)]
pub struct Area {
    pub left: i64,
    pub top: i64,
    pub right: i64,
    pub bottom: i64,
}

impl Area {
    /// The clip as it is cut to a surface of these sides.
    pub fn cut(clip: Clip, width: u32, height: u32) -> Area {
        Area::clip(clip).meet(Area::of([0, 0, width.into(), height.into()]))
    }

    /// The clip as it is given.
    pub fn clip(Clip { left, top, right, bottom }: Clip) -> Area {
        Area::of([left, top, right, bottom].map(i64::from))
    }

    /// Left, top, right, bottom; the last two not included.
    pub fn of([left, top, right, bottom]: [i64; 4]) -> Area {
        Area { left, top, right, bottom }
    }

    /// Bounds as they are written, both corners included.
    pub fn bounds([left, top, right, bottom]: [i32; 4]) -> Area {
        Area { left: left.into(), top: top.into(), right: i64::from(right) + 1, bottom: i64::from(bottom) + 1 }
    }

    /// What both cover.
    pub fn meet(self, other: Area) -> Area {
        Area {
            left: self.left.max(other.left),
            top: self.top.max(other.top),
            right: self.right.min(other.right),
            bottom: self.bottom.min(other.bottom),
        }
    }

    fn is_empty(self) -> bool {
        self.left >= self.right || self.top >= self.bottom
    }

    pub fn pixels(self) -> u64 {
        if self.is_empty() {
            return 0;
        }
        ((self.right - self.left) * (self.bottom - self.top)) as u64
    }
}

/// Why an accepted play draws nothing. The first that holds is told.
#[derive(Clone, Copy, Debug, PartialEq, Eq)]
pub enum Nothing {
    NoClip,
    BoundsInverted,
    BoundsOutside,
    TargetOutside,
}

/// Bounds, target and cut clip: how many pixels the play counts, or why none.
pub fn reach(bounds: [i32; 4], target: Area, clip: Area) -> Result<u64, Nothing> {
    let pixels = target.meet(clip).pixels();
    if clip.is_empty() {
        Err(Nothing::NoClip)
    } else if Area::bounds(bounds).is_empty() {
        Err(Nothing::BoundsInverted)
    } else if Area::bounds(bounds).meet(clip).is_empty() {
        Err(Nothing::BoundsOutside)
    } else if pixels == 0 {
        Err(Nothing::TargetOutside)
    } else {
        Ok(pixels)
    }
}

impl Nothing {
    /// In words, with the numbers that show it. `clip` is what the clip is called.
    pub fn words(self, bounds: [i32; 4], target: Area, clip: &str) -> String {
        let [left, top, right, bottom] = bounds;
        let bounds = format!("Bounds {left}, {top}, {right}, {bottom}");
        match self {
            Nothing::NoClip => "the clip holds no pixel of the sheet".to_string(),
            Nothing::BoundsInverted => format!("its {bounds} are inverted, so they meet nothing"),
            Nothing::BoundsOutside => format!("its {bounds} lie outside {clip}"),
            Nothing::TargetOutside => format!(
                "its target (columns {} to {}, rows {} to {}) lies outside {clip}",
                target.left,
                target.right - 1,
                target.top,
                target.bottom - 1
            ),
        }
    }
}

#[cfg(test)]
mod tests {
    use super::*;
    use crate::journal::Journal;
    use crate::library::Surface;
    use records::{operation, Record, STRETCHDIBITS};

    /// Some thousand plays of the library: it counts what is said here.
    #[test]
    fn the_library_counts_as_many() {
        let mut seed = 12_345_u32;
        let mut number = |below: i32| {
            seed = seed.wrapping_mul(1_664_525).wrapping_add(1_013_904_223);
            (seed >> 8) as i32 % below
        };
        let mut seen = [0; 5];
        for _ in 0..4_000 {
            let bounds = [number(16) - 4, number(12) - 4, number(24) - 4, number(24) - 4];
            let clip = Clip { left: number(9) - 3, top: number(7) - 3, right: number(20), bottom: number(20) };
            let (x, y) = (number(40) - 15, number(40) - 15);
            let (cx, cy) = ((number(30) - 10) | 1, (number(30) - 10) | 1);
            let mut record = Record::new(STRETCHDIBITS, [x, y, cx, cy], operation::rop(0xF0)).bytes();
            for (place, value) in bounds.iter().enumerate() {
                record[8 + 4 * place..12 + 4 * place].copy_from_slice(&value.to_le_bytes());
            }
            let mut surface = Surface { width: 12, height: 9, pixels: vec![0; 108] };
            let counted = Journal::new().play(&mut surface, &record, clip, 1).unwrap();
            let target = Area::of([x + cx.min(0), y + cy.min(0), x + cx.max(0), y + cy.max(0)].map(i64::from));
            let said = reach(bounds, target, Area::cut(clip, 12, 9));
            assert_eq!(said.unwrap_or(0), u64::from(counted));
            assert_eq!(said.is_err(), counted == 0);
            seen[said.map_or_else(|nothing| nothing as usize, |_| 4)] += 1;
        }
        assert!(seen.iter().all(|count| *count > 100), "{seen:?}");
    }
}
