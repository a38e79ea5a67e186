//! A sheet: the surface of an orthophoto.

use face::constants::MOST_SIDE;
use png_shim::Chunk;

use crate::library::Surface;
use crate::{crc, words};

pub struct Sheet {
    pub surface: Surface,
    /// Read from a BMP file of 32 bits. If it is written as a BMP, it has as many again.
    pub deep: bool,
    pub extras: Extras,
}

/// What a sheet's file says beside its pixels.
#[derive(Clone, Debug, Default, PartialEq, Eq)]
pub struct Extras {
    pub resolution: Option<Resolution>,
    /// What only a PNG file can say: its chunks as they are, in order.
    pub chunks: Vec<Chunk>,
    /// What no written file will say, in words.
    pub dropped: Vec<String>,
}

/// Pixels per metre. PNG and BMP files can both say it.
#[derive(Clone, Copy, Debug, PartialEq, Eq)]
pub struct Resolution {
    pub across: u32,
    pub down: u32,
}

impl Resolution {
    /// Both numbers are 1 to 2,147,483,647: 0 says nothing, and BMP's are signed.
    pub fn new(across: u32, down: u32) -> Option<Resolution> {
        let sound = |number| (1..=i32::MAX as u32).contains(&number);
        (sound(across) && sound(down)).then_some(Resolution { across, down })
    }
}

impl Sheet {
    /// A sheet with nothing beside its pixels.
    pub fn new(surface: Surface, deep: bool) -> Sheet {
        Sheet { surface, deep, extras: Extras::default() }
    }

    /// By this a journal knows its sheet.
    pub fn checksum(&self) -> u32 {
        crc::of_pixels(&self.surface.pixels)
    }
}

/// A surface's sides are 1 to 4,096.
pub fn check_sides(width: u64, height: u64) -> Result<(), String> {
    let longest = MOST_SIDE as u64;
    if (1..=longest).contains(&width) && (1..=longest).contains(&height) {
        return Ok(());
    }
    Err(format!("the sheet is {width} by {height} pixels; its sides may be 1 to {}", words::count(longest)))
}

pub fn pixel(alpha: u8, red: u8, green: u8, blue: u8) -> u32 {
    u32::from_le_bytes([blue, green, red, alpha])
}

#[cfg(test)]
mod tests {
    use super::*;

    #[test]
    fn sides() {
        assert!(check_sides(1, 4096).is_ok());
        assert!(check_sides(0, 1).is_err());
        assert_eq!(check_sides(4097, 1).unwrap_err(), "the sheet is 4097 by 1 pixels; its sides may be 1 to 4,096");
    }

    #[test]
    fn resolutions() {
        assert_eq!(Resolution::new(1, 0x7FFF_FFFF), Some(Resolution { across: 1, down: 0x7FFF_FFFF }));
        for (across, down) in [(0, 0), (0, 1), (1, 0), (0x8000_0000, 1), (1, 0x8000_0000)] {
            assert_eq!(Resolution::new(across, down), None);
        }
    }
}
