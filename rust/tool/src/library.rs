//! The library's calls on a surface, with a refusal's status as the error.

use face::constants::{BITS, OK, ROWS, WIDTH};
use face::{Answer, Clip};

/// Pixels row by row from the top: alpha << 24 | red << 16 | green << 8 | blue.
#[derive(Clone, Debug, PartialEq, Eq)]
pub struct Surface {
    pub width: u32,
    pub height: u32,
    pub pixels: Vec<u32>,
}

/// A record has two pictures at most.
#[derive(Clone, Copy, Debug, PartialEq, Eq)]
pub enum Which {
    Source = 0,
    Mask = 1,
}

/// What the tool tells of a picture. Width and rows are 0 where it is absent.
#[derive(Clone, Copy, Debug, PartialEq, Eq)]
pub struct Picture {
    pub width: u64,
    pub rows: u64,
    pub bits: u64,
}

/// Plays the record. Ok is the number of pixels; a refused play changes nothing.
pub fn play(
    surface: &mut Surface,
    journal: &mut [u8],
    used: &mut u64,
    record: &[u8],
    clip: Clip,
    brush: u32,
) -> Result<u32, u32> {
    let (width, height) = (surface.width, surface.height);
    pixels(face::play(&mut surface.pixels, width, height, journal, used, record, clip, brush))
}

/// Takes back the journal's last play. Ok is the number of pixels restored.
pub fn undo(surface: &mut Surface, journal: &[u8], used: &mut u64) -> Result<u32, u32> {
    let (width, height) = (surface.width, surface.height);
    pixels(face::undo(&mut surface.pixels, width, height, journal, used))
}

/// Reads one of the record's pictures; the whole record is judged.
pub fn read(record: &[u8], which: Which) -> Result<Picture, u32> {
    match face::read(record, which as u32) {
        (OK, numbers) => Ok(Picture { width: numbers[WIDTH], rows: numbers[ROWS], bits: numbers[BITS] }),
        (status, _) => Err(status),
    }
}

fn pixels(answer: Answer) -> Result<u32, u32> {
    match answer.status {
        OK => Ok(answer.pixels),
        status => Err(status),
    }
}
