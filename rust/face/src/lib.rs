//! The C face of the library in Rust: the calls of include/lacrumont.h (`raw`), its constants, and safe calls over them.

pub mod constants;
pub mod raw;

use constants::NUMBERS;

/// What stands in every number before a call that must write it.
pub const UNWRITTEN: u32 = 0xA5C3_96E1;

/// Right and bottom are not included. Any numbers will do: the library cuts the clip to the surface.
#[derive(Clone, Copy, Debug, PartialEq, Eq)]
pub struct Clip {
    pub left: i32,
    pub top: i32,
    pub right: i32,
    pub bottom: i32,
}

/// What a play or an undo answers.
#[derive(Clone, Copy, Debug, PartialEq, Eq)]
pub struct Answer {
    pub status: u32,
    pub pixels: u32,
}

/// What a run answers: its status, how many calls were made, and the journal's records in use afterwards.
#[derive(Clone, Copy, Debug, PartialEq, Eq)]
pub struct Ran {
    pub status: u32,
    pub calls: u32,
    pub used: u64,
}

#[allow(clippy::too_many_arguments)]
pub fn play(
    surface: &mut [u32],
    width: u32,
    height: u32,
    journal: &mut [u8],
    used: &mut u64,
    record: &[u8],
    clip: Clip,
    brush: u32,
) -> Answer {
    let mut pixels = UNWRITTEN;
    // SAFETY: each slice is lent with its own length; what is written is borrowed exclusively, so it overlaps nothing.
    // The library takes all other numbers as they are.
    let status = unsafe {
        raw::lacrumont_play(
            surface.as_mut_ptr(),
            surface.len(),
            width,
            height,
            journal.as_mut_ptr(),
            journal.len(),
            used,
            record.as_ptr(),
            record.len(),
            clip.left,
            clip.top,
            clip.right,
            clip.bottom,
            brush,
            &mut pixels,
        )
    };
    Answer { status, pixels }
}

pub fn undo(surface: &mut [u32], width: u32, height: u32, journal: &[u8], used: &mut u64) -> Answer {
    let mut pixels = UNWRITTEN;
    // SAFETY: as for `play`; the journal is only read.
    let status = unsafe {
        raw::lacrumont_undo(
            surface.as_mut_ptr(),
            surface.len(),
            width,
            height,
            journal.as_ptr(),
            journal.len(),
            used,
            &mut pixels,
        )
    };
    Answer { status, pixels }
}

/// Runs a list of plays and undos on a journal that has no record in use. `answers` gets two numbers of each call: its
/// status and its pixels.
pub fn run(surface: &mut [u32], width: u32, height: u32, journal: &mut [u8], list: &[u8], answers: &mut [u32]) -> Ran {
    let (mut used, mut calls) = (UNWRITTEN as u64, UNWRITTEN);
    // SAFETY: as for `play`; the list is only read.
    let status = unsafe {
        raw::lacrumont_run(
            surface.as_mut_ptr(),
            surface.len(),
            width,
            height,
            journal.as_mut_ptr(),
            journal.len(),
            list.as_ptr(),
            list.len(),
            answers.as_mut_ptr(),
            answers.len(),
            &mut used,
            &mut calls,
        )
    };
    Ran { status, calls, used }
}

/// The status and the numbers of a reading: of the source where `mask` is 0, else of the mask.
pub fn read(record: &[u8], mask: u32) -> (u32, [u64; NUMBERS]) {
    let mut out = [UNWRITTEN as u64; NUMBERS];
    // SAFETY: `out` has as many numbers as the header asks for.
    let status = unsafe { raw::lacrumont_read(record.as_ptr(), record.len(), mask, out.as_mut_ptr()) };
    (status, out)
}

/// The 256 colours of the same picture; black where there is none.
pub fn palette(record: &[u8], mask: u32) -> [u32; 256] {
    let mut out = [UNWRITTEN; 256];
    // SAFETY: `out` has as many numbers as the header asks for.
    unsafe { raw::lacrumont_palette(record.as_ptr(), record.len(), mask, out.as_mut_ptr()) };
    out
}
