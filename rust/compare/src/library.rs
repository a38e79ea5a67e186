//! The library's calls with the second player's types, so that answers can be compared.

use second::{Answer, Clip, Ran};

pub use face::{palette, read};

fn answer(got: face::Answer) -> Answer {
    Answer { status: got.status, pixels: got.pixels as u64 }
}

#[allow(clippy::too_many_arguments)]
pub fn play(
    surface: &mut [u32],
    width: u32,
    height: u32,
    journal: &mut [u8],
    used: &mut u64,
    record: &[u8],
    clip: Clip,
    brush: u32,
) -> Answer {
    let clip = face::Clip { left: clip.left, top: clip.top, right: clip.right, bottom: clip.bottom };
    answer(face::play(surface, width, height, journal, used, record, clip, brush))
}

pub fn undo(surface: &mut [u32], width: u32, height: u32, journal: &[u8], used: &mut u64) -> Answer {
    answer(face::undo(surface, width, height, journal, used))
}

pub fn run(surface: &mut [u32], width: u32, height: u32, journal: &mut [u8], list: &[u8], answers: &mut [u32]) -> Ran {
    let face::Ran { status, calls, used } = face::run(surface, width, height, journal, list, answers);
    Ran { status, calls, used }
}
