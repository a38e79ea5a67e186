//! The play.

use crate::answer::Answer;
use crate::blend::blend;
use crate::colour::{packed, unpacked, Colour};
use crate::dib::Dib;
use crate::journal::{journal_passes, set_entry, sheet_passes, CLOSING, RECORD};
use crate::raster::raster;
use crate::record::{Fixed, Operation, Sound};
use crate::refusals::check;
use crate::region::{clipped_target, mask_step, source_step, Clip};
use crate::sample::{colour, stored};

/// The source pixel that target place (x, y) reads.  i and j count from the
/// whole target's left and top, before the clip (A31).
fn source_colour(record: &[u8], fixed: &Fixed, dib: &Dib, x: i64, y: i64, format: i64) -> Colour {
    let (columns, rows) = (fixed.target_columns(), fixed.target_rows());
    let (across, down) = (fixed.source_columns(), fixed.source_rows());
    let mirrored = (fixed.cx_src < 0) != (fixed.cx_dest < 0);
    let upside_down = (fixed.cy_src < 0) != (fixed.cy_dest < 0);
    let column = across.first + source_step(x - columns.first, across.length(), columns.length(), mirrored);
    let row = down.first + source_step(y - rows.first, down.length(), rows.length(), upside_down);
    colour(record, dib, column, row, format)
}

/// The low 24 bits of the source colour; 0 where there is no source, which
/// then matters to no bit.
fn source_24(record: &[u8], sound: &Sound, x: i64, y: i64) -> i64 {
    match &sound.source {
        None => 0,
        Some(dib) => {
            let c = source_colour(record, &sound.fixed, dib, x, y, 0);
            c.red * 65_536 + c.green * 256 + c.blue
        }
    }
}

/// "its bit is used, not its colour"
fn mask_bit(record: &[u8], sound: &Sound, x: i64, y: i64) -> i64 {
    let dib = sound.mask.as_ref().expect("passes 13");
    let i = x - sound.fixed.target_columns().first;
    let j = y - sound.fixed.target_rows().first;
    let column = mask_step(sound.fixed.x_mask, i, dib.width);
    let row = mask_step(sound.fixed.y_mask, j, dib.rows);
    stored(record, dib, column, row)
}

/// The number that a play gives to the pixel at (x, y), which holds `old`.
pub fn new_pixel(record: &[u8], sound: &Sound, brush: u32, x: i64, y: i64, old: u32) -> u32 {
    // "a brush colour (low 24 bits)"
    let brush = brush as i64 % 16_777_216;
    let target = old as i64 % 16_777_216;
    // "Target alpha stays."
    let kept_alpha = old as i64 - target;
    match sound.fixed.operation {
        Operation::Blend { constant, format, .. } => {
            let dib = sound.source.as_ref().expect("passes 11");
            let s = source_colour(record, &sound.fixed, dib, x, y, format);
            packed(blend(s, unpacked(old), constant, format))
        }
        Operation::Masked { foreground, background } => {
            // "MASKBLT uses the foreground byte at mask bit 1, the background
            // byte at 0"
            let r = if mask_bit(record, sound, x, y) == 1 { foreground } else { background };
            let s = source_24(record, sound, x, y);
            (kept_alpha + raster(r, brush, s, target)) as u32
        }
        Operation::Plain { raster: r } => {
            let s = source_24(record, sound, x, y);
            (kept_alpha + raster(r, brush, s, target)) as u32
        }
    }
}

/// The clipped target of a sound record on a sheet.
pub fn places(sound: &Sound, width: u32, height: u32, clip: &Clip) -> Vec<(u32, u32)> {
    clipped_target(width, height, clip, &sound.fixed.bounds, sound.fixed.target_columns(), sound.fixed.target_rows())
}

/// Where pixel (x, y) stands: "row by row from the top".
pub fn place_of(x: u32, y: u32, width: u32) -> usize {
    (y as u64 * width as u64 + x as u64) as usize
}

/// "A play appends one record for each pixel and one closing record."
/// Everything is worked out first and written last.
#[allow(clippy::too_many_arguments)]
pub fn play(
    surface: &mut [u32],
    width: u32,
    height: u32,
    journal: &mut [u8],
    used: &mut u64,
    record: &[u8],
    clip: Clip,
    brush: u32,
) -> Answer {
    if !sheet_passes(surface.len(), width, height) {
        return Answer::refused(1);
    }
    if !journal_passes(journal.len(), *used) {
        return Answer::refused(2);
    }
    // "A play whose reading gives a refusal stops there."
    let sound = match check(record) {
        Err(refusal) => return Answer::refused(refusal),
        Ok(sound) => sound,
    };
    let places = places(&sound, width, height, &clip);
    // 14: "play: pixels + 1 exceed the free records"
    let free = (journal.len() / RECORD) as u64 - *used;
    if places.len() as u64 + 1 > free {
        return Answer::refused(14);
    }
    let mut old = Vec::new();
    let mut new = Vec::new();
    for &(x, y) in &places {
        let before = surface[place_of(x, y, width)];
        old.push(before);
        new.push(new_pixel(record, &sound, brush, x as i64, y as i64, before));
    }
    // The writing.  "Pixel record: x, y, old pixel; row by row, left to
    // right."
    let start = *used as usize;
    for (k, &(x, y)) in places.iter().enumerate() {
        set_entry(journal, start + k, (x, y, old[k]));
        surface[place_of(x, y, width)] = new[k];
    }
    // "Closing record: 0xFFFFFFFF, number of pixel records, record type."
    set_entry(journal, start + places.len(), (CLOSING as u32, places.len() as u32, sound.fixed.kind.number()));
    *used += places.len() as u64 + 1;
    // "An accepted play answers 0 with that count."
    Answer { status: 0, pixels: places.len() as u64 }
}
