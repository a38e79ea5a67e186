//! The take-back.

use crate::answer::Answer;
use crate::journal::{entry, journal_passes, sheet_passes, CLOSING};

/// "A take-back restores the pixels from last to first, lowers the count past
/// the closing record, leaves the journal's bytes and answers 0 with the
/// pixels restored."  "Take-back checks 1, 2, 15, 16."
pub fn undo(surface: &mut [u32], width: u32, height: u32, journal: &[u8], used: &mut u64) -> Answer {
    if !sheet_passes(surface.len(), width, height) {
        return Answer::refused(1);
    }
    if !journal_passes(journal.len(), *used) {
        return Answer::refused(2);
    }
    // 15: "take-back: count in use is 0"
    if *used == 0 {
        return Answer::refused(15);
    }
    let last = (*used - 1) as usize;
    let first = match first_of_play(journal, last, width, height) {
        None => return Answer::refused(16),
        Some(first) => first,
    };
    // All is judged; now the writing.
    for k in (first..last).rev() {
        let (x, y, old) = entry(journal, k);
        let place = y * width as i64 + x;
        surface[place as usize] = old as u32;
    }
    *used = first as u64;
    Answer { status: 0, pixels: (last - first) as u64 }
}

/// The first record of the play that record `last` closes; none under 16:
/// "last record not a closing one, it names more than stand before it, or one
/// of those lies off the sheet".
fn first_of_play(journal: &[u8], last: usize, width: u32, height: u32) -> Option<usize> {
    let (mark, named, _) = entry(journal, last);
    if mark != CLOSING {
        return None;
    }
    if named > last as i64 {
        return None;
    }
    let first = last - named as usize;
    for k in first..last {
        let (x, y, _) = entry(journal, k);
        if x >= width as i64 || y >= height as i64 {
            return None;
        }
    }
    Some(first)
}
