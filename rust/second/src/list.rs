//! Lists of calls, run by the pile.  Words in quotation marks are the C
//! header's, include/lacrumont.h; what a call answers and draws is the pile's.

use crate::answer::Answer;
use crate::input::{Bad, Input};
use crate::journal::{journal_passes, sheet_passes, RECORD};
use crate::pile::Pile;
use crate::play::play;
use crate::region::Clip;

/// "`*calls` is the number of calls, `*used` the journal's records in use
/// afterwards."
#[derive(Clone, Copy, Debug, PartialEq, Eq)]
pub struct Ran {
    pub status: u32,
    pub calls: u32,
    pub used: u64,
}

impl Ran {
    /// "nothing is written but `*calls` and `*used`, which are 0"
    fn refused(status: u32) -> Ran {
        Ran { status, calls: 0, used: 0 }
    }
}

/// A call, with what comes with it.
enum Call<'a> {
    Play { clip: Clip, brush: u32, record: &'a [u8] },
    Undo,
}

/// "A play: 1, left, top, right, bottom, brush, a number that is kept for a tag
/// and not looked at, the record's length, the record, and bytes up to the next
/// multiple of 4."  The 1 is read.
fn play_next<'a>(input: &mut Input<'a>) -> Result<Call<'a>, Bad> {
    let clip = Clip { left: input.signed()?, top: input.signed()?, right: input.signed()?, bottom: input.signed()? };
    let brush = input.word()?;
    input.word()?;
    let length = input.word()? as usize;
    let record = input.take(length)?;
    input.take((4 - length % 4) % 4)?;
    Ok(Call::Play { clip, brush, record })
}

/// "An undo: 2."
fn call_next<'a>(input: &mut Input<'a>) -> Result<Call<'a>, Bad> {
    match input.word()? {
        1 => play_next(input),
        2 => Ok(Call::Undo),
        _ => Err(Bad),
    }
}

/// "how many calls, then the calls, and nothing behind them"
fn calls_of(list: &[u8]) -> Result<Vec<Call<'_>>, Bad> {
    let mut input = Input::new(list);
    let mut calls = Vec::new();
    for _ in 0..input.word()? {
        calls.push(call_next(&mut input)?);
    }
    if input.at_end() {
        Ok(calls)
    } else {
        Err(Bad)
    }
}

/// "two numbers of each call"
fn answers_fit(calls: usize, room: usize) -> bool {
    2 * calls as u128 <= room as u128
}

/// The pile makes the call.  The journal gets the records of a play that goes
/// on top: of a play on the pile's sheet, from its room on.
fn make(call: &Call, pile: &mut Pile, width: u32, height: u32, journal: &mut [u8]) -> Answer {
    match *call {
        Call::Undo => pile.undo(),
        Call::Play { clip, brush, record } => {
            let below = pile.clone();
            let answer = pile.play(record, clip, brush);
            if answer.status == 0 {
                play(&mut below.surface(), width, height, journal, &mut below.room(), record, clip, brush);
            }
            answer
        }
    }
}

/// "Runs a list of plays and undos ... on a journal that has no record in use."
pub fn run(surface: &mut [u32], width: u32, height: u32, journal: &mut [u8], list: &[u8], answers: &mut [u32]) -> Ran {
    if !sheet_passes(surface.len(), width, height) {
        return Ran::refused(1);
    }
    if !journal_passes(journal.len(), 0) {
        return Ran::refused(2);
    }
    // 29: "the list is malformed"
    let Ok(calls) = calls_of(list) else { return Ran::refused(29) };
    // 30: "there is no room for two numbers of each call"
    if !answers_fit(calls.len(), answers.len()) {
        return Ran::refused(30);
    }
    let mut pile = Pile::new(surface, (journal.len() / RECORD) as u64, width, height);
    for (k, call) in calls.iter().enumerate() {
        let answer = make(call, &mut pile, width, height, journal);
        // "in order: its status and its pixels"
        answers[2 * k] = answer.status;
        answers[2 * k + 1] = answer.pixels as u32;
    }
    surface.copy_from_slice(&pile.surface());
    Ran { status: 0, calls: calls.len() as u32, used: pile.room() }
}
