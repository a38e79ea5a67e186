//! Runs of lists: what `lacrumont_run` is lent, sound, and with each fault that a list can have.

use crate::calls::{self, hex, Stage, Step};
use crate::random::Random;
use face::constants::JOURNAL_RECORD;
use records::bytes::{get, set, words};
use records::list::{LENGTH, PLAY, UNDO};
use records::List;
use std::fmt;

/// What was done to a list. Now and then it stays sound by luck.
#[derive(Clone, Copy, Debug, PartialEq, Eq)]
pub enum Damage {
    CountUp,
    CountDown,
    Kind,
    Length,
    Cut,
    Appended,
}

pub const DAMAGES: [Damage; 6] =
    [Damage::CountUp, Damage::CountDown, Damage::Kind, Damage::Length, Damage::Cut, Damage::Appended];

#[derive(Clone, Debug)]
pub struct Run {
    /// Its count in use is not lent.
    pub stage: Stage,
    pub list: Vec<u8>,
    pub damage: Option<Damage>,
    /// What stands in the room for answers before.
    pub answers: Vec<u32>,
}

/// The steps as a list, with any tags and any bytes behind the records.
fn list_of(r: &mut Random, steps: &[Step]) -> List {
    let mut list = List::default();
    for step in steps {
        match step {
            Step::Undo => list.undo(),
            Step::Play(p) => {
                let c = &p.clip;
                list.play([c.left, c.top, c.right, c.bottom], p.brush, r.word(), &p.record, r.byte());
            }
        }
    }
    list
}

/// Can this be done to the list?
fn possible(list: &List, damage: Damage) -> bool {
    match damage {
        Damage::CountDown | Damage::Kind => !list.calls.is_empty(),
        Damage::Length => !list.plays.is_empty(),
        Damage::CountUp | Damage::Cut | Damage::Appended => true,
    }
}

fn count_up(r: &mut Random, list: &mut List) {
    let count = list.calls.len() as u32;
    let more = r.pick_or(&[1, 1, 2, 256, 1 << 24, 1 << 31, u32::MAX - count], |r| 1 + r.below(12) as u32);
    set(&mut list.bytes, 0, count + more);
}

fn count_down(r: &mut Random, list: &mut List) {
    let count = list.calls.len() as u32;
    let fewer = r.pick_or(&[0, count - 1, count - 1], |r| r.below(count as u64) as u32);
    set(&mut list.bytes, 0, fewer);
}

fn change_kind(r: &mut Random, list: &mut List) {
    let at = r.pick(&list.calls);
    let other = PLAY + UNDO - get(&list.bytes, at);
    set(&mut list.bytes, at, r.pick_or(&[0, 3, 4, 257, 258, 0x0100_0002, 0x8000_0001, u32::MAX, other], Random::word));
}

/// Up to the list's end and a little past it; some that are 0 once filled up to a multiple of 4 in 32 bits.
fn change_length(r: &mut Random, list: &mut List) {
    let at = r.pick(&list.plays) + LENGTH;
    let old = get(&list.bytes, at);
    let rest = (list.bytes.len() - at - 4) as u32;
    const FAR: [u32; 5] = [u32::MAX, u32::MAX - 2, u32::MAX - 3, 1 << 31, 0];
    let new = match r.below(4) {
        0 => r.pick(&FAR),
        1 => r.pick(&[rest, rest + 1, rest + 4, rest.wrapping_sub(1), rest.wrapping_sub(4)]),
        2 => old.wrapping_add(r.pick(&[1, 2, 3, 4, 8])),
        _ => old.wrapping_sub(r.pick(&[1, 2, 3, 4, 8])),
    };
    set(&mut list.bytes, at, new);
}

fn cut(r: &mut Random, list: &mut List) {
    let length = list.bytes.len() as u64;
    let left = match r.below(5) {
        0 => r.below(4),
        1 => length - 1 - r.below(4),
        2 if !list.calls.is_empty() => r.pick(&list.calls) as u64,
        _ => r.below(length),
    };
    list.bytes.truncate(left as usize);
}

fn append(r: &mut Random, list: &mut List) {
    let more = match r.below(4) {
        0 => words(&[UNDO]),
        1 => words(&[0]),
        _ => words(&[r.word(), r.word()])[..1 + r.below(8) as usize].to_vec(),
    };
    list.bytes.extend(more);
}

fn spoil(r: &mut Random, list: &mut List) -> Damage {
    let choice: Vec<Damage> = DAMAGES.into_iter().filter(|&damage| possible(list, damage)).collect();
    let damage = r.pick(&choice);
    match damage {
        Damage::CountUp => count_up(r, list),
        Damage::CountDown => count_down(r, list),
        Damage::Kind => change_kind(r, list),
        Damage::Length => change_length(r, list),
        Damage::Cut => cut(r, list),
        Damage::Appended => append(r, list),
    }
    damage
}

/// Records for hardly one play, for some, for all.
fn journal_records(r: &mut Random, pixels: u64) -> u64 {
    match r.below(10) {
        0..=1 => r.below(pixels + 2),
        2..=4 => r.below(4 * pixels + 2),
        _ => 4 * pixels + r.below(9 * pixels + 2),
    }
}

/// A surface and journal, or one that statuses 1 and 2 are about.
fn stage(r: &mut Random, sides: (u32, u32)) -> Stage {
    let (mut width, mut height, mut pixels) = (sides.0, sides.1, sides.0 as usize * sides.1 as usize);
    let mut length = journal_records(r, pixels as u64) as usize * JOURNAL_RECORD;
    if r.percent(10) {
        (width, height, pixels) = calls::odd_surface(r);
    }
    if r.percent(10) {
        let part = calls::part_of_record(r);
        length = if r.percent(50) { length + part } else { length.saturating_sub(part) };
    }
    let (surface, journal) = (calls::surface(r, pixels), r.bytes(length));
    Stage { width, height, surface, journal, used: 0, lead: calls::lead(r) }
}

/// Numbers that so many calls have room in: just, with more behind them, or not.
fn answers_room(r: &mut Random, calls: usize) -> usize {
    match r.below(20) {
        0..=8 => 2 * calls,
        9..=16 => 2 * calls + 1 + r.below(8) as usize,
        17 => (2 * calls).saturating_sub(1),
        18 => r.below(2 * calls as u64 + 1) as usize,
        _ => r.pick(&[0, calls]),
    }
}

/// 1 to 12 calls, now and then none.
fn steps(r: &mut Random, sides: (u32, u32)) -> Vec<Step> {
    if r.once_in(60) {
        Vec::new()
    } else {
        calls::steps(r, sides, 12, 70)
    }
}

pub fn run(r: &mut Random) -> Run {
    let sides = if r.once_in(20) { calls::sides(r) } else { calls::small_sides(r) };
    let steps = steps(r, sides);
    let mut list = list_of(r, &steps);
    let damage = if r.percent(20) { Some(spoil(r, &mut list)) } else { None };
    let room = answers_room(r, steps.len());
    Run { stage: stage(r, sides), list: list.bytes, damage, answers: calls::surface(r, room) }
}

impl fmt::Display for Run {
    fn fmt(&self, f: &mut fmt::Formatter) -> fmt::Result {
        let damage = self.damage.map_or("none".to_string(), |damage| format!("{damage:?}"));
        write!(
            f,
            "run, damage of the list {damage}, room for {} answers\n{}  list of {} bytes:\n{}",
            self.answers.len(),
            self.stage,
            self.list.len(),
            hex(&self.list)
        )
    }
}
