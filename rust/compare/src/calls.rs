//! Cases: surfaces, journals, counts in use, clips, and the calls made with them.

use crate::makers::{self, Aim};
use crate::random::Random;
use crate::runs::{self, Run};
use face::constants::{JOURNAL_RECORD, MOST_JOURNAL, MOST_RECORD, MOST_SIDE};
use records::places::SIZE;
use records::{bytes, ALPHABLEND, MASKBLT, STRETCHDIBITS};
use second::Clip;
use std::fmt;

/// The most records a journal may have, as counts in use are.
pub const MOST_RECORDS: u64 = MOST_JOURNAL as u64;
/// Its length in bytes.
pub const LONGEST_JOURNAL: usize = MOST_JOURNAL * JOURNAL_RECORD;
/// The longest journal and record that a case lends.
pub const JOURNAL_BUFFER: usize = LONGEST_JOURNAL + 4 * JOURNAL_RECORD;
pub const RECORD_BUFFER: usize = MOST_RECORD + 4_096;

/// What a call is lent beside the record.
#[derive(Clone, Debug)]
pub struct Stage {
    pub width: u32,
    pub height: u32,
    pub surface: Vec<u32>,
    pub journal: Vec<u8>,
    pub used: u64,
    /// How many pixels, journal bytes and record bytes stand before the lent ones: odd addresses must do.
    pub lead: [usize; 3],
}

#[derive(Clone, Debug)]
pub struct Play {
    pub record: Vec<u8>,
    pub clip: Clip,
    pub brush: u32,
}

#[derive(Clone, Debug)]
pub enum Step {
    Play(Play),
    Undo,
}

#[derive(Clone, Debug)]
pub enum Case {
    /// Plays and undos from any surface, journal and count in use. Single calls are lists of one.
    List(Stage, Vec<Step>),
    /// The same from a surface and journal that statuses 1 and 2 let pass, with no record in use: the pile's own list.
    Pile(Stage, Vec<Step>),
    /// The reading of source and mask, and both palettes; the mask is asked for by this number.
    Read(Vec<u8>, u32),
    /// A record around the longest: these bytes, then zeros up to this length. Played and read.
    LongRecord(Stage, Play, usize),
    /// A journal around the longest: zeros, of this length. The stage's own journal is not used.
    LongJournal(Stage, Vec<Step>, usize),
    /// A run of a list.
    Run(Run),
}

/// The cases from this number on are runs. None of the others counts so far.
pub const RUNS: u64 = 1_000_000_000_000;

pub fn surface(r: &mut Random, pixels: usize) -> Vec<u32> {
    r.bytes(4 * pixels).chunks_exact(4).map(|b| u32::from_le_bytes([b[0], b[1], b[2], b[3]])).collect()
}

pub fn sides(r: &mut Random) -> (u32, u32) {
    let side = |r: &mut Random, most: i64| r.between(1, most) as u32;
    match r.below(300) {
        0..=1 => (4_096, side(r, 2)),
        2..=3 => (side(r, 2), 4_096),
        4 => (4_095, 1),
        5..=12 => (side(r, 300), side(r, 60)),
        13..=18 => (side(r, 100), side(r, 100)),
        19..=48 => (side(r, 3), side(r, 3)),
        49..=58 => (1, side(r, 24)),
        59..=68 => (side(r, 24), 1),
        _ => (side(r, 24), side(r, 24)),
    }
}

pub fn small_sides(r: &mut Random) -> (u32, u32) {
    (r.between(1, 16) as u32, r.between(1, 16) as u32)
}

/// Sides and pixels lent that status 1 is about; some are just lawful.
pub fn odd_surface(r: &mut Random) -> (u32, u32, usize) {
    let (w, h) = small_sides(r);
    let right = (w * h) as usize;
    match r.below(12) {
        0 => (0, h, 0),
        1 => (w, 0, 0),
        2 => (0, 0, r.below(3) as usize),
        3 => r.pick(&[(4_097, 1, 4_097), (1, 4_097, 4_097), (4_096, 1, 4_096), (1, 4_096, 4_096), (4_097, 2, 8_194)]),
        4 => (w, h, right + 1 + r.below(3) as usize),
        5 => (w, h, right - 1),
        6 => (w, h, 0),
        // Products that 32 bits lose.
        7 => r.pick(&[(65_536, 65_536, 0), (1 << 31, 2, 0), (2, 1 << 31, 0), (u32::MAX, u32::MAX, 1)]),
        8 => (w + (1 << r.between(12, 31)), h, right),
        9 => (w, h + (1 << r.between(12, 31)), right),
        10 => (r.word(), r.word(), right),
        _ => (h, w, right),
    }
}

/// A count in use above `records` or, now and then, just lawful. Some are small once multiplied by a record's
/// length in 64 bits.
fn odd_count(r: &mut Random, records: u64) -> u64 {
    const WRAPS: u64 = u64::MAX / JOURNAL_RECORD as u64;
    match r.below(8) {
        0..=2 => records + 1 + r.below(3),
        3 => records + (1 << 32),
        4 => r.pick(&[u64::MAX, 1 << 63, (1 << 63) - 1, 1 << 62, WRAPS, WRAPS + 1, (1 << 62) + records]),
        5 => (1 << 32) | r.below(records + 1),
        6 => r.long(),
        _ => records,
    }
}

pub fn clip(r: &mut Random, width: u32, height: u32) -> Clip {
    let (w, h) = (width.min(8_192) as i64, height.min(8_192) as i64);
    let (low, high) = (i32::MIN as i64, i32::MAX as i64);
    let [left, top, right, bottom] = match r.below(60) {
        0..=34 => [0, 0, w, h],
        35..=40 => [low, low, high, high],
        41..=50 => [r.between(-5, w / 2), r.between(-5, h / 2), r.between(w / 2, w + 5), r.between(h / 2, h + 5)],
        51..=54 => {
            let (x, y) = (r.between(-5, w), r.between(-5, h));
            [x, y, x + r.between(0, w + 5), y + r.between(0, h + 5)]
        }
        55..=56 => {
            let (x, y) = (r.between(-1, w), r.between(-1, h));
            [x, y, x + 1, y + 1]
        }
        // Empty or the wrong way round.
        57 => {
            let (x, y) = (r.between(0, w), r.between(0, h));
            [x, y, x - r.between(0, 3), y + r.between(-3, 3)]
        }
        58 => {
            let far = [low, low + 1, -1, 0, 1, high - 1, high];
            [r.pick(&far), r.pick(&far), r.pick(&far), r.pick(&far)]
        }
        _ => [r.word(), r.word(), r.word(), r.word()].map(|n| n as i32 as i64),
    };
    Clip { left: left as i32, top: top as i32, right: right as i32, bottom: bottom as i32 }
}

fn play(r: &mut Random, width: u32, height: u32, sound_percent: u64) -> Play {
    let aim = Aim { width: width.clamp(1, MOST_SIDE), height: height.clamp(1, MOST_SIDE) };
    Play { record: makers::any(r, aim, sound_percent), clip: clip(r, width, height), brush: r.word() }
}

/// The records that a play would take on this surface, if the second player accepts it.
fn needed(play: &Play, width: u32, height: u32) -> Option<u64> {
    let lawful = (1..=MOST_SIDE).contains(&width) && (1..=MOST_SIDE).contains(&height);
    match second::check(&play.record) {
        Ok(sound) if lawful => Some(second::play::places(&sound, width, height, &play.clip).len() as u64 + 1),
        _ => None,
    }
}

/// Records in use and free for a play that takes `need`: enough, just enough, one too few, or few.
fn room(r: &mut Random, need: u64) -> (u64, u64) {
    let used = if r.percent(35) { 0 } else { r.below(20) };
    let free = match r.below(20) {
        0..=11 => need + r.below(20),
        12..=14 => need,
        15..=17 => need - 1,
        18 => r.below(need),
        _ => 0,
    };
    (used, free)
}

pub fn lead(r: &mut Random) -> [usize; 3] {
    [r.below(4) as usize, r.below(16) as usize, r.below(8) as usize]
}

/// Bytes that are no whole journal record.
pub fn part_of_record(r: &mut Random) -> usize {
    1 + r.below(JOURNAL_RECORD as u64 - 1) as usize
}

/// A stage with `used` and `free` records, or with a fault in surface, journal or count.
fn stage(r: &mut Random, sides: (u32, u32), used: u64, free: u64) -> Stage {
    let (mut width, mut height, mut pixels) = (sides.0, sides.1, sides.0 as usize * sides.1 as usize);
    if r.once_in(20) {
        (width, height, pixels) = odd_surface(r);
    }
    let mut length = (used + free) as usize * JOURNAL_RECORD;
    let mut count = used;
    match r.below(40) {
        0 => length += part_of_record(r),
        1 => length = length.saturating_sub(part_of_record(r)),
        2 | 3 => count = odd_count(r, used + free),
        _ => {}
    }
    Stage { width, height, surface: surface(r, pixels), journal: r.bytes(length), used: count, lead: lead(r) }
}

fn single_play(r: &mut Random) -> Case {
    let (w, h) = sides(r);
    let play = play(r, w, h, 45);
    let need = needed(&play, w, h).unwrap_or_else(|| r.below(30) + 1);
    let (used, free) = room(r, need);
    Case::List(stage(r, (w, h), used, free), vec![Step::Play(play)])
}

const MARK: u32 = u32::MAX;

fn write_record(journal: &mut [u8], k: usize, numbers: [u32; 3]) {
    for (j, n) in numbers.into_iter().enumerate() {
        bytes::set(journal, JOURNAL_RECORD * k + 4 * j, n);
    }
}

/// A journal that no play wrote: pixels named twice, off the surface, too many, too few, no closing record.
fn forged(r: &mut Random, width: u32, height: u32) -> (Vec<u8>, u64) {
    let before = if r.once_in(60) { r.below(3_000) } else { r.below(40) };
    let behind = r.below(4);
    let mut journal = r.bytes((before + 1 + behind) as usize * JOURNAL_RECORD);
    let named = match r.below(12) {
        0..=5 => r.below(before + 1) as u32,
        6..=8 => before as u32,
        9 => before as u32 + 1,
        10 => 0,
        _ => r.pick_or(&[u32::MAX, 1 << 31, before as u32 + 2], Random::word),
    };
    let first = before.saturating_sub(named as u64);
    for k in first..before {
        let x = r.below(width.max(1) as u64) as u32;
        let y = r.below(height.max(1) as u64) as u32;
        let old = r.word();
        write_record(&mut journal, k as usize, [x, y, old]);
    }
    if r.percent(25) && first < before {
        // One of them off the surface; the first and the last are the likeliest to be missed.
        let k = r.pick_or(&[first, before - 1], |r| first + r.below(before - first));
        let x = r.below(width.max(1) as u64) as u32;
        let y = r.below(height.max(1) as u64) as u32;
        let off = match r.below(6) {
            0 => [width, y],
            1 => [x, height],
            2 => [r.pick_or(&[u32::MAX, 1 << 31, width.wrapping_add(1)], Random::word), y],
            3 => [x, r.pick_or(&[u32::MAX, 1 << 31, height.wrapping_add(1)], Random::word)],
            4 => [MARK, 0],
            // A place that is on the surface only if row and column are lost.
            _ => [width, 0],
        };
        let old = r.word();
        write_record(&mut journal, k as usize, [off[0], off[1], old]);
    }
    let mark = if r.percent(90) { MARK } else { r.pick_or(&[0, MARK - 1, MARK >> 1, 1 << 31], Random::word) };
    let third = r.pick_or(&[ALPHABLEND, MASKBLT, STRETCHDIBITS, 0, MARK], Random::word);
    write_record(&mut journal, before as usize, [mark, named, third]);
    (journal, before + 1)
}

fn single_undo(r: &mut Random) -> Case {
    let sides = sides(r);
    let mut s = stage(r, sides, 0, 0);
    match r.below(12) {
        // Nothing in use, with whatever journal.
        0..=1 => {
            let records = r.below(10) as usize;
            s.journal = r.bytes(JOURNAL_RECORD * records);
            s.used = 0;
        }
        // Any bytes.
        2 => {
            let records = 1 + r.below(20);
            s.journal = r.bytes(JOURNAL_RECORD * records as usize);
            s.used = 1 + r.below(records);
        }
        _ => (s.journal, s.used) = forged(r, s.width, s.height),
    }
    match r.below(40) {
        0..=1 => {
            let length = s.journal.len() + part_of_record(r);
            s.journal.resize(length, 0);
        }
        2..=3 => s.used = odd_count(r, (s.journal.len() / JOURNAL_RECORD) as u64),
        // A shorter count: the record before is read as the closing one.
        4 => s.used = s.used.saturating_sub(1),
        _ => {}
    }
    Case::List(s, vec![Step::Undo])
}

fn read(r: &mut Random) -> Case {
    let (width, height) = sides(r);
    let record = makers::any(r, Aim { width, height }, 35);
    let mask = r.pick(&[1, 1, 2, 0x100, 1 << 16, 1 << 31, u32::MAX]);
    Case::Read(record, mask)
}

pub fn steps(r: &mut Random, sides: (u32, u32), most: u64, sound_percent: u64) -> Vec<Step> {
    let undo_percent = r.pick(&[15, 30, 45]);
    (0..1 + r.below(most))
        .map(
            |_| {
                if r.percent(undo_percent) {
                    Step::Undo
                } else {
                    Step::Play(play(r, sides.0, sides.1, sound_percent))
                }
            },
        )
        .collect()
}

fn pile(r: &mut Random) -> Case {
    let sides = small_sides(r);
    let steps = steps(r, sides, 24, 75);
    // Room for all, for some, for hardly one.
    let pixels = (sides.0 * sides.1) as u64;
    let records = match r.below(8) {
        0 => r.below(pixels + 2),
        1..=2 => r.below(4 * pixels + 2),
        _ => 4 * pixels + r.below(20 * pixels + 2),
    };
    let s = Stage {
        width: sides.0,
        height: sides.1,
        surface: surface(r, pixels as usize),
        journal: r.bytes(JOURNAL_RECORD * records as usize),
        used: 0,
        lead: lead(r),
    };
    Case::Pile(s, steps)
}

fn list(r: &mut Random) -> Case {
    let sides = sides(r);
    let steps = steps(r, sides, 8, 70);
    let (used, free) = (r.below(20), r.below(1_200));
    let mut s = stage(r, sides, used, free);
    if r.percent(50) && s.surface.len() > 1 {
        // Undos may go down into a journal that no play wrote.
        let (journal, used) = forged(r, s.width, s.height);
        let free = s.journal.len() / JOURNAL_RECORD * JOURNAL_RECORD;
        s.journal.resize(free, 0);
        s.journal.splice(0..0, journal[..JOURNAL_RECORD * used as usize].iter().copied());
        s.used = used;
    }
    Case::List(s, steps)
}

fn long_record(r: &mut Random) -> Case {
    let sides = small_sides(r);
    let mut play = play(r, sides.0, sides.1, 80);
    let (used, free) = (r.below(5), 200);
    let stage = stage(r, sides, used, free);
    let length = match r.below(8) {
        0..=1 => MOST_RECORD,
        2 => MOST_RECORD - 4,
        3 => MOST_RECORD + 1,
        4..=5 => MOST_RECORD + 4,
        6 => MOST_RECORD + 4 * (1 + r.below(1_000)) as usize,
        _ => MOST_RECORD + 1 + r.below(4_000) as usize,
    };
    // Size mostly follows the length, so that only the length is at fault.
    if r.percent(85) {
        bytes::set(&mut play.record, SIZE, length as u32);
    }
    Case::LongRecord(stage, play, length)
}

fn long_journal(r: &mut Random) -> Case {
    let sides = small_sides(r);
    let steps = steps(r, sides, 4, 85);
    let mut s = stage(r, sides, 0, 0);
    s.journal = Vec::new();
    let length = match r.below(8) {
        0..=3 => LONGEST_JOURNAL,
        4..=5 => LONGEST_JOURNAL + JOURNAL_RECORD,
        6 => LONGEST_JOURNAL + JOURNAL_RECORD * (1 + r.below(4)) as usize,
        _ => LONGEST_JOURNAL - JOURNAL_RECORD + r.below(2 * JOURNAL_RECORD as u64 + 1) as usize,
    };
    s.used = match r.below(8) {
        0 => 0,
        1..=3 => MOST_RECORDS - r.below(200),
        4 => MOST_RECORDS,
        5 => MOST_RECORDS + 1,
        6 => odd_count(r, MOST_RECORDS),
        _ => r.below(MOST_RECORDS),
    };
    Case::LongJournal(s, steps, length)
}

/// The case of this seed and number.
pub fn case(seed: u64, number: u64) -> Case {
    let mut r = Random::of(seed, number);
    if number >= RUNS {
        return Case::Run(runs::run(&mut r));
    }
    match r.below(100) {
        0..=35 => single_play(&mut r),
        36..=53 => single_undo(&mut r),
        54..=76 => read(&mut r),
        77..=88 => pile(&mut r),
        89..=93 => list(&mut r),
        94..=96 => long_record(&mut r),
        _ => long_journal(&mut r),
    }
}

// ------------------------------------------------------------------ printing

/// Bytes in hex, 32 to a line; long ones are cut.
pub fn hex(bytes: &[u8]) -> String {
    const MOST: usize = 4_096;
    let mut text = String::new();
    for (k, line) in bytes[..bytes.len().min(MOST)].chunks(32).enumerate() {
        text.push_str(&format!("    {:6}:", 32 * k));
        for (j, b) in line.iter().enumerate() {
            text.push_str(if j % 4 == 0 { " " } else { "" });
            text.push_str(&format!("{b:02x}"));
        }
        text.push('\n');
    }
    if bytes.len() > MOST {
        text.push_str(&format!("    ... {} bytes in all\n", bytes.len()));
    }
    text
}

impl fmt::Display for Stage {
    fn fmt(&self, f: &mut fmt::Formatter) -> fmt::Result {
        writeln!(
            f,
            "  surface {} by {}, {} pixels lent; journal of {} bytes, {} records in use",
            self.width,
            self.height,
            self.surface.len(),
            self.journal.len(),
            self.used
        )?;
        let pixels: Vec<u8> = self.surface.iter().flat_map(|n| n.to_le_bytes()).collect();
        write!(f, "  surface, little-endian:\n{}  journal:\n{}", hex(&pixels), hex(&self.journal))
    }
}

impl fmt::Display for Play {
    fn fmt(&self, f: &mut fmt::Formatter) -> fmt::Result {
        let c = &self.clip;
        write!(
            f,
            "  play, clip {} {} {} {}, brush {:#010x}, record of {} bytes:\n{}",
            c.left,
            c.top,
            c.right,
            c.bottom,
            self.brush,
            self.record.len(),
            hex(&self.record)
        )
    }
}

fn print_steps(f: &mut fmt::Formatter, steps: &[Step]) -> fmt::Result {
    for step in steps {
        match step {
            Step::Play(play) => write!(f, "{play}")?,
            Step::Undo => writeln!(f, "  undo")?,
        }
    }
    Ok(())
}

impl fmt::Display for Case {
    fn fmt(&self, f: &mut fmt::Formatter) -> fmt::Result {
        match self {
            Case::List(stage, steps) => {
                write!(f, "list of {} calls\n{stage}", steps.len())?;
                print_steps(f, steps)
            }
            Case::Pile(stage, steps) => {
                write!(f, "list of {} calls, against the pile too\n{stage}", steps.len())?;
                print_steps(f, steps)
            }
            Case::Read(record, mask) => {
                write!(
                    f,
                    "reading of source and mask (asked by {mask}), record of {} bytes:\n{}",
                    record.len(),
                    hex(record)
                )
            }
            Case::LongRecord(stage, play, length) => {
                write!(f, "play and reading, record followed by zeros up to {length} bytes\n{stage}{play}")
            }
            Case::LongJournal(stage, steps, length) => {
                write!(f, "list of {} calls, journal of {length} zero bytes\n{stage}", steps.len())?;
                print_steps(f, steps)
            }
            Case::Run(run) => write!(f, "{run}"),
        }
    }
}
