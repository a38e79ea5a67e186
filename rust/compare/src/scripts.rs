//! Random scripts (docs/SCRIPT.md), sound and with a fault.

use crate::calls;
use crate::makers::{self, Aim};
use crate::random::Random;
use face::constants::{JOURNAL_RECORD, MOST_SIDE};
use records::bytes;
use records::places::SIZE;
use records::script::{MARK, MOST_DATA, MOST_JOURNAL, MOST_PIXELS};

/// Bytes of a journal record.
const RECORD: u32 = JOURNAL_RECORD as u32;

/// A script in the making, and what the calls may ask of it.
struct Script {
    made: records::Script,
    width: u32,
    height: u32,
    pixels: u32,
    journal: u32,
}

impl Script {
    fn record(&self, r: &mut Random) -> Vec<u8> {
        let aim = Aim { width: self.width.clamp(1, MOST_SIDE), height: self.height.clamp(1, MOST_SIDE) };
        let mut record = makers::any(r, aim, 70);
        if r.once_in(60) {
            // As long as may be; the rest of the record is not looked at unless Size says so.
            record.resize(MOST_DATA, 0);
            if r.percent(50) {
                bytes::set(&mut record, SIZE, MOST_DATA as u32);
            }
        }
        record.truncate(MOST_DATA);
        record
    }
}

fn side(r: &mut Random) -> u32 {
    match r.below(40) {
        0 => r.pick(&[0, 4_096, 4_097, u32::MAX]),
        1 => 100 + r.below(150) as u32,
        _ => 1 + r.below(24) as u32,
    }
}

fn head(r: &mut Random) -> Script {
    let (width, height) = (side(r), side(r));
    let area = width as u64 * height as u64;
    let pixels = match r.below(40) {
        0 => MOST_PIXELS,
        1..=3 => r.below(600) as u32,
        _ => area.min(MOST_PIXELS as u64) as u32,
    };
    let journal = match r.below(40) {
        0 => MOST_JOURNAL,
        1 => r.below(5_000) as u32,
        _ => RECORD * r.below(6 * area.min(3_000) + 2) as u32,
    };
    let items = r.word();
    let surface = calls::surface(r, pixels as usize);
    let seed = r.word();
    let used = if r.percent(80) { 0 } else { r.below((journal / RECORD) as u64 + 2) as u32 };
    let made = records::Script::new(items, [width, height], &surface, journal, seed, used);
    Script { made, width, height, pixels, journal }
}

fn call(r: &mut Random, s: &mut Script) {
    match r.below(20) {
        0..=9 => {
            let record = s.record(r);
            let clip = calls::clip(r, s.width, s.height);
            s.made.play([clip.left, clip.top, clip.right, clip.bottom], r.word(), r.word(), &record);
        }
        10..=13 => s.made.undo(),
        14..=15 => {
            let record = s.record(r);
            s.made.read(r.below(2) as u32, &record);
        }
        16 => {
            let (w, h) = (side(r), side(r));
            let area = (w as u64 * h as u64).min(s.pixels as u64) as u32;
            let pixels = if r.percent(80) { area } else { r.below(s.pixels as u64 + 1) as u32 };
            let bytes = if r.percent(60) { s.journal } else { r.below(s.journal as u64 + 1) as u32 };
            s.made.lend(w, h, pixels, bytes);
            (s.width, s.height) = (w, h);
        }
        17 => {
            let records = s.journal / RECORD;
            s.made.count(r.pick_or(&[0, records, records + 1, u32::MAX], |r| r.below(500) as u32));
        }
        _ if s.journal >= 4 => {
            let at = r.pick_or(&[0, s.journal - 4], |r| r.below(s.journal as u64 - 3) as u32);
            s.made.poke(at, r.pick_or(&[u32::MAX, 0, 1], Random::word));
        }
        _ => s.made.undo(),
    }
}

/// One fault of the writer.
fn spoil(r: &mut Random, s: &mut Script) {
    let (pixels, journal) = (s.pixels, s.journal);
    let made = &mut s.made;
    let end = *made.opcodes.last().expect("the end is a call");
    match r.below(12) {
        0 => made.bytes.truncate(r.below(made.bytes.len() as u64) as usize),
        1 => made.bytes.truncate(end),
        2 => made.bytes.extend_from_slice(&r.word().to_le_bytes()[..1 + r.below(4) as usize]),
        3 => bytes::set(&mut made.bytes, 0, MARK ^ (1 << r.below(32))),
        4 => bytes::set(&mut made.bytes, 16, r.pick(&[MOST_PIXELS + 1, u32::MAX, 1 << 31])),
        5 => bytes::set(&mut made.bytes, 20 + 4 * pixels as usize, r.pick(&[MOST_JOURNAL + 1, u32::MAX, 1 << 31])),
        6 => {
            let at = r.pick(&made.opcodes);
            bytes::set(&mut made.bytes, at, r.pick_or(&[7, 8, 18, 1 << 31, u32::MAX], Random::word));
        }
        7 if !made.padding.is_empty() => {
            let at = r.pick(&made.padding);
            made.bytes[at] = 1 + r.below(255) as u8;
        }
        // Calls in place of the end: a picture that is neither source nor mask, too long a record, more lent than there is,
        // a number stored past the journal's end.
        kind => {
            made.bytes.truncate(end);
            match kind {
                8 => made.read(r.pick(&[2, u32::MAX, 256]), &[0; 12]),
                9 => made.read(0, &vec![0; MOST_DATA + 1]),
                10 => {
                    let more = r.pick(&[[1, 0], [0, 1], [u32::MAX - pixels, 0], [0, u32::MAX - journal]]);
                    made.lend(1, 1, pixels + more[0], journal + more[1]);
                }
                _ => made.poke(r.pick(&[journal, journal.saturating_sub(3), u32::MAX, u32::MAX - 3]), 7),
            }
            made.end();
        }
    }
}

/// The script of this seed and number.
pub fn script(seed: u64, number: u64) -> Vec<u8> {
    let mut r = Random::of(seed, number);
    let mut s = head(&mut r);
    for _ in 0..r.below(40) {
        call(&mut r, &mut s);
    }
    s.made.end();
    if r.percent(25) {
        spoil(&mut r, &mut s);
    }
    s.made.bytes
}
