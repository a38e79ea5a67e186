//! The script's calls, and the working sheet and journal that most of them are made on.

use records::{operation, Record, STRETCHDIBITS};

pub const WIDTH: u32 = 24;
pub const HEIGHT: u32 = 20;
/// Pixels of the head: one more than the widest sheet has columns.
pub const PIXELS: u32 = 4_097;
/// Bytes of a journal record.
pub const RECORD: u32 = second::journal::RECORD as u32;
pub const RECORDS: u32 = 60_000;
pub const JOURNAL: u32 = RECORDS * RECORD;
/// A journal of a byte less than three records.
pub const ODD: u32 = 3 * RECORD - 1;
/// Each group of plays writes its own stretch of the journal, so that the
/// sum at the end sees the old pixels of all of them.
pub const PAGE: u32 = 4_000;

/// Bit k for item k of document 02: those that are in force.
pub const ITEMS: u32 = 1 << 2 | 1 << 4 | 1 << 5 | 1 << 10;

type Clip = [i32; 4];
pub const WHOLE: Clip = [0, 0, WIDTH as i32, HEIGHT as i32];
pub const WIDEST: Clip = [i32::MIN, i32::MIN, i32::MAX, i32::MAX];

pub struct Script(pub records::Script);

impl Script {
    pub fn play(&mut self, clip: Clip, brush: u32, record: &[u8]) {
        // The tag is not looked at.
        self.0.play(clip, brush, brush ^ 0x5A5A_5A5A, record);
    }

    pub fn undo(&mut self) {
        self.0.undo();
    }

    pub fn read_source(&mut self, record: &[u8]) {
        self.0.read(0, record);
    }

    pub fn read_mask(&mut self, record: &[u8]) {
        self.0.read(1, record);
    }

    pub fn lend(&mut self, width: u32, height: u32, pixels: u32, journal: u32) {
        self.0.lend(width, height, pixels, journal);
    }

    pub fn count(&mut self, used: u32) {
        self.0.count(used);
    }

    /// One of the three numbers of journal record `k`.
    pub fn poke(&mut self, k: u32, number: u32, n: u32) {
        self.0.poke(RECORD * k + 4 * number, n);
    }

    pub fn poke_record(&mut self, k: u32, numbers: [u32; 3]) {
        for (number, n) in (0..).zip(numbers) {
            self.poke(k, number, n);
        }
    }
}

/// A record whose Bounds hold the working sheet.
pub fn record(kind: u32, target: [i32; 4], operation: u32) -> Record {
    Record::new(kind, target, operation).bounded([0, 0, WIDTH as i32 - 1, HEIGHT as i32 - 1])
}

/// A play of 0x51 without source over `target`.
pub fn brushed(target: [i32; 4], byte: u32) -> Record {
    record(STRETCHDIBITS, target, operation::rop(byte))
}

/// Source copied.
pub const COPY: u32 = 0x00CC_0020;
