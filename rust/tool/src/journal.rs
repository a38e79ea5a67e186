//! The journal as a file, so that plays can be taken back later.
//!
//! All numbers are little-endian: mark (8 bytes), version (4), width (4), height (4), count in use (8), checksum of the
//! surface as it is after the plays (4), checksum of the records (4), then the records in use.

use std::fs::File;
use std::io::Read;
use std::path::Path;

use face::constants::{BAD_CLOSING, JOURNAL_RECORD, MOST_JOURNAL, NO_ROOM};
use face::Clip;

use crate::bytes::{u32_at, u64_at};
use crate::library::{self, Surface};
use crate::sheet::Sheet;
use crate::{crc, file_kinds, files, words};

const MARK: &[u8; 8] = b"lacrjrnl";
const VERSION: u32 = 1;
const HEADER: usize = 36;
/// Room a journal gets first; it doubles when that is not enough.
const FIRST_RECORDS: usize = 65_536;
/// The first number of a closing record.
const CLOSING: u32 = 0xFFFF_FFFF;

/// The records, those in use first, and how many are in use.
#[derive(Clone, Debug, Default, PartialEq, Eq)]
pub struct Journal {
    records: Vec<u8>,
    used: u64,
}

/// Why a file is not read as this sheet's journal.
#[derive(Debug, PartialEq, Eq)]
pub enum Refusal {
    /// Some other file, or one that cannot be read: never written over.
    Foreign(String),
    /// A journal that is damaged, another sheet's or of another version.
    Unfit(String),
}

impl Refusal {
    pub fn words(self) -> String {
        match self {
            Refusal::Foreign(words) | Refusal::Unfit(words) => words,
        }
    }
}

/// One play in a journal.
#[derive(Clone, Copy, Debug, PartialEq, Eq)]
pub struct Play {
    /// The type of the record that was played.
    pub kind: u32,
    pub pixels: u32,
    /// The place of its first record.
    first: u32,
}

impl Play {
    /// One for each pixel, and the closing one.
    pub fn records(&self) -> u64 {
        self.pixels as u64 + 1
    }
}

/// First and last column and row that a play's pixels have.
#[derive(Clone, Copy, Debug, PartialEq, Eq)]
pub struct Span {
    pub columns: (u32, u32),
    pub rows: (u32, u32),
}

impl Journal {
    pub fn new() -> Journal {
        Journal::default()
    }

    /// Whether the file begins as a journal, were it damaged or another sheet's.
    pub fn is_one(path: &Path) -> Result<bool, String> {
        let mut bytes = Vec::new();
        let read = File::open(path).and_then(|file| file.take(MARK.len() as u64).read_to_end(&mut bytes));
        read.map_err(|error| format!("cannot read {}: {error}", path.display()))?;
        Ok(bytes == MARK)
    }

    /// Reads the file and tests that it belongs to the sheet.
    pub fn load(path: &Path, sheet: &Sheet) -> Result<Journal, Refusal> {
        let bytes = files::read(path, (HEADER + MOST_JOURNAL * JOURNAL_RECORD) as u64).map_err(Refusal::Foreign)?;
        Journal::parse(bytes, sheet).map_err(|refusal| match refusal {
            Refusal::Foreign(words) => Refusal::Foreign(format!("{}: {words}", path.display())),
            Refusal::Unfit(words) => Refusal::Unfit(format!("{}: {words}", path.display())),
        })
    }

    fn parse(mut bytes: Vec<u8>, sheet: &Sheet) -> Result<Journal, Refusal> {
        if !bytes.starts_with(MARK) {
            let unknown = || "this is no journal: it does not begin as one".to_string();
            return Err(Refusal::Foreign(file_kinds::mixed_up(&bytes, "a journal").unwrap_or_else(unknown)));
        }
        let unfit = |words: &str| Refusal::Unfit(words.to_string());
        let header = |at| u32_at(&bytes, at).ok_or_else(|| unfit("the journal is cut off"));
        let version = header(8)?;
        if version != VERSION {
            return Err(Refusal::Unfit(format!("the journal has version {version}; this tool knows {VERSION}")));
        }
        let used = u64_at(&bytes, 20).ok_or_else(|| unfit("the journal is cut off"))?;
        let (sides, sheet_sum, records_sum) = ((header(12)?, header(16)?), header(28)?, header(32)?);
        if used > MOST_JOURNAL as u64 || (bytes.len() - HEADER) as u64 != used * JOURNAL_RECORD as u64 {
            return Err(unfit("the journal's length is not what its count in use says"));
        }
        if crc::of(&bytes[HEADER..]) != records_sum {
            return Err(unfit("the journal is damaged: its records' checksum is wrong"));
        }
        let surface = &sheet.surface;
        if sides != (surface.width, surface.height) {
            let words = format!(
                "the journal belongs to another sheet: its surface is {} by {} pixels, this one {} by {}",
                sides.0, sides.1, surface.width, surface.height
            );
            return Err(Refusal::Unfit(words));
        }
        if sheet_sum != sheet.checksum() {
            return Err(unfit("the journal belongs to another sheet, or to an earlier or later state of this one"));
        }
        bytes.drain(..HEADER);
        let journal = Journal { records: bytes, used };
        if journal.plays().is_none() {
            return Err(Refusal::Unfit(words::numbered(BAD_CLOSING)));
        }
        Ok(journal)
    }

    /// The file's header, and the records in use behind it.
    pub fn parts(&self, sheet: &Sheet) -> (Vec<u8>, &[u8]) {
        let records = &self.records[..self.used as usize * JOURNAL_RECORD];
        let mut header = MARK.to_vec();
        header.extend(VERSION.to_le_bytes());
        header.extend(sheet.surface.width.to_le_bytes());
        header.extend(sheet.surface.height.to_le_bytes());
        header.extend(self.used.to_le_bytes());
        header.extend(sheet.checksum().to_le_bytes());
        header.extend(crc::of(records).to_le_bytes());
        (header, records)
    }

    /// The plays by their closing records, from the last to the first. None, once, where they do not add up.
    fn backwards(&self) -> impl Iterator<Item = Option<Play>> + '_ {
        let mut left = self.used;
        std::iter::from_fn(move || {
            let closing = left.checked_sub(1)?;
            let play = self.closed_at(closing);
            left = play.map_or(0, |play| play.first as u64);
            Some(play)
        })
    }

    fn closed_at(&self, closing: u64) -> Option<Play> {
        let at = closing as usize * JOURNAL_RECORD;
        let number = |place: usize| u32_at(&self.records, at + 4 * place);
        let (mark, pixels, kind) = (number(0)?, number(1)?, number(2)?);
        let first = closing.checked_sub(pixels as u64)? as u32;
        (mark == CLOSING).then_some(Play { kind, pixels, first })
    }

    /// How many plays it holds; None where their closing records do not add up.
    pub fn plays(&self) -> Option<u64> {
        self.backwards().try_fold(0, |plays, play| play.map(|_| plays + 1))
    }

    /// The plays from the first to the last.
    pub fn list(&self) -> Vec<Play> {
        let mut plays: Vec<Play> = self.backwards().flatten().collect();
        plays.reverse();
        plays
    }

    /// Where a play's pixels lie; None where it drew nothing.
    pub fn span(&self, play: &Play) -> Option<Span> {
        let records = self.records.chunks_exact(JOURNAL_RECORD).skip(play.first as usize).take(play.pixels as usize);
        let places = records.filter_map(|record| Some((u32_at(record, 0)?, u32_at(record, 4)?)));
        places.fold(None, |span: Option<Span>, (column, row)| {
            let Span { columns, rows } = span.unwrap_or(Span { columns: (column, column), rows: (row, row) });
            Some(Span {
                columns: (columns.0.min(column), columns.1.max(column)),
                rows: (rows.0.min(row), rows.1.max(row)),
            })
        })
    }

    /// How many records are in use.
    pub fn used(&self) -> u64 {
        self.used
    }

    /// Plays the record. Where the library finds no room the journal grows, as far as it may. Err is the status.
    pub fn play(&mut self, surface: &mut Surface, record: &[u8], clip: Clip, brush: u32) -> Result<u32, u32> {
        loop {
            match library::play(surface, &mut self.records, &mut self.used, record, clip, brush) {
                Err(NO_ROOM) if self.records.len() < MOST_JOURNAL * JOURNAL_RECORD => {
                    let more = (self.records.len() / JOURNAL_RECORD * 2).clamp(FIRST_RECORDS, MOST_JOURNAL);
                    self.records.resize(more * JOURNAL_RECORD, 0);
                }
                answer => return answer,
            }
        }
    }

    /// Takes back the last play. Err is the status.
    pub fn undo(&mut self, surface: &mut Surface) -> Result<u32, u32> {
        library::undo(surface, &self.records, &mut self.used)
    }

    /// Forgets all plays but keeps the room.
    pub fn forget(&mut self) {
        self.used = 0;
    }
}

#[cfg(test)]
mod tests {
    use super::*;
    use face::constants::NOTHING;
    use records::{operation, Record, STRETCHDIBITS};

    const WHOLE: Clip = Clip { left: 0, top: 0, right: 4, bottom: 2 };

    fn sheet() -> Sheet {
        Sheet::new(Surface { width: 4, height: 2, pixels: (1..9).collect() }, true)
    }

    /// The brush over a target from the corner on.
    fn brush_record(width: i32, height: i32) -> Vec<u8> {
        Record::new(STRETCHDIBITS, [0, 0, width, height], operation::rop(0xF0)).bytes()
    }

    fn played() -> (Sheet, Journal) {
        let (mut sheet, mut journal) = (sheet(), Journal::new());
        assert_eq!(journal.play(&mut sheet.surface, &brush_record(4, 2), WHOLE, 5), Ok(8));
        assert_eq!(journal.play(&mut sheet.surface, &brush_record(1, 2), WHOLE, 6), Ok(2));
        (sheet, journal)
    }

    fn file(sheet: &Sheet, journal: &Journal) -> Vec<u8> {
        let (header, records) = journal.parts(sheet);
        [&header, records].concat()
    }

    #[test]
    fn there_and_back() {
        let (mut after, journal) = played();
        let bytes = file(&after, &journal);
        assert_eq!(bytes.len(), HEADER + 12 * JOURNAL_RECORD);
        let mut read = Journal::parse(bytes, &after).unwrap();
        assert_eq!((read.plays(), read.used), (Some(2), 12));
        let listed: Vec<_> = read.list().iter().map(|play| (play.kind, play.records(), read.span(play))).collect();
        let whole = Span { columns: (0, 3), rows: (0, 1) };
        let left = Span { columns: (0, 0), rows: (0, 1) };
        assert_eq!(listed, [(STRETCHDIBITS, 9, Some(whole)), (STRETCHDIBITS, 3, Some(left))]);
        assert_eq!(read.undo(&mut after.surface), Ok(2));
        assert_eq!(read.undo(&mut after.surface), Ok(8));
        assert_eq!(read.undo(&mut after.surface), Err(NOTHING));
        assert_eq!(after.surface, sheet().surface);
        let empty = file(&after, &read);
        assert_eq!(empty.len(), HEADER);
        assert_eq!(Journal::parse(empty, &after).unwrap().plays(), Some(0));
    }

    #[test]
    fn another_sheet() {
        let (mut after, journal) = played();
        let bytes = file(&after, &journal);
        let refusal = Journal::parse(bytes.clone(), &sheet()).unwrap_err();
        assert!(matches!(refusal, Refusal::Unfit(words) if words.contains("another sheet")));
        (after.surface.width, after.surface.height) = (2, 4);
        let refusal = Journal::parse(bytes, &after).unwrap_err();
        assert!(refusal.words().contains("its surface is 4 by 2 pixels, this one 2 by 4"));
    }

    /// No cut and no changed byte passes, or makes it stop.
    #[test]
    fn every_cut_and_change_is_refused() {
        let (after, journal) = played();
        let good = file(&after, &journal);
        for length in 0..good.len() {
            assert!(Journal::parse(good[..length].to_vec(), &after).is_err());
        }
        for place in 0..good.len() {
            for change in [1, 0x80, 0xFF] {
                let mut wrong = good.clone();
                wrong[place] ^= change;
                assert!(Journal::parse(wrong, &after).is_err(), "byte {place}");
            }
        }
    }

    #[test]
    fn records_that_are_no_plays() {
        let sheet = sheet();
        for numbers in [[0, 0, 1], [CLOSING, 1, 0x51], [CLOSING, CLOSING, 0x51]] {
            let mut records: Vec<u8> = numbers.iter().flat_map(|number| number.to_le_bytes()).collect();
            records.resize(JOURNAL_RECORD, 0);
            let journal = Journal { records, used: 1 };
            assert_eq!(journal.plays(), None);
            let refusal = Journal::parse(file(&sheet, &journal), &sheet).unwrap_err();
            assert!(refusal.words().starts_with("status 16"));
        }
    }

    #[test]
    fn a_journal_grows_up_to_its_bound() {
        let mut sheet = sheet();
        let mut full = Journal { records: vec![0; MOST_JOURNAL * JOURNAL_RECORD], used: MOST_JOURNAL as u64 - 8 };
        assert_eq!(full.play(&mut sheet.surface, &brush_record(4, 2), WHOLE, 5), Err(NO_ROOM));
        assert_eq!(full.used, MOST_JOURNAL as u64 - 8);
        assert_eq!(full.play(&mut sheet.surface, &brush_record(4, 1), WHOLE, 5), Ok(4));

        let mut large = Surface { width: 400, height: 400, pixels: vec![0; 160_000] };
        let mut journal = Journal::new();
        let clip = Clip { left: 0, top: 0, right: 400, bottom: 400 };
        assert_eq!(journal.play(&mut large, &brush_record(400, 400), clip, 5), Ok(160_000));
        assert_eq!(journal.records.len(), 4 * FIRST_RECORDS * JOURNAL_RECORD);
        journal.forget();
        assert_eq!(journal.undo(&mut large), Err(NOTHING));
    }
}
