//! A file's bitmap records in order, and what else in it is not honoured.

use std::collections::BTreeMap;

use crate::bytes::u32_at;
use crate::device::{At, Brush, Device};
use crate::emf::{self, Damage, Record};
use crate::emf_header::EmfHeader;
use crate::facts::{Facts, Rectangle, Target};
use crate::library::{self, Which};
use crate::reach::{reach, Area};
use crate::record_types::{self, EOF, HEADER};
use crate::words;

const COMMENT: u32 = 70;
/// The brush that is used where none is given.
pub const BLACK: u32 = 0;
/// "EMF+", at byte 12 of a comment that holds EMF+ records.
const EMF_PLUS: u32 = 0x2B46_4D45;

/// What becomes of a bitmap record.
#[derive(Clone, Copy, Debug, PartialEq, Eq)]
pub enum Fate {
    Played,
    /// The library refuses it with this status.
    Refused(u32),
    /// Its type is not played.
    Skipped,
    /// The user does not want it.
    LeftOut,
}

/// One bitmap record.
#[derive(Clone, Copy, Debug)]
pub struct Listed<'a> {
    /// Among the file's bitmap records, from 1 on.
    pub number: usize,
    pub record: Record<'a>,
    pub fate: Fate,
}

impl Listed<'_> {
    /// The record in words, without its file.
    pub fn name(&self) -> String {
        format!("record {} at offset {}: {}", self.number, self.record.offset, record_types::named(self.record.kind))
    }

    /// The pixels it covers. None where the record is too short to tell.
    pub fn target(&self) -> Option<Area> {
        Facts::read(self.record.bytes).target_rectangle().map(Area::of)
    }

    /// How many pixels a play of it counts under this cut clip, which is called so, or why none. None where the record is
    /// too short to tell.
    pub fn reach(&self, clip: Area, called: &str) -> Option<Result<u64, String>> {
        let (bounds, target) = (Facts::read(self.record.bytes).bounds?, self.target()?);
        Some(reach(bounds, target, clip).map_err(|nothing| nothing.words(bounds, target, called)))
    }
}

pub struct Survey<'a> {
    /// None where the walk has not come past it.
    pub header: Option<EmfHeader>,
    pub records: Vec<Listed<'a>>,
    /// How many records are no bitmap records, beside header and EOF.
    pub others: u64,
    /// One line for each type of bitmap records that is not played, without the file's name.
    pub skipped: Vec<String>,
    /// Likewise for each other thing that is not honoured.
    pub warnings: Vec<String>,
    /// Why the walk has ended before the EOF record; all else tells of what came before.
    pub damage: Option<Damage>,
}

/// Walks the file. `brush` is the colour that plays are told to use, where they are; `wanted` says which numbers are to be
/// played.
pub fn survey(bytes: &[u8], brush: Option<u32>, wanted: impl Fn(usize) -> bool) -> Survey<'_> {
    let mut seen = Seen::new(brush);
    let (mut header, mut damage) = (None, None);
    let mut walk = emf::walk(bytes);
    for step in walk.by_ref() {
        match step {
            Ok(record) if record_types::is_bitmap(record.kind) => seen.bitmap(record, &wanted),
            Ok(record) if record.offset == 0 => header = EmfHeader::read(record.bytes),
            Ok(record) if record.kind == EOF => {}
            Ok(record) => seen.other(&record),
            Err(found) => damage = Some(found),
        }
    }
    // They do no harm, but whoever made the file may have meant them to be played.
    let behind = if damage.is_none() { walk.left() } else { 0 };
    let mut warnings = seen.warnings();
    if damage.is_none() && seen.records.is_empty() {
        warnings.push("no bitmap record: nothing of this file is drawn".to_string());
    }
    if behind > 0 {
        warnings.push(format!("{} behind the EOF record not looked at", words::things(behind as u64, "byte")));
    }
    Survey { header, skipped: seen.skipped(), records: seen.records, others: seen.others, warnings, damage }
}

/// What the walk has come by.
struct Seen<'a> {
    brush: Option<u32>,
    device: Device,
    records: Vec<Listed<'a>>,
    /// Records that set what is not honoured, and in words what that comes to: the bitmap records at which it is in force.
    settings: BTreeMap<(At, String), Vec<usize>>,
    /// Bitmap records that use a brush where nobody has named one.
    without_brush: Vec<usize>,
    skipped: BTreeMap<u32, Vec<usize>>,
    drawing: BTreeMap<u32, u64>,
    unknown: u64,
    emf_plus: u64,
    others: u64,
}

impl<'a> Seen<'a> {
    fn new(brush: Option<u32>) -> Seen<'a> {
        Seen {
            brush,
            device: Device::new(),
            records: Vec::new(),
            settings: BTreeMap::new(),
            without_brush: Vec::new(),
            skipped: BTreeMap::new(),
            drawing: BTreeMap::new(),
            unknown: 0,
            emf_plus: 0,
            others: 0,
        }
    }

    fn bitmap(&mut self, record: Record<'a>, wanted: &impl Fn(usize) -> bool) {
        let number = self.records.len() + 1;
        let fate = fate(&record, wanted(number));
        match fate {
            Fate::Played => self.settings_at(number, &record),
            Fate::Skipped => self.skipped.entry(record.kind).or_default().push(number),
            Fate::Refused(_) | Fate::LeftOut => {}
        }
        self.records.push(Listed { number, record, fate });
    }

    /// Notes what is in force at a record that is played.
    fn settings_at(&mut self, number: usize, record: &Record) {
        let facts = Facts::read(record.bytes);
        let mut found = Vec::new();
        for (at, words) in self.device.mapping() {
            found.push((at, format!("{words} is not honoured; coordinates are taken as sheet pixels")));
        }
        for at in self.device.clips() {
            found.push((at, "the file's clip is not honoured; only --clip is".to_string()));
        }
        if let Some((at, words)) = self.device.stretch().filter(|_| stretches(&facts)) {
            found.push((at, format!("{words} is not honoured; pixels are left out or repeated")));
        }
        if let Some(at) = self.device.adjustment().filter(|_| stretches(&facts)) {
            found.push((at, "the adjustment of colours is not honoured".to_string()));
        }
        if let Some(at) = self.device.matching() {
            found.push((at, "the matching of colours is not honoured".to_string()));
        }
        if facts.uses_brush() {
            found.extend(self.other_brush());
            if self.brush.is_none() && self.device.brush().is_none() {
                self.without_brush.push(number);
            }
        }
        for setting in found {
            self.settings.entry(setting).or_default().push(number);
        }
    }

    /// The brush that the file selects, where it is not the one that is used.
    fn other_brush(&self) -> Option<(At, String)> {
        let used = self.brush.unwrap_or(BLACK) & 0xFF_FFFF;
        match self.device.brush()? {
            (_, Brush::Solid(colour)) if colour == used => None,
            (at, Brush::Solid(colour)) => Some((
                at,
                format!("the file's brush {colour:06X} is not used, but {used:06X}; --brush {colour:06X} would use it"),
            )),
            (at, Brush::Other(words)) => Some((at, format!("the file selects {words}, but {used:06X} is used"))),
        }
    }

    fn other(&mut self, record: &Record) {
        self.others += 1;
        let gathered = |kind| self.device.in_path() && record_types::is_gathered(kind);
        match record.kind {
            COMMENT => self.emf_plus += u64::from(u32_at(record.bytes, 12) == Some(EMF_PLUS)),
            kind if record_types::draws_otherwise(kind) && !gathered(kind) => {
                *self.drawing.entry(kind).or_default() += 1
            }
            // A header stands at the front only.
            kind => self.unknown += u64::from(kind == HEADER || !record_types::is_known(kind)),
        }
        self.device.take(record);
    }

    fn skipped(&self) -> Vec<String> {
        let line = |(kind, numbers): (&u32, &Vec<usize>)| {
            let (count, name) = (words::things(numbers.len() as u64, "record"), record_types::named(*kind));
            format!("{count} of type {name} not played: {}", words::records(numbers))
        };
        self.skipped.iter().map(line).collect()
    }

    fn warnings(&self) -> Vec<String> {
        let mut warnings = Vec::new();
        for ((at, words), numbers) in &self.settings {
            let (name, records) = (record_types::name(at.kind), words::records(numbers));
            warnings.push(format!("offset {}: {name}, in force at {records}: {words}", at.offset));
        }
        if !self.without_brush.is_empty() {
            let records = words::records(&self.without_brush);
            warnings.push(format!("the file selects no brush for {records}, and without --brush {BLACK:06X} is used"));
        }
        if !self.drawing.is_empty() {
            let each = |(kind, count): (&u32, &u64)| format!("{} {}", record_types::name(*kind), words::count(*count));
            let count = words::things(self.drawing.values().sum(), "record");
            let kinds: Vec<String> = self.drawing.iter().map(each).collect();
            warnings.push(format!("{count} with lines, shapes or text not played: {}", kinds.join(", ")));
        }
        if self.emf_plus > 0 {
            let count = words::things(self.emf_plus, "EMF+ comment");
            warnings.push(format!("{count} not played: what stands only there is not drawn"));
        }
        if self.unknown > 0 {
            warnings
                .push(format!("{} of unknown types or out of place not played", words::things(self.unknown, "record")));
        }
        warnings
    }
}

fn fate(record: &Record, wanted: bool) -> Fate {
    if !wanted {
        return Fate::LeftOut;
    }
    if !record.is_played() {
        return Fate::Skipped;
    }
    // A reading judges the whole record, by the rules by which a play does.
    library::read(record.bytes, Which::Source).map_or_else(Fate::Refused, |_| Fate::Played)
}

/// Whether source and target differ in extent.
fn stretches(facts: &Facts) -> bool {
    let size = |rectangle: Rectangle| [rectangle.cx.unsigned_abs(), rectangle.cy.unsigned_abs()];
    match (facts.source, facts.source_rectangle, facts.target) {
        (Some(_), Some(source), Some(Target::Rectangle(target))) => size(source) != size(target),
        _ => false,
    }
}
