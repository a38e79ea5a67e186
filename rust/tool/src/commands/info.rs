//! `lacrumont info`: what the bitmap records of files are, and whether they can be played.

mod json;
mod text;

use std::ffi::OsString;
use std::path::Path;

use face::constants::{MOST_SIDE, OK};

use super::arguments::Known;
use super::emf_files;
use super::output::{complain, Out, ERROR, FINE, REFUSED, WARNED};
use crate::emf_header::EmfHeader;
use crate::facts::Facts;
use crate::library::{self, Which};
use crate::reach::Area;
use crate::survey::{survey, Fate, Listed, BLACK};
use crate::{reasons, words};

const KNOWN: Known = Known { command: "info", valued: &[], flags: &["--json"] };

const HELP: &str = "\
lacrumont info FILE.emf [FILE.emf ..] [--json]

Lists the bitmap records of each file and says of each whether it can be played, before anything is written: number
(1, 2, 3 .. in the file's order), offset in the file, type, Size in bytes, Bounds (left, top, right, bottom), target,
source rectangle, pictures, operation, status. A record that would be refused is listed with the reason. Numbers count
all eight bitmap types: EMR_BITBLT, EMR_STRETCHBLT, EMR_MASKBLT, EMR_PLGBLT, EMR_SETDIBITSTODEVICE, EMR_STRETCHDIBITS,
EMR_ALPHABLEND and EMR_TRANSPARENTBLT. Other records are counted at the file's end. The header's line tells the size of
the whole picture and the device for which the file was made; coordinates are taken as sheet pixels all the same.

What a file sets and play does not honour (mappings, clips, brushes, other drawing) is listed as warnings, and so is a
record that would draw nothing, or only a part of its target, on any sheet. `play --dry-run` tells the same for one
sheet and one brush. A file that cannot be read or is damaged is told on standard error; the others are still listed.

  --json   one JSON document with the same facts: an object whose \"files\" is an array; what is absent is null

Exit status, the first that applies:
  1  an error of files or use
  2  a bitmap record would be refused, or is of a type that is not played
  3  there are warnings, or a record would draw nothing
  0  every bitmap record can be played
";

/// What was found out about one bitmap record.
struct Entry {
    /// Its place among the file's bitmap records, from 1 on.
    number: usize,
    offset: usize,
    facts: Facts,
    /// The library's judgement; 0 where it accepts the record.
    status: u32,
    verdict: Verdict,
}

enum Verdict {
    /// With a warning where every sheet cuts it.
    Playable(Option<String>),
    /// Accepted, but no pixel of any sheet is reached.
    Nothing(String),
    Refused(String),
    /// Of a type that is not played.
    NotPlayed,
}

/// Said of a type that is not.
const PLAYED_TYPES: &str = "this tool plays EMR_ALPHABLEND, EMR_MASKBLT and EMR_STRETCHDIBITS";

/// What is told at a file's end.
#[derive(Default)]
struct Summary {
    playable: u64,
    /// Those of them that every sheet cuts.
    cut: u64,
    nothing: u64,
    refused: u64,
    not_played: u64,
    /// Records without a bitmap, but for the header and EOF.
    others: u64,
    /// What in the file is not honoured.
    warnings: Vec<String>,
    error: Option<String>,
}

/// A listing under way, record by record.
trait Listing {
    fn begin(&mut self, out: &mut Out);
    fn unreadable(&mut self, path: &Path, error: &str, out: &mut Out);
    fn file(&mut self, path: &Path, bytes: usize, header: Option<&EmfHeader>, out: &mut Out);
    fn record(&mut self, entry: &Entry, out: &mut Out);
    fn file_end(&mut self, summary: &Summary, out: &mut Out);
    fn end(&mut self, out: &mut Out);
}

pub fn run(arguments: &[OsString], out: &mut Out) -> Result<u8, String> {
    let parsed = KNOWN.parse(arguments)?;
    if parsed.help {
        out.text(HELP);
        return Ok(FINE);
    }
    if parsed.plain.is_empty() {
        return Err(KNOWN.wrong("info needs one or more files"));
    }
    let mut text = text::Text::default();
    let mut json = json::Json::default();
    let listing: &mut dyn Listing = if parsed.has("--json") { &mut json } else { &mut text };
    listing.begin(out);
    let code = parsed.plain.iter().fold(FINE, |code, path| worse(code, list(path, listing, out)));
    listing.end(out);
    Ok(code)
}

/// The exit status that wins: 1 over 2 over 3 over 0.
fn worse(one: u8, other: u8) -> u8 {
    match (one, other) {
        (FINE, code) | (code, FINE) => code,
        _ => one.min(other),
    }
}

/// Lists one file, and gives its exit status.
fn list(path: &Path, listing: &mut dyn Listing, out: &mut Out) -> u8 {
    let bytes = match emf_files::read(path) {
        Ok(bytes) => bytes,
        Err(words) => {
            complain(&words);
            listing.unreadable(path, &words, out);
            return ERROR;
        }
    };
    // As if a play were told to use the brush that it uses without being told.
    let survey = survey(&bytes, Some(BLACK), |_| true);
    listing.file(path, bytes.len(), survey.header.as_ref(), out);
    let mut summary = Summary { others: survey.others, warnings: survey.warnings, ..Summary::default() };
    for listed in &survey.records {
        let entry = examine(listed);
        summary.add(&entry);
        listing.record(&entry, out);
    }
    if let Some(damage) = &survey.damage {
        let words = emf_files::damaged(path, damage);
        complain(&words);
        summary.error = Some(words);
    }
    listing.file_end(&summary, out);
    summary.code()
}

fn examine(listed: &Listed) -> Entry {
    let record = &listed.record;
    let status = library::read(record.bytes, Which::Source).err().unwrap_or(OK);
    let verdict = match listed.fate {
        Fate::Refused(status) => {
            let general = || words::status(status).to_string();
            Verdict::Refused(reasons::reason(record.bytes, status).unwrap_or_else(general))
        }
        Fate::Skipped => Verdict::NotPlayed,
        Fate::Played | Fate::LeftOut => on_any_sheet(listed),
    };
    Entry { number: listed.number, offset: record.offset, facts: Facts::read(record.bytes), status, verdict }
}

/// What an accepted record draws on the largest sheet: all, a part, or nothing.
fn on_any_sheet(listed: &Listed) -> Verdict {
    let largest = Area::of([0, 0, MOST_SIDE.into(), MOST_SIDE.into()]);
    let called = format!("every sheet, whose sides are at most {}", words::count(MOST_SIDE.into()));
    let target = listed.target().map_or(0, Area::pixels);
    match listed.reach(largest, &called) {
        Some(Err(why)) => Verdict::Nothing(why),
        Some(Ok(pixels)) if pixels < target => {
            let (pixels, target) = (words::count(pixels), words::count(target));
            Verdict::Playable(Some(format!("at most {pixels} of its target's {target} pixels lie on a sheet")))
        }
        _ => Verdict::Playable(None),
    }
}

impl Summary {
    fn bitmaps(&self) -> u64 {
        self.playable + self.nothing + self.refused + self.not_played
    }

    fn add(&mut self, entry: &Entry) {
        match entry.verdict {
            Verdict::Playable(ref cut) => {
                self.playable += 1;
                self.cut += u64::from(cut.is_some());
            }
            Verdict::Nothing(_) => self.nothing += 1,
            Verdict::Refused(_) => self.refused += 1,
            Verdict::NotPlayed => self.not_played += 1,
        }
    }

    fn code(&self) -> u8 {
        if self.error.is_some() {
            ERROR
        } else if self.refused + self.not_played > 0 {
            REFUSED
        } else if self.nothing + self.cut > 0 || !self.warnings.is_empty() {
            WARNED
        } else {
            FINE
        }
    }
}

#[cfg(test)]
mod tests {
    use super::*;

    #[test]
    fn an_error_wins_over_a_refusal_over_a_warning() {
        for (one, other, wins) in [(0, 0, 0), (0, 3, 3), (3, 2, 2), (2, 1, 1), (1, 3, 1), (0, 1, 1)] {
            assert_eq!((worse(one, other), worse(other, one)), (wins, wins));
        }
        let warned = Summary { warnings: vec!["x".to_string()], playable: 1, ..Summary::default() };
        assert_eq!(warned.code(), WARNED);
        assert_eq!(Summary { nothing: 1, ..Summary::default() }.code(), WARNED);
        assert_eq!(Summary { playable: 2, cut: 1, ..Summary::default() }.code(), WARNED);
        assert_eq!(Summary { refused: 1, ..warned }.code(), REFUSED);
        let damaged = Summary { not_played: 1, error: Some("x".to_string()), ..Summary::default() };
        assert_eq!(damaged.code(), ERROR);
        assert_eq!(Summary { error: None, ..damaged }.code(), REFUSED);
        assert_eq!(Summary { playable: 9, others: 9, ..Summary::default() }.code(), FINE);
    }
}
