//! `lacrumont play`: the files' bitmap records onto the sheet, in order.

use std::ffi::OsString;
use std::fs::File;
use std::path::{Path, PathBuf};

use face::Clip;

use super::arguments::{self, Arguments, Known};
use super::choice::Choice;
use super::emf_files;
use super::output::{complain, Out, FINE};
use super::playing::Playing;
use super::recovery;
use super::results::{check_out, write_both, Before, JournalFile, Picture};
use super::tally::Tally;
use crate::journal::{Journal, Refusal};
use crate::lock::Lock;
use crate::progress::Progress;
use crate::sheet::Sheet;
use crate::survey::{survey, Fate, Listed, BLACK};
use crate::{files, reasons, sheet_files, words};

const KNOWN: Known = Known {
    command: "play",
    valued: &["-o", "--clip", "--brush", "--journal", "--only", "--skip"],
    flags: &["--force", "--strict", "--dry-run", "--new-journal", "--no-wait"],
};

const HELP: &str = "\
lacrumont play SHEET FILE.emf [FILE.emf ..] -o OUT [options]

Plays every bitmap record of the files (alpha blend 0x72, mask blit 0x4E, stretched DIB 0x51) in order onto the sheet
and writes OUT. A record that is refused, of a type that is not played, or only partly on the sheet, is named on
standard error, and so is whatever else in a file is not honoured: mappings, clips, brushes, lines, text. A damaged EMF
file is an error: then nothing is written.

  -o OUT           the file to write, .png or .bmp
  --clip L,T,R,B   only pixels inside are drawn; right and bottom are not included; without it, the whole sheet. What
                   it cuts off is not warned about, what the sheet's end cuts off is
  --brush RRGGBB   the brush's colour, six hexadecimal digits; without it 000000, which is warned about where a record
                   uses it
  --only N[,N]     plays only these of the file's bitmap records, numbered from 1 as info lists them
  --skip N[,N]     leaves these out; both options need a single EMF file
  --strict         all or nothing: where a wanted record is refused or skipped, nothing is written
  --dry-run        says what would be drawn and how many journal records it takes, and writes nothing; needs no -o.
                   What a killed run left is set right all the same
  --journal FILE   keeps every old pixel in FILE, so that undo can take the plays back. A journal that is there and
                   belongs to SHEET is continued; without one it is begun. FILE.lock is there while a run has it
  --new-journal    begins a journal; one that is there is kept beside it as FILE.1, FILE.2 and so on
  --no-wait        an error if another run has the journal or writes OUT; without it, waits for that run
  --force          writes over OUT if it is there and not read-only

The last line tells of all bitmap records: played; drew nothing (accepted, but Bounds or target miss the clip);
refused; skipped (a type that is not played); left out (--only, --skip).

Exit status: 0 every wanted record was played and nothing was warned about
             1 an error of files or use: nothing was written
             2 a record was refused or skipped
             3 all were played, but there are warnings
";

/// What the command is asked to do.
struct Asked {
    sheet: PathBuf,
    emfs: Vec<PathBuf>,
    out: Option<PathBuf>,
    journal: Option<PathBuf>,
    clip: Option<Clip>,
    brush: Option<u32>,
    choice: Choice,
    force: bool,
    strict: bool,
    dry_run: bool,
    new_journal: bool,
    wait: bool,
}

pub fn run(arguments: &[OsString], out: &mut Out) -> Result<u8, String> {
    let parsed = KNOWN.parse(arguments)?;
    if parsed.help {
        out.text(HELP);
        return Ok(FINE);
    }
    let asked = Asked::of(&parsed)?;
    asked.check_names()?;

    // Before the sheet is read, so that no other run writes it or the journal before this one has.
    let lock = asked.lock()?;
    let held_out = recovery::hold(asked.out.as_deref().filter(|_| !asked.dry_run), asked.wait)?;
    let mut progress = Progress::new();
    let mut sheet = sheet_files::load(&asked.sheet, &mut progress)?;
    let (journal, before) = match &asked.journal {
        Some(path) => open_journal(path, &sheet, asked.new_journal)?,
        None => (Journal::new(), Before::Absent),
    };
    // All files are read and walked before the first pixel is drawn, so that a damaged one changes nothing.
    let files: Vec<Vec<u8>> = asked.emfs.iter().map(|path| emf_files::read(path)).collect::<Result<_, _>>()?;
    let mut tally = Tally::default();
    let records = asked.records(&files, &mut tally)?;
    if asked.strict && tally.is_short() {
        out.line(&format!("{}; nothing was written (--strict)", tally.line()));
        return Ok(tally.code());
    }
    if let Some(lost) = asked.out.as_ref().and_then(|out| sheet_files::lost(&sheet, out)) {
        tally.warn(&lost);
    }

    let scratch = (asked.journal.is_none() || asked.dry_run).then(Journal::new);
    let (clip, brush, held) = (asked.clip, asked.brush.unwrap_or(BLACK), journal.used());
    let mut playing = Playing { sheet: &mut sheet, journal, held, scratch, clip, brush, needed: 0, tally, out };
    for (done, (path, listed)) in records.iter().enumerate() {
        playing.play(path, listed)?;
        progress.tell("playing", done + 1, records.len());
    }
    if asked.dry_run {
        return playing.end_dry(asked.journal.as_deref());
    }
    let Playing { sheet, journal, mut tally, out, .. } = playing;
    let warnings = asked.write(sheet, &journal, before, held_out, lock, &mut progress)?;
    out.files_written = true;
    warnings.iter().for_each(|words| tally.warn(words));
    asked.end(&journal, tally, out)
}

impl Asked {
    fn of(parsed: &Arguments) -> Result<Asked, String> {
        let (sheet, emfs) = match &parsed.plain[..] {
            [sheet, emfs @ ..] if !emfs.is_empty() => (sheet.clone(), emfs.to_vec()),
            _ => return Err(KNOWN.wrong("play needs a sheet and one or more EMF files")),
        };
        let asked = Asked {
            sheet,
            emfs,
            out: parsed.path("-o"),
            journal: parsed.path("--journal"),
            clip: parsed.text("--clip").map(|text| arguments::clip(&text)).transpose()?,
            brush: parsed.text("--brush").map(|text| arguments::brush(&text)).transpose()?,
            choice: Choice::parse(parsed.text("--only").as_deref(), parsed.text("--skip").as_deref())?,
            force: parsed.has("--force"),
            strict: parsed.has("--strict"),
            dry_run: parsed.has("--dry-run"),
            new_journal: parsed.has("--new-journal"),
            wait: !parsed.has("--no-wait"),
        };
        if asked.out.is_none() && !asked.dry_run {
            return Err(KNOWN.wrong("-o OUT is missing"));
        }
        if asked.new_journal && asked.journal.is_none() {
            return Err(KNOWN.wrong("--new-journal needs --journal FILE"));
        }
        if asked.choice.is_given() && asked.emfs.len() > 1 {
            return Err(KNOWN.wrong("--only and --skip number the records of one EMF file, and there are more"));
        }
        Ok(asked)
    }

    /// No file may be written over another that is still needed; only the sheet itself may be OUT, under --force.
    fn check_names(&self) -> Result<(), String> {
        let both = |one: &Path, other: &Path, what: &str| match files::same(one, other) {
            true => Err(format!("{} cannot be {what} at once", one.display())),
            false => Ok(()),
        };
        if let Some(out) = &self.out {
            sheet_files::format(out)?;
            for emf in &self.emfs {
                both(emf, out, "an EMF file and OUT")?;
            }
        }
        if let Some(journal) = &self.journal {
            if let Some(out) = &self.out {
                both(journal, out, "the journal and OUT")?;
                both(&files::with_ending(journal, ".lock"), out, "the journal's lock and OUT")?;
            }
            both(journal, &self.sheet, "the journal and the sheet")?;
            for emf in &self.emfs {
                both(journal, emf, "the journal and an EMF file")?;
            }
        }
        self.out.as_ref().map_or(Ok(()), |out| check_out(out, self.force))
    }

    /// The records to play, each with its file. All that is not honoured is told and counted.
    fn records<'a>(&'a self, files: &'a [Vec<u8>], tally: &mut Tally) -> Result<Vec<(&'a Path, Listed<'a>)>, String> {
        let mut records = Vec::new();
        for (path, bytes) in self.emfs.iter().zip(files) {
            let survey = survey(bytes, self.brush, |number| self.choice.has(number));
            if let Some(damage) = &survey.damage {
                return Err(emf_files::damaged(path, damage));
            }
            self.choice.check(survey.records.len()).map_err(|words| format!("{}: {words}", path.display()))?;
            if self.choice.is_given() && survey.records.iter().all(|listed| listed.fate == Fate::LeftOut) {
                return Err(KNOWN.wrong("--only and --skip leave no record to play"));
            }
            for listed in survey.records {
                match listed.fate {
                    Fate::Played => records.push((path.as_path(), listed)),
                    Fate::LeftOut => tally.left_out += 1,
                    Fate::Skipped => tally.skipped += 1,
                    Fate::Refused(status) => {
                        tally.refused += 1;
                        let why = reasons::refused(listed.record.bytes, status);
                        complain(&format!("{}: {}: refused, {why}", path.display(), listed.name()));
                    }
                }
            }
            for words in survey.skipped.iter().chain(&survey.warnings) {
                tally.warn(&format!("{}: {words}", path.display()));
            }
        }
        Ok(records)
    }

    /// The journal's lock. A dry run does without where the folder may only be read.
    fn lock(&self) -> Result<Option<Lock>, String> {
        let Some(journal) = &self.journal else { return Ok(None) };
        match recovery::lock(journal, self.out.as_deref(), self.wait) {
            Ok(lock) => Ok(Some(lock)),
            Err(no) if no.denied && self.dry_run => Ok(None),
            Err(no) => Err(no.words),
        }
    }

    fn write(
        &self,
        sheet: &Sheet,
        journal: &Journal,
        before: Before,
        held: Option<File>,
        mut lock: Option<Lock>,
        progress: &mut Progress,
    ) -> Result<Vec<String>, String> {
        let Some(out) = &self.out else { return Ok(Vec::new()) };
        let picture = Picture { sheet, from: &self.sheet, out, force: self.force, held };
        let file = self.journal.as_deref().zip(lock.as_mut());
        write_both(picture, file.map(|(path, lock)| JournalFile { journal, path, before, lock }), progress)
    }

    /// What is said at the end.
    fn end(&self, journal: &Journal, tally: Tally, out: &mut Out) -> Result<u8, String> {
        let Some(written) = &self.out else { return Ok(tally.code()) };
        if let Some(path) = &self.journal {
            let plays = words::things(journal.list().len() as u64, "play");
            out.line(&format!("journal {} holds {plays}", path.display()));
        }
        out.line(&format!("{}; wrote {}", tally.line(), written.display()));
        Ok(tally.code())
    }
}

/// The journal that is there, or a new one, and what becomes of the file.
fn open_journal(path: &Path, sheet: &Sheet, new: bool) -> Result<(Journal, Before), String> {
    if !files::exists(path) {
        return Ok((Journal::new(), Before::Absent));
    }
    files::check_replaceable(path)?;
    if new && Journal::is_one(path)? {
        return Ok((Journal::new(), Before::Kept));
    }
    match Journal::load(path, sheet) {
        Ok(journal) => Ok((journal, Before::Continued)),
        Err(Refusal::Unfit(words)) => Err(format!("{words}; --new-journal begins one and keeps this one beside it")),
        Err(foreign) => Err(foreign.words()),
    }
}
