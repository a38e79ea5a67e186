//! `lacrumont undo`: takes the journal's last plays back.

use std::ffi::OsString;
use std::path::PathBuf;

use face::constants::NOTHING;

use super::arguments::{Arguments, Known};
use super::output::{complain, Out, FINE, WARNED};
use super::recovery;
use super::results::{check_out, write_both, Before, JournalFile, Picture};
use crate::journal::Journal;
use crate::progress::Progress;
use crate::sheet::Sheet;
use crate::{files, sheet_files, words};

const KNOWN: Known =
    Known { command: "undo", valued: &["-o", "--journal", "--plays"], flags: &["--all", "--force", "--no-wait"] };

const HELP: &str = "\
lacrumont undo SHEET --journal FILE -o OUT [--plays N | --all] [--force] [--no-wait]

Takes back the last play in the journal, or the last N, or all, and writes OUT and the shortened journal. SHEET must
be the sheet as the plays left it; if it is not, nothing is changed.

  --journal FILE   the journal that play has written
  -o OUT           the file to write, .png or .bmp
  --plays N        takes back N plays
  --all            takes back all plays
  --force          writes over OUT if it is there and not read-only
  --no-wait        an error if another run has the journal or writes OUT; without it, waits for that run

Exit status: 0 all went well, 1 an error of files or use, 3 there are warnings.
";

/// What the command is asked to do.
struct Asked {
    sheet: PathBuf,
    out: PathBuf,
    journal: PathBuf,
    /// None for all.
    plays: Option<u64>,
    force: bool,
    wait: bool,
}

pub fn run(arguments: &[OsString], out: &mut Out) -> Result<u8, String> {
    let parsed = KNOWN.parse(arguments)?;
    if parsed.help {
        out.text(HELP);
        return Ok(FINE);
    }
    let asked = Asked::of(&parsed)?;
    asked.check_names()?;

    // Before the sheet is read, so that no other run writes it or the journal before this one has.
    let mut lock = recovery::lock(&asked.journal, Some(&asked.out), asked.wait).map_err(|no| no.words)?;
    let held = recovery::hold(Some(&asked.out), asked.wait)?;
    let mut progress = Progress::new();
    let mut sheet = sheet_files::load(&asked.sheet, &mut progress)?;
    let mut journal =
        Journal::load(&asked.journal, &sheet).map_err(|refusal| format!("{}. Nothing was changed", refusal.words()))?;
    let count = asked.take_back(&mut sheet, &mut journal, &mut progress, out)?;

    let lost = sheet_files::lost(&sheet, &asked.out);
    let picture = Picture { sheet: &sheet, from: &asked.sheet, out: &asked.out, force: asked.force, held };
    let file = JournalFile { journal: &journal, path: &asked.journal, before: Before::Continued, lock: &mut lock };
    let warnings: Vec<String> = lost.into_iter().chain(write_both(picture, Some(file), &mut progress)?).collect();
    out.files_written = true;
    warnings.iter().for_each(|words| complain(&format!("warning: {words}")));
    out.line(&format!(
        "{} taken back; wrote {}; journal {} holds {}",
        words::things(count, "play"),
        asked.out.display(),
        asked.journal.display(),
        words::things(journal.plays().unwrap_or(0), "play")
    ));
    Ok(if warnings.is_empty() { FINE } else { WARNED })
}

impl Asked {
    fn of(parsed: &Arguments) -> Result<Asked, String> {
        let [sheet] = &parsed.plain[..] else {
            return Err(KNOWN.wrong("undo needs one sheet"));
        };
        Ok(Asked {
            sheet: sheet.clone(),
            out: parsed.path("-o").ok_or_else(|| KNOWN.wrong("-o OUT is missing"))?,
            journal: parsed.path("--journal").ok_or_else(|| KNOWN.wrong("--journal FILE is missing"))?,
            plays: match (parsed.text("--plays"), parsed.has("--all")) {
                (Some(_), true) => return Err(KNOWN.wrong("--plays and --all cannot go together")),
                (Some(text), false) => Some(number_of_plays(&text)?),
                (None, true) => None,
                (None, false) => Some(1),
            },
            force: parsed.has("--force"),
            wait: !parsed.has("--no-wait"),
        })
    }

    fn check_names(&self) -> Result<(), String> {
        sheet_files::format(&self.out)?;
        for (path, what) in [(&self.sheet, "the sheet"), (&self.out, "OUT")] {
            if files::same(&self.journal, path) {
                return Err(format!("{} cannot be the journal and {what} at once", self.journal.display()));
            }
        }
        check_out(&self.out, self.force)?;
        files::check_replaceable(&self.journal)
    }

    /// Takes the plays back, says what each had drawn, and gives their number.
    fn take_back(
        &self,
        sheet: &mut Sheet,
        journal: &mut Journal,
        progress: &mut Progress,
        out: &mut Out,
    ) -> Result<u64, String> {
        let (plays, name) = (journal.plays().unwrap_or(0), self.journal.display());
        if plays == 0 {
            return Err(format!("{name}: {}", words::numbered(NOTHING)));
        }
        let count = self.plays.unwrap_or(plays);
        if count > plays {
            let (plays, count) = (words::things(plays, "play"), words::count(count));
            return Err(format!("{name} holds {plays}, fewer than the {count} asked for. Nothing was changed"));
        }
        for done in 0..count {
            let number = plays - done;
            let pixels = journal
                .undo(&mut sheet.surface)
                .map_err(|status| format!("{name}: play {number}: {}. Nothing was changed", words::numbered(status)))?;
            out.line(&format!("play {number} taken back: {}", words::things(pixels.into(), "pixel")));
            progress.tell("taking back", done as usize + 1, count as usize);
        }
        Ok(count)
    }
}

fn number_of_plays(text: &str) -> Result<u64, String> {
    match text.parse() {
        Ok(count) if count > 0 => Ok(count),
        _ => Err(format!("--plays needs a number from 1 on, not {text}")),
    }
}
