//! `lacrumont journal`: the plays in a journal.

use std::ffi::OsString;

use face::constants::MOST_JOURNAL;

use super::arguments::Known;
use super::output::{Out, FINE};
use super::recovery;
use crate::journal::{Journal, Play};
use crate::progress::Progress;
use crate::{record_types, sheet_files, words};

const KNOWN: Known = Known { command: "journal", valued: &["--journal"], flags: &["--no-wait"] };

const HELP: &str = "\
lacrumont journal SHEET --journal FILE [--no-wait]

Lists the plays in the journal, first to last: number, type, pixels, the columns and rows they lie in, and the
journal's records the play takes; then the records in use and free. SHEET must be the sheet as the plays left it.

  --journal FILE   the journal that play has written
  --no-wait        an error if another run has the journal; without it, waits for that run

Exit status: 0 all went well, 1 an error of files or use.
";

pub fn run(arguments: &[OsString], out: &mut Out) -> Result<u8, String> {
    let parsed = KNOWN.parse(arguments)?;
    if parsed.help {
        out.text(HELP);
        return Ok(FINE);
    }
    let [sheet_path] = &parsed.plain[..] else {
        return Err(KNOWN.wrong("journal needs one sheet"));
    };
    let path = parsed.path("--journal").ok_or_else(|| KNOWN.wrong("--journal FILE is missing"))?;
    let _lock = match recovery::lock(&path, None, !parsed.has("--no-wait")) {
        Ok(lock) => Some(lock),
        // In a folder that may only be read the journal can still be read.
        Err(no) if no.denied => None,
        Err(no) => return Err(no.words),
    };
    let mut progress = Progress::new();
    let sheet = sheet_files::load(sheet_path, &mut progress)?;
    let journal = Journal::load(&path, &sheet).map_err(|refusal| refusal.words())?;
    let plays = journal.list();
    for (at, play) in plays.iter().enumerate() {
        out.line(&format!("play {}: {}", at + 1, describe(&journal, play)));
    }
    let most = MOST_JOURNAL as u64;
    out.line(&format!(
        "{}; {} in use, {} free of {}",
        words::things(plays.len() as u64, "play"),
        words::things(journal.used(), "record"),
        words::count(most - journal.used()),
        words::count(most)
    ));
    Ok(FINE)
}

fn describe(journal: &Journal, play: &Play) -> String {
    let place = match journal.span(play) {
        Some(span) => {
            let ((left, right), (top, bottom)) = (span.columns, span.rows);
            format!("columns {left} to {right}, rows {top} to {bottom}")
        }
        None => "nothing drawn".to_string(),
    };
    format!(
        "{}, {}, {place}, {}",
        record_types::named(play.kind),
        words::things(play.pixels.into(), "pixel"),
        words::things(play.records(), "record")
    )
}
