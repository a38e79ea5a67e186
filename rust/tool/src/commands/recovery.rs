//! The journal's lock as a command takes it, and what a killed run left behind.

use std::fs::{self, File};
use std::os::unix::fs::MetadataExt;
use std::path::{Path, PathBuf};

use super::output::complain;
use crate::journal::Journal;
use crate::lock::{Intent, Left, Lock, NoLock};
use crate::progress::Progress;
use crate::{files, pending, sheet_files};

const NOT_WRITTEN: &str = "it had not written its results: all files are as they were before it";

/// Takes the journal's lock and sets right what a run that was cut short left. `out` is the file this run will write.
pub fn lock(journal: &Path, out: Option<&Path>, wait: bool) -> Result<Lock, NoLock> {
    let (mut lock, left) = Lock::take(journal, |process| busy_with_journal(journal, process, wait))?;
    if let Some(left) = left {
        recover(journal, &left, &mut lock)?;
    }
    lock.begin(out)?;
    Ok(lock)
}

/// Holds OUT where there is one: a run that replaces it reads the sheet only after every other has done so.
pub fn hold(out: Option<&Path>, wait: bool) -> Result<Option<File>, String> {
    let Some(out) = out else { return Ok(None) };
    files::hold(out, || busy("another run", &format!("writes {}", out.display()), wait))
}

fn busy_with_journal(journal: &Path, process: Option<u32>, wait: bool) -> Result<(), String> {
    let run = format!("another run{}", process.map_or(String::new(), |process| format!(" (process {process})")));
    busy(&run, &format!("has the journal {}", journal.display()), wait)
}

fn busy(run: &str, does: &str, wait: bool) -> Result<(), String> {
    if wait {
        complain(&format!("waiting for {run} that {does}"));
        return Ok(());
    }
    Err(format!("{run} {does}; without --no-wait this one would wait for it"))
}

/// A run that was cut short is taken to its end if it had begun to give its files their names, and else back.
fn recover(journal: &Path, left: &Left, lock: &mut Lock) -> Result<(), String> {
    let run = left.process.map_or("a run".to_string(), |process| format!("a run (process {process})"));
    complain(&format!("{run} that had the journal {} was cut short", journal.display()));
    let target = files::resolved(journal).map_err(|error| format!("cannot write {}: {error}", journal.display()))?;
    match (&left.intent, &left.out) {
        (Some(intent), Some(out)) => settle(&target, out, intent, lock)?,
        (Some(_), None) => return Err(damaged(&target)),
        (None, _) => complain(NOT_WRITTEN),
    }
    let kept = left.intent.as_ref().and_then(|intent| intent.kept.as_deref());
    for path in [left.out.as_deref(), kept, Some(target.as_path())].into_iter().flatten() {
        sweep(path);
    }
    Ok(())
}

/// Says what killed runs left beside a file that is to be written, and removes it.
pub fn sweep(path: &Path) {
    for swept in pending::sweep(path) {
        complain(&format!("removed {}, which a killed run had left", swept.display()));
    }
}

/// The picture gets its name first. If it has not, nothing was done; if it has, the journal that belongs to it follows.
fn settle(journal: &Path, out: &Path, intent: &Intent, lock: &mut Lock) -> Result<(), String> {
    let strange = |path: &PathBuf| path.file_name().and_then(pending::target_name).is_none();
    if strange(&intent.picture) || strange(&intent.journal) {
        return Err(damaged(journal));
    }
    // A new picture has both names for a moment.
    if files::exists(&intent.picture) && !is_one_file(&intent.picture, out) {
        // From here on the intent is void, so that a kill while the files go leaves no doubt.
        lock.begin(Some(out))?;
        return take_back(journal, intent);
    }
    if !files::exists(&intent.journal) {
        complain("it had written all its results");
        return Ok(());
    }
    let put = |name: &Path| {
        let done = fs::rename(&intent.journal, name).and_then(|()| files::sync_folder(name));
        done.map_err(|error| format!("cannot write {}: {error}", name.display()))
    };
    // Only if the picture is the one this journal can undo, and no other file has come to stand there.
    if fits(&intent.journal, out) && (!files::exists(journal) || Journal::is_one(journal)?) {
        if let Some(kept) = intent.kept.as_ref().filter(|kept| files::exists(journal) && !files::exists(kept)) {
            pending::link(journal, kept, &mut Progress::new())?;
        }
        put(journal)?;
        complain(&format!("it had written {}; its journal has been put in place now", out.display()));
        return Ok(());
    }
    let kept = files::free_name(journal);
    put(&kept)?;
    complain(&format!("{} is not the picture of its journal, which is kept as {}", out.display(), kept.display()));
    Ok(())
}

/// Removes what the run had made. The journal goes first, as power may be lost before the lock is on the disk: alone,
/// it would seem to follow a picture that has its name.
fn take_back(journal: &Path, intent: &Intent) -> Result<(), String> {
    if let Some(kept) = &intent.kept {
        if is_one_file(kept, journal) {
            remove(kept)?;
        }
    }
    complain(NOT_WRITTEN);
    for path in [&intent.journal, &intent.picture] {
        if files::exists(path) {
            remove(path)?;
            complain(&format!("removed {}, which it had left", path.display()));
        }
    }
    Ok(())
}

fn damaged(journal: &Path) -> String {
    format!("{}.lock is damaged: what it says of the last run makes no sense", journal.display())
}

fn remove(path: &Path) -> Result<(), String> {
    fs::remove_file(path).map_err(|error| format!("cannot remove {}: {error}", path.display()))
}

fn is_one_file(one: &Path, other: &Path) -> bool {
    let number = |path: &Path| path.symlink_metadata().map(|there| (there.dev(), there.ino())).ok();
    number(one).is_some() && number(one) == number(other)
}

/// Whether the journal is whole and undoes what has led to this picture.
fn fits(journal: &Path, picture: &Path) -> bool {
    sheet_files::load(picture, &mut Progress::new()).is_ok_and(|sheet| Journal::load(journal, &sheet).is_ok())
}
