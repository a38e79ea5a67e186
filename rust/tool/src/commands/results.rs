//! The files that a play or an undo leaves.

use std::fs::{self, File};
use std::path::Path;

use super::output::complain;
use super::recovery::sweep;
use crate::files;
use crate::journal::Journal;
use crate::lock::{Intent, Lock};
use crate::pending::{self, Pending, Rights};
use crate::progress::Progress;
use crate::sheet::Sheet;
use crate::sheet_files;

/// What is known of the journal's file before it is written.
#[derive(Clone, Copy, Debug, PartialEq, Eq)]
pub enum Before {
    /// None is there.
    Absent,
    /// It has been read and is written over.
    Continued,
    /// It is kept under another name.
    Kept,
}

/// A sheet, the file it came from, and the one it goes to.
pub struct Picture<'a> {
    pub sheet: &'a Sheet,
    pub from: &'a Path,
    pub out: &'a Path,
    pub force: bool,
    /// Held as long as it is replaced.
    pub held: Option<File>,
}

/// A journal and its file.
pub struct JournalFile<'a> {
    pub journal: &'a Journal,
    pub path: &'a Path,
    pub before: Before,
    pub lock: &'a mut Lock,
}

/// A file that is there is only written over by --force, and a journal not even so.
pub fn check_out(out: &Path, force: bool) -> Result<(), String> {
    files::check_free(out, force)?;
    if files::exists(out) && Journal::is_one(out)? {
        return Err(format!("{} is a journal and is not written over", out.display()));
    }
    Ok(())
}

/// Both files are written whole before either gets its name, so that a full disk changes neither. Gives what is to be
/// warned about.
pub fn write_both(
    picture: Picture,
    journal: Option<JournalFile>,
    progress: &mut Progress,
) -> Result<Vec<String>, String> {
    let Picture { sheet, from, out, force, held: _held } = picture;
    let mode = files::mode(from);
    let packed = sheet_files::packed(sheet, out, progress)?;
    // A journal of this name has a killed run to be set right first; its temporary file may be needed for that.
    if !files::exists(&files::with_ending(out, ".lock")) {
        sweep(out);
    }
    let mut picture = Pending::write(out, Rights::of(out, mode), &[&packed], progress)?;
    let Some(file) = journal else {
        files::check_free(out, force)?;
        picture.put(force)?;
        let _ = files::sync_folder(picture.target());
        return Ok(picture.not_kept().into_iter().collect());
    };
    let rights = if file.before == Before::Kept { Rights::New(mode) } else { Rights::of(file.path, mode) };
    let (header, records) = file.journal.parts(sheet);
    sweep(file.path);
    let journal = Pending::write(file.path, rights, &[&header, records], progress)?;
    let warnings = picture.not_kept().into_iter().chain(journal.not_kept()).collect();
    files::check_free(out, force)?;
    files::check_replaceable(file.path)?;
    if file.before == Before::Absent && files::exists(file.path) {
        return Err(format!("{} has come into being meanwhile and is not written over", file.path.display()));
    }
    give_names((picture, force), journal, file.before == Before::Kept, file.lock, progress)?;
    Ok(warnings)
}

/// Gives both files their names. A kill at any moment leaves what the next run can take to its end or take back: the
/// intent is on the disk before the first name is given, and the picture's name before the journal's is.
fn give_names(
    (mut picture, force): (Pending, bool),
    // Behind the picture, so that it is removed before it where nothing is put.
    mut journal: Pending,
    keep: bool,
    lock: &mut Lock,
    progress: &mut Progress,
) -> Result<(), String> {
    let target = journal.target().to_path_buf();
    let kept = keep.then(|| files::free_name(&target));
    lock.intend(&Intent {
        picture: picture.temporary().to_path_buf(),
        journal: journal.temporary().to_path_buf(),
        kept: kept.clone(),
    })?;
    files::sync_folder(picture.target())
        .map_err(|error| format!("cannot write {}: {error}", picture.target().display()))?;
    if let Some(name) = &kept {
        pending::link(&target, name, progress)?;
    }
    if let Err(words) = picture.put(force) {
        if let Some(name) = &kept {
            let _ = fs::remove_file(name);
        }
        return Err(words);
    }
    let _ = files::sync_folder(picture.target());
    // Nobody else writes it meanwhile: the lock is held.
    if let Err(words) = journal.put(true) {
        // The picture is there now, and only this journal can undo it.
        journal.keep();
        lock.leave();
        let (out, kept) = (picture.target().display(), journal.temporary().display());
        return Err(format!("{out} is written, but {words}; it is kept as {kept}, and the next run will try again"));
    }
    if let Some(name) = kept {
        complain(&format!("the journal that was there is kept as {}", name.display()));
    }
    let _ = files::sync_folder(&target);
    Ok(())
}
