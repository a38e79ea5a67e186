//! Files that are written whole before they get their names, so that a failure leaves no half file.
//!
//! The temporary file of NAME is .NAME.PROCESS-N.tmp beside it. Its maker holds a lock on it as long as it lives; one
//! that nobody holds is a killed run's.

use std::ffi::{OsStr, OsString};
use std::fs::{self, File, Metadata, OpenOptions, Permissions, TryLockError};
use std::io::{self, ErrorKind, Write};
use std::os::unix::ffi::OsStrExt;
use std::os::unix::fs::{fchown, MetadataExt, OpenOptionsExt, PermissionsExt};
use std::path::{Path, PathBuf};

use crate::files;
use crate::progress::Progress;

/// Bytes written at a time, so that progress can be told in between.
const STRETCH: usize = 1 << 23;

/// Whose mode and ownership a written file gets.
pub enum Rights {
    /// Those of the file it replaces.
    Of(Metadata),
    /// This mode under the umask, for a new file. Its owner may write it.
    New(u32),
}

impl Rights {
    pub fn of(path: &Path, mode: u32) -> Rights {
        fs::metadata(path).map_or(Rights::New(mode), Rights::Of)
    }

    /// The mode a file is made with: never one that lets more people read than the last one.
    fn first_mode(&self) -> u32 {
        match self {
            Rights::Of(_) => 0o600,
            Rights::New(mode) => mode | 0o200,
        }
    }

    /// False where the ownership cannot be kept.
    fn give(&self, file: &File) -> io::Result<bool> {
        let Rights::Of(old) = self else {
            return Ok(true);
        };
        let new = file.metadata()?;
        let group = new.gid() == old.gid() || fchown(file, None, Some(old.gid())).is_ok();
        let owner = new.uid() == old.uid() || fchown(file, Some(old.uid()), None).is_ok();
        let mode = old.mode() & 0o777;
        // Another group's people were among all others before.
        let mode = if group { mode } else { mode & (0o707 | (mode & 0o007) << 3) };
        file.set_permissions(Permissions::from_mode(mode))?;
        Ok(owner && group)
    }
}

/// A file that is written whole but does not have its name yet. It is removed if it never gets it.
pub struct Pending {
    /// As it was given.
    name: PathBuf,
    /// What a link points to is replaced, not the link.
    target: PathBuf,
    temporary: PathBuf,
    /// Open, so that its lock is held.
    file: File,
    keep: bool,
    owned: bool,
}

impl Pending {
    /// Writes the parts, one behind the other, to a temporary file beside `name`.
    pub fn write(name: &Path, rights: Rights, parts: &[&[u8]], progress: &mut Progress) -> Result<Pending, String> {
        let wrong = |error| format!("cannot write {}: {error}", name.display());
        let target = files::resolved(name).map_err(wrong)?;
        let (file, temporary) = create_beside(&target, rights.first_mode())?;
        let mut pending = Pending { name: name.to_path_buf(), target, temporary, file, keep: false, owned: true };
        let work = format!("writing {}", name.display());
        let total = parts.iter().map(|part| part.len()).sum();
        let mut done = 0;
        for stretch in parts.iter().flat_map(|part| part.chunks(STRETCH)) {
            pending.file.write_all(stretch).map_err(wrong)?;
            done += stretch.len();
            progress.tell(&work, done, total);
        }
        pending.owned = rights.give(&pending.file).map_err(wrong)?;
        pending.file.sync_all().map_err(wrong)?;
        Ok(pending)
    }

    pub fn temporary(&self) -> &Path {
        &self.temporary
    }

    pub fn target(&self) -> &Path {
        &self.target
    }

    /// That the file has not the owner and group of the one it replaces.
    pub fn not_kept(&self) -> Option<String> {
        (!self.owned).then(|| format!("{}: its owner or group could not be kept", self.name.display()))
    }

    /// Gives the file its name; only `over` replaces a file that has it.
    pub fn put(&mut self, over: bool) -> Result<(), String> {
        let put = if over { fs::rename(&self.temporary, &self.target) } else { self.put_new() };
        put.map_err(|error| match error.kind() {
            ErrorKind::AlreadyExists => format!("{} has come into being meanwhile", self.name.display()),
            _ => format!("cannot write {}: {error}", self.name.display()),
        })?;
        self.keep = true;
        Ok(())
    }

    /// A second name is only given where nothing has it, so that of two runs at once just one does.
    fn put_new(&self) -> io::Result<()> {
        match fs::hard_link(&self.temporary, &self.target) {
            Ok(()) => {
                let _ = fs::remove_file(&self.temporary);
                Ok(())
            }
            // Not every file system has links.
            Err(error) if error.kind() != ErrorKind::AlreadyExists && !files::exists(&self.target) => {
                fs::rename(&self.temporary, &self.target)
            }
            Err(error) => Err(error),
        }
    }

    /// From now on the temporary file stays even if it cannot get its name.
    pub fn keep(&mut self) {
        self.keep = true;
    }
}

impl Drop for Pending {
    fn drop(&mut self) {
        if !self.keep {
            let _ = fs::remove_file(&self.temporary);
        }
    }
}

/// A new file with a name nobody has, in the same folder, so that the renaming is one step. Its lock is taken.
fn create_beside(target: &Path, mode: u32) -> Result<(File, PathBuf), String> {
    let wrong = |error: &dyn std::fmt::Display| format!("cannot write {}: {error}", target.display());
    let name = target.file_name().ok_or_else(|| wrong(&"this is no file name"))?;
    for attempt in 0..100 {
        let mut hidden = OsString::from(".");
        hidden.push(name);
        hidden.push(format!(".{}-{attempt}.tmp", std::process::id()));
        let temporary = files::folder(target).join(hidden);
        match OpenOptions::new().write(true).create_new(true).mode(mode).open(&temporary) {
            Ok(file) if is_ours(&file, &temporary) => return Ok((file, temporary)),
            Ok(_) => {}
            Err(error) if error.kind() == ErrorKind::AlreadyExists => {}
            Err(error) => return Err(wrong(&error)),
        }
    }
    Err(wrong(&"no name is free for a temporary file"))
}

/// Takes a new file's lock. False where a sweep was quicker and removes it.
fn is_ours(file: &File, path: &Path) -> bool {
    match file.try_lock() {
        Ok(()) => files::is_named(file, path),
        Err(TryLockError::WouldBlock) => false,
        // A file system without locks: no sweep gets one either, so none removes the file.
        Err(TryLockError::Error(_)) => true,
    }
}

/// The name of the file that a temporary file of this name is for.
pub fn target_name(name: &OsStr) -> Option<&OsStr> {
    let inner = name.as_bytes().strip_prefix(b".")?.strip_suffix(b".tmp")?;
    let dot = inner.iter().rposition(|byte| *byte == b'.')?;
    let (process, attempt) = std::str::from_utf8(&inner[dot + 1..]).ok()?.split_once('-')?;
    let number = |text: &str| !text.is_empty() && text.bytes().all(|byte| byte.is_ascii_digit());
    (dot > 0 && number(process) && number(attempt)).then(|| OsStr::from_bytes(&inner[..dot]))
}

/// Removes the temporary files that killed runs left beside `name`, and gives their names.
pub fn sweep(name: &Path) -> Vec<PathBuf> {
    let Ok(target) = files::resolved(name) else {
        return Vec::new();
    };
    let Ok(entries) = fs::read_dir(files::folder(&target)) else {
        return Vec::new();
    };
    let names = entries.filter_map(|entry| Some(entry.ok()?.file_name()));
    let theirs = names.filter(|name| target_name(name).is_some_and(|name| Some(name) == target.file_name()));
    let temporary = theirs.map(|name| target.with_file_name(name));
    let mut swept: Vec<PathBuf> = temporary.filter(|path| remove(path, &target)).collect();
    swept.sort();
    swept
}

/// Removes a temporary file nobody holds, or one that has become the target and is held as such.
fn remove(path: &Path, target: &Path) -> bool {
    if !path.symlink_metadata().is_ok_and(|there| there.is_file()) {
        return false;
    }
    let Ok(file) = OpenOptions::new().write(true).open(path) else {
        return false;
    };
    // The lock is held while the name goes, so that its maker cannot come in between.
    let free = file.try_lock().is_ok() || files::is_named(&file, target);
    free && files::is_named(&file, path) && fs::remove_file(path).is_ok()
}

/// Gives a file a second name, by a copy where links cannot be made. Nothing that has the name is written over.
pub fn link(path: &Path, second: &Path, progress: &mut Progress) -> Result<(), String> {
    match fs::hard_link(path, second) {
        Ok(()) => Ok(()),
        Err(_) => copy(path, second, progress),
    }
}

fn copy(path: &Path, second: &Path, progress: &mut Progress) -> Result<(), String> {
    let bytes = files::read(path, u64::MAX - 1)?;
    Pending::write(second, Rights::of(path, 0o600), &[&bytes], progress)?.put(false)
}

#[cfg(test)]
mod tests {
    use super::*;

    #[test]
    fn names_of_temporary_files() {
        let target = |name| target_name(OsStr::new(name)).and_then(OsStr::to_str);
        assert_eq!(target(".out.png.123-0.tmp"), Some("out.png"));
        assert_eq!(target(".a.b.1-2.tmp.7-11.tmp"), Some("a.b.1-2.tmp"));
        let others = ["out.png.1-0.tmp", ".out.png.1-0", ".out.png.1.tmp", ".out.png.-0.tmp", ".out.png.1-.tmp"];
        for other in others.into_iter().chain([".1-0.tmp", "..1-0.tmp", ".out.png.1-0-0.tmp", ".out.png.+1-0.tmp", ""])
        {
            assert_eq!(target(other), None, "{other}");
        }
    }

    #[test]
    fn where_links_cannot_be_made_a_copy_is() {
        let folder = std::env::temp_dir().join(format!("lacrumont-pending-{}", std::process::id()));
        fs::create_dir_all(&folder).unwrap();
        let (one, two) = (folder.join("j"), folder.join("j.1"));
        fs::write(&one, b"old").unwrap();
        fs::set_permissions(&one, Permissions::from_mode(0o640)).unwrap();
        copy(&one, &two, &mut Progress::quiet()).unwrap();
        assert_eq!((fs::read(&two).unwrap(), files::mode(&two)), (b"old".to_vec(), 0o640));
        assert!(copy(&one, &two, &mut Progress::quiet()).unwrap_err().contains("come into being meanwhile"));
        assert!(link(&one, &two, &mut Progress::quiet()).unwrap_err().contains("come into being meanwhile"));
        assert_eq!(fs::read_dir(&folder).unwrap().count(), 2);
        fs::remove_dir_all(&folder).unwrap();
    }
}
