//! Reading whole files, and what must be known of a name before something is written there.

use std::ffi::OsString;
use std::fs::{self, File, Metadata, OpenOptions, TryLockError};
use std::io::{self, ErrorKind, Read};
use std::os::unix::fs::{MetadataExt, PermissionsExt};
use std::path::{Path, PathBuf};

use crate::words;

/// All bytes of a file that has `most` of them at most.
pub fn read(path: &Path, most: u64) -> Result<Vec<u8>, String> {
    let wrong = |error| format!("cannot read {}: {error}", path.display());
    let mut bytes = Vec::new();
    // One byte more than allowed is enough to know; the length of a pipe cannot be asked for.
    File::open(path).and_then(|file| file.take(most + 1).read_to_end(&mut bytes)).map_err(wrong)?;
    if bytes.len() as u64 > most {
        return Err(format!("{} is too large: {} bytes are the most", path.display(), words::count(most)));
    }
    Ok(bytes)
}

/// Whether there is something of this name, were it a link to nothing.
pub fn exists(path: &Path) -> bool {
    path.symlink_metadata().is_ok()
}

/// A file that is there is only written over by --force.
pub fn check_free(path: &Path, force: bool) -> Result<(), String> {
    check_replaceable(path)?;
    if !force && exists(path) {
        return Err(format!("{} is already there; --force writes over it", path.display()));
    }
    Ok(())
}

/// What is not a regular file, or is read-only, is never replaced.
pub fn check_replaceable(path: &Path) -> Result<(), String> {
    let name = path.display();
    let Ok(there) = path.metadata() else {
        return if path.is_symlink() { Err(format!("{name} is a link to nothing")) } else { Ok(()) };
    };
    if there.is_dir() {
        return Err(format!("{name} is a folder"));
    }
    if !there.is_file() {
        return Err(format!("{name} is not a regular file and is not replaced"));
    }
    // Root is denied nothing, so the mode is looked at, too.
    let denied = || OpenOptions::new().write(true).open(path).err().map(|error| error.kind());
    if there.permissions().mode() & 0o222 == 0 || denied() == Some(ErrorKind::PermissionDenied) {
        return Err(format!("{name} is read-only and is not replaced"));
    }
    if is_guarded(path, &there) {
        return Err(format!("{name} is another user's, in a folder where all may replace only their own files"));
    }
    Ok(())
}

/// Whether the folder's sticky bit keeps this run from replacing the file.
fn is_guarded(path: &Path, there: &Metadata) -> bool {
    const STICKY: u32 = 0o1000;
    let folder = resolved(path).and_then(|path| folder(&path).metadata());
    // /proc/self belongs to the user of this process.
    match (folder, fs::metadata("/proc/self")) {
        (Ok(folder), Ok(own)) => {
            let user = own.uid();
            folder.mode() & STICKY != 0 && user != 0 && user != there.uid() && user != folder.uid()
        }
        _ => false,
    }
}

/// Whether both names mean one file, which may not be there yet.
pub fn same(one: &Path, other: &Path) -> bool {
    one == other || matches!((full(one), full(other)), (Some(one), Some(other)) if one == other)
}

fn full(path: &Path) -> Option<PathBuf> {
    path.canonicalize().ok().or_else(|| Some(folder(path).canonicalize().ok()?.join(path.file_name()?)))
}

/// The file of this name, locked, so that runs that replace it go one after the other; `busy` decides whether to wait.
/// None where there is no such file, or no lock to be had.
pub fn hold(path: &Path, busy: impl Fn() -> Result<(), String>) -> Result<Option<File>, String> {
    let mut told = false;
    loop {
        // Some file systems lock only what is open for writing.
        let writable = OpenOptions::new().read(true).write(true).open(path);
        let Ok(file) = writable.or_else(|_| File::open(path)) else { return Ok(None) };
        match file.try_lock() {
            Ok(()) => {}
            Err(TryLockError::Error(_)) => return Ok(None),
            Err(TryLockError::WouldBlock) => {
                if !told {
                    busy()?;
                }
                told = true;
                if file.lock().is_err() {
                    return Ok(None);
                }
            }
        }
        // Whoever had it may have put another file in its place.
        if resolved(path).is_ok_and(|path| is_named(&file, &path)) {
            return Ok(Some(file));
        }
    }
}

/// Whether the open file is the one that has this name now.
pub fn is_named(file: &File, path: &Path) -> bool {
    match (file.metadata(), path.symlink_metadata()) {
        (Ok(file), Ok(named)) => (file.dev(), file.ino()) == (named.dev(), named.ino()),
        _ => false,
    }
}

/// The folder a file is in.
pub fn folder(path: &Path) -> &Path {
    match path.parent() {
        Some(folder) if folder != Path::new("") => folder,
        _ => Path::new("."),
    }
}

/// What a link points to, or the name itself where it is no link.
pub fn resolved(path: &Path) -> io::Result<PathBuf> {
    if path.is_symlink() {
        path.canonicalize()
    } else {
        Ok(path.to_path_buf())
    }
}

/// The name with this behind it.
pub fn with_ending(path: &Path, ending: &str) -> PathBuf {
    let mut name = OsString::from(path);
    name.push(ending);
    PathBuf::from(name)
}

/// The first of FILE.1, FILE.2 and so on that nothing has.
pub fn free_name(path: &Path) -> PathBuf {
    let mut number = 1;
    loop {
        let name = with_ending(path, &format!(".{number}"));
        if !exists(&name) {
            return name;
        }
        number += 1;
    }
}

/// Makes the names in a folder outlast a loss of power. Not every file system can, and not every folder may be opened.
pub fn sync_folder(path: &Path) -> io::Result<()> {
    match File::open(folder(path)).and_then(|folder| folder.sync_all()) {
        Err(error)
            if !matches!(
                error.kind(),
                ErrorKind::InvalidInput | ErrorKind::Unsupported | ErrorKind::PermissionDenied
            ) =>
        {
            Err(error)
        }
        _ => Ok(()),
    }
}

/// The mode of a file; that of a private one where it cannot be known.
pub fn mode(path: &Path) -> u32 {
    fs::metadata(path).map_or(0o600, |there| there.permissions().mode() & 0o777)
}
