//! The lock beside a journal: one run at a time, and what a killed run was about to do.
//!
//! FILE.lock is locked as long as its owner lives, and removed at the end; the system frees the lock of one that was
//! killed, and what stands in the file tells of it. Lines, each a word and a value: `process` its number and `out` the
//! file it writes; then, before the first file gets its name, the intent: `picture` and `journal`, both temporary
//! files, `kept` if the old journal gets this name, and `whole`. Paths inside the lock's folder are relative to it.

use std::fs::{self, File, OpenOptions, TryLockError};
use std::io::{self, Read, Seek, Write};
use std::os::unix::ffi::{OsStrExt, OsStringExt};
use std::path::{Path, PathBuf};

use crate::files;

const MARK: &[u8] = b"lacrumont lock 1\n";
/// More than any lock has.
const MOST_BYTES: u64 = 1 << 16;

/// What a run is about to do, in this order: `kept` becomes the old journal's second name, then both temporary files
/// get their names.
#[derive(Debug, PartialEq, Eq)]
pub struct Intent {
    pub picture: PathBuf,
    pub journal: PathBuf,
    pub kept: Option<PathBuf>,
}

/// What a run that was killed left in its lock.
#[derive(Debug, Default, PartialEq, Eq)]
pub struct Left {
    pub process: Option<u32>,
    pub out: Option<PathBuf>,
    /// Only a whole one: before it is, no file has got its name.
    pub intent: Option<Intent>,
}

pub struct Lock {
    file: File,
    path: PathBuf,
    stays: bool,
}

/// Why a lock is not got.
pub struct NoLock {
    pub words: String,
    /// The folder may not be written to.
    pub denied: bool,
}

impl From<String> for NoLock {
    fn from(words: String) -> NoLock {
        NoLock { words, denied: false }
    }
}

impl Lock {
    /// Takes the journal's lock, with what a killed run left in it. Where a living run has it, `busy` gets that run's
    /// process number, and decides by its answer whether to wait.
    pub fn take(
        journal: &Path,
        busy: impl Fn(Option<u32>) -> Result<(), String>,
    ) -> Result<(Lock, Option<Left>), NoLock> {
        let target =
            files::resolved(journal).map_err(|error| format!("cannot write {}: {error}", journal.display()))?;
        let path = files::with_ending(&target, ".lock");
        let wrong = |error: io::Error| NoLock {
            words: format!("cannot write {}: {error}", path.display()),
            denied: matches!(error.kind(), io::ErrorKind::PermissionDenied | io::ErrorKind::ReadOnlyFilesystem),
        };
        let mut told = false;
        loop {
            if path.symlink_metadata().is_ok_and(|there| !there.is_file()) {
                return Err(foreign(&path).into());
            }
            let opened = OpenOptions::new().read(true).write(true).create(true).truncate(false).open(&path);
            let (mut file, denied) = match opened {
                Ok(file) => (file, None),
                // Another user's, who may be at work: then that is what is told.
                Err(error) => match File::open(&path) {
                    Ok(file) if error.kind() == io::ErrorKind::PermissionDenied => (file, Some(error)),
                    _ => return Err(wrong(error)),
                },
            };
            match file.try_lock() {
                Ok(()) => {}
                Err(TryLockError::Error(error)) => return Err(wrong(error)),
                Err(TryLockError::WouldBlock) => {
                    if !told {
                        busy(read(&mut file, &path)?.and_then(|left| left.process))?;
                    }
                    told = true;
                    file.lock().map_err(wrong)?;
                }
            }
            // Its last owner has removed it, or another run has made a new one meanwhile.
            if files::is_named(&file, &path) {
                if let Some(error) = denied {
                    return Err(wrong(error));
                }
                let left = read(&mut file, &path)?;
                return Ok((Lock { file, path, stays: true }, left));
            }
        }
    }

    /// Puts this run's number in the place of all that was left, and the file it will write.
    pub fn begin(&mut self, out: Option<&Path>) -> Result<(), String> {
        let mut text = [MARK, format!("process {}\n", std::process::id()).as_bytes()].concat();
        if let Some(out) = out {
            self.add(&mut text, "out", out);
        }
        self.stays = false;
        let written = self.file.set_len(0).and_then(|()| self.file.rewind()).and_then(|()| self.file.write_all(&text));
        written.map_err(|error| self.wrong(error))
    }

    /// Puts down what this run is about to do. It is on the disk when this returns.
    pub fn intend(&mut self, intent: &Intent) -> Result<(), String> {
        let mut text = Vec::new();
        self.add(&mut text, "picture", &intent.picture);
        self.add(&mut text, "journal", &intent.journal);
        if let Some(kept) = &intent.kept {
            self.add(&mut text, "kept", kept);
        }
        text.extend(b"whole\n");
        let written = self.file.write_all(&text).and_then(|()| self.file.sync_all());
        written.and_then(|()| files::sync_folder(&self.path)).map_err(|error| self.wrong(error))
    }

    /// The lock file stays behind, so that the next run does what this one could not.
    pub fn leave(&mut self) {
        self.stays = true;
    }

    /// A line with a path; backslashes and line ends in it are escaped.
    fn add(&self, text: &mut Vec<u8>, word: &str, path: &Path) {
        let full = |path: &Path| std::path::absolute(path).unwrap_or_else(|_| path.to_path_buf());
        let path = full(path);
        let inside = path.strip_prefix(full(files::folder(&self.path))).unwrap_or(&path);
        text.extend(word.as_bytes());
        text.push(b' ');
        for &byte in inside.as_os_str().as_bytes() {
            match byte {
                b'\\' => text.extend(b"\\\\"),
                b'\n' => text.extend(b"\\n"),
                _ => text.push(byte),
            }
        }
        text.push(b'\n');
    }

    fn wrong(&self, error: io::Error) -> String {
        format!("cannot write {}: {error}", self.path.display())
    }
}

impl Drop for Lock {
    /// The name goes while the lock is held. One that somebody else has made since is not ours to remove.
    fn drop(&mut self) {
        if !self.stays && files::is_named(&self.file, &self.path) {
            let _ = fs::remove_file(&self.path);
        }
    }
}

fn foreign(path: &Path) -> String {
    format!("{} is in the way: it is no lock of this tool", path.display())
}

/// What stands in the lock file; None where it is empty.
fn read(file: &mut File, path: &Path) -> Result<Option<Left>, String> {
    let mut bytes = Vec::new();
    let done = file.rewind().and_then(|()| file.take(MOST_BYTES).read_to_end(&mut bytes));
    done.map_err(|error| format!("cannot read {}: {error}", path.display()))?;
    if bytes.is_empty() {
        return Ok(None);
    }
    // Where power was lost, the length may be on the disk and the bytes not.
    if MARK.starts_with(&bytes) || bytes.iter().all(|byte| *byte == 0) {
        return Ok(Some(Left::default()));
    }
    let text = bytes.strip_prefix(MARK).ok_or_else(|| foreign(path))?;
    // Without the "." of a bare name, so that names stay as they were given.
    Ok(Some(parse(text, path.parent().unwrap_or(Path::new("")))))
}

fn parse(text: &[u8], folder: &Path) -> Left {
    let lines: Vec<&[u8]> = text.split_inclusive(|byte| *byte == b'\n').filter_map(|l| l.strip_suffix(b"\n")).collect();
    let value = |word: &str| lines.iter().find_map(|line| line.strip_prefix(word.as_bytes())?.strip_prefix(b" "));
    let path = |word: &str| Some(folder.join(PathBuf::from(std::ffi::OsString::from_vec(unescaped(value(word)?)))));
    let process = value("process").and_then(|text| std::str::from_utf8(text).ok()?.parse().ok());
    let intent = match (path("picture"), path("journal")) {
        (Some(picture), Some(journal)) if lines.contains(&b"whole".as_slice()) => {
            Some(Intent { picture, journal, kept: path("kept") })
        }
        _ => None,
    };
    Left { process, out: path("out"), intent }
}

fn unescaped(text: &[u8]) -> Vec<u8> {
    let mut bytes = Vec::new();
    let mut left = text.iter();
    while let Some(&byte) = left.next() {
        bytes.push(match byte {
            b'\\' => match left.next() {
                Some(b'n') => b'\n',
                _ => b'\\',
            },
            _ => byte,
        });
    }
    bytes
}

#[cfg(test)]
mod tests {
    use super::*;
    use std::ffi::OsStr;

    fn folder(name: &str) -> PathBuf {
        let folder = std::env::temp_dir().join(format!("lacrumont-lock-{}-{name}", std::process::id()));
        fs::create_dir_all(&folder).unwrap();
        folder
    }

    fn take(journal: &Path) -> Result<(Lock, Option<Left>), String> {
        Lock::take(journal, |process| Err(format!("busy {process:?}"))).map_err(|no| no.words)
    }

    /// Any bytes may stand in a path, and a cut intent is none.
    #[test]
    fn what_is_put_down_is_read_back() {
        let folder = folder("read_back");
        let strange = folder.join(OsStr::from_bytes(b"a \\ b\\n\n\xff"));
        let (mut lock, left) = take(&strange).unwrap();
        assert_eq!(left, None);
        lock.begin(Some(Path::new("/elsewhere/out.png"))).unwrap();
        let kept = files::with_ending(&strange, ".1");
        let intent = Intent { picture: strange.clone(), journal: folder.join("j\nwhole"), kept: Some(kept) };
        lock.intend(&intent).unwrap();
        let own = Some(std::process::id());
        assert_eq!(take(&strange).err(), Some(format!("busy {own:?}")));
        lock.leave();
        drop(lock);
        let lock_path = files::with_ending(&strange, ".lock");
        let text = fs::read(&lock_path).unwrap();
        let (lock, left) = take(&strange).unwrap();
        let out = Some(PathBuf::from("/elsewhere/out.png"));
        assert_eq!(left, Some(Left { process: own, out, intent: Some(intent) }));
        drop(lock);
        for length in 0..text.len() {
            fs::write(&lock_path, &text[..length]).unwrap();
            assert_eq!(take(&strange).unwrap().1.and_then(|left| left.intent), None);
        }
        let (mut lock, _) = take(&strange).unwrap();
        lock.begin(None).unwrap();
        drop(lock);
        assert_eq!(fs::read_dir(&folder).unwrap().count(), 0);
        fs::remove_dir_all(&folder).unwrap();
    }

    #[test]
    fn other_files_are_not_taken_for_locks() {
        let folder = folder("others");
        let (journal, path) = (folder.join("j"), folder.join("j.lock"));
        fs::write(&path, b"lacrjrnl").unwrap();
        assert!(take(&journal).err().unwrap().ends_with("j.lock is in the way: it is no lock of this tool"));
        assert_eq!(fs::read(&path).unwrap(), b"lacrjrnl");
        fs::write(&path, [0; 30]).unwrap();
        assert_eq!(take(&journal).unwrap().1, Some(Left::default()));
        fs::remove_file(&path).unwrap();
        std::os::unix::fs::symlink(folder.join("elsewhere"), &path).unwrap();
        assert!(take(&journal).err().unwrap().ends_with("no lock of this tool"));
        assert!(!folder.join("elsewhere").exists());
        fs::remove_dir_all(&folder).unwrap();
    }
}
