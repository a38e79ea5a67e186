//! EMF files from disk.

use std::path::Path;

use crate::emf::Damage;
use crate::{file_kinds, files};

/// Far more than a real EMF file has; it keeps a wrong file from filling the memory.
const MOST_BYTES: u64 = 1 << 30;

pub fn read(path: &Path) -> Result<Vec<u8>, String> {
    let bytes = files::read(path, MOST_BYTES)?;
    match file_kinds::mixed_up(&bytes, file_kinds::EMF) {
        Some(words) => Err(format!("{}: {words}", path.display())),
        None => Ok(bytes),
    }
}

/// What is said of a damaged file, or of one that is none.
pub fn damaged(path: &Path, damage: &Damage) -> String {
    match damage {
        Damage::NoHeader { .. } | Damage::NoSignature => format!("{}: {damage}", path.display()),
        _ => format!("{} is damaged: {damage}", path.display()),
    }
}
