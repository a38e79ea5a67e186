//! Sheets read from and written to files, by the file's extension.

use std::path::Path;

use crate::file_kinds::{self, BMP, EMF, PNG};
use crate::progress::Progress;
use crate::sheet::Sheet;
use crate::{bmp, files, png};

/// More than any sheet of 4,096 by 4,096 needs; it keeps a wrong file from filling the memory.
const MOST_BYTES: u64 = 1 << 29;

#[derive(Clone, Copy, Debug, PartialEq, Eq)]
pub enum Format {
    Bmp,
    Png,
}

/// A file's format, by its extension.
pub fn format(path: &Path) -> Result<Format, String> {
    match path.extension().and_then(|ending| ending.to_str()).map(str::to_ascii_lowercase).as_deref() {
        Some("bmp") => Ok(Format::Bmp),
        Some("png") => Ok(Format::Png),
        _ => Err(format!("{}: a sheet's file name ends in .png or .bmp", path.display())),
    }
}

/// The format of a file that is there. One that is plainly something else than its name says is told so.
fn checked_format(path: &Path, bytes: &[u8]) -> Result<Format, String> {
    let words = match (file_kinds::kind(bytes), format(path)) {
        (Some(PNG), Ok(Format::Bmp)) => format!("this is {PNG} under a .bmp name"),
        (Some(BMP), Ok(Format::Png)) => format!("this is {BMP} under a .png name"),
        (None | Some(PNG | BMP), by_name) => return by_name,
        (Some(EMF), _) => format!("this is {EMF}, not a sheet; the sheet comes first"),
        (Some(kind), _) => format!("this is {kind}; a sheet is a PNG or BMP picture"),
    };
    Err(format!("{}: {words}", path.display()))
}

pub fn load(path: &Path, progress: &mut Progress) -> Result<Sheet, String> {
    let bytes = files::read(path, MOST_BYTES)?;
    let format = checked_format(path, &bytes)?;
    let work = format!("reading {}", path.display());
    let sheet = match format {
        Format::Bmp => bmp::read(&bytes),
        Format::Png => png::read(&bytes, &work, progress),
    };
    sheet.map_err(|what| format!("{}: {what}", path.display()))
}

/// The bytes of a file of this name.
pub fn packed(sheet: &Sheet, path: &Path, progress: &mut Progress) -> Result<Vec<u8>, String> {
    let work = format!("packing {}", path.display());
    Ok(match format(path)? {
        Format::Bmp => bmp::write(sheet),
        Format::Png => {
            png::write(sheet, &work, progress).map_err(|what| format!("cannot write {}: {what}", path.display()))?
        }
    })
}

/// That something which the sheet's file says beside its pixels will not be in a file of this name.
pub fn lost(sheet: &Sheet, path: &Path) -> Option<String> {
    let only_png = if format(path) == Ok(Format::Bmp) { &sheet.extras.chunks[..] } else { &[] };
    let mut lost: Vec<String> = Vec::new();
    for what in sheet.extras.dropped.iter().cloned().chain(only_png.iter().map(|chunk| png::meaning(&chunk.name))) {
        // There may be many texts.
        if !lost.contains(&what) {
            lost.push(what);
        }
    }
    let words = || format!("{}: not kept of what the sheet's file says: {}", path.display(), lost.join(", "));
    (!lost.is_empty()).then(words)
}

#[cfg(test)]
mod tests {
    use super::*;

    #[test]
    fn only_a_bmp_loses_what_png_files_say() {
        let bytes = include_bytes!("../tests/fixtures/metadata-icc.png");
        let sheet = png::read(bytes, "", &mut Progress::quiet()).unwrap();
        let says = |name: &str| lost(&sheet, Path::new(name)).unwrap();
        assert_eq!(says("out.png"), "out.png: not kept of what the sheet's file says: chunk prVT");
        let words =
            "chunk prVT, the pixels' shape (pHYs), the colour profile (iCCP), the Exif data (eXIf), chunk prVt, \
                     texts (tEXt, zTXt, iTXt)";
        assert_eq!(says("out.bmp"), format!("out.bmp: not kept of what the sheet's file says: {words}"));
        let through_bmp = bmp::read(&bmp::write(&sheet)).unwrap();
        assert_eq!(lost(&through_bmp, Path::new("out.bmp")), None);
    }

    #[test]
    fn formats_by_extension() {
        assert_eq!(format(Path::new("a/b.PNG")), Ok(Format::Png));
        assert_eq!(format(Path::new("b.Bmp")), Ok(Format::Bmp));
        for other in ["b", "b.jpg", "png", ".png"] {
            assert!(format(Path::new(other)).unwrap_err().contains(".png or .bmp"));
        }
    }
}
