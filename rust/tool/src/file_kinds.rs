//! What a file is, by how it begins: so that a mix-up is told in plain words.

use crate::bytes::{u16_at, u32_at};

pub const EMF: &str = "an EMF file";
pub const PNG: &str = "a PNG picture";
pub const BMP: &str = "a BMP picture";

/// How some kinds of files begin, and what they are called.
const BEGINNINGS: [(&[u8], &str); 16] = [
    (b"\x89PNG\r\n\x1a\n", PNG),
    (b"\xFF\xD8\xFF", "a JPEG picture"),
    (b"GIF8", "a GIF picture"),
    (b"II\x2A\x00", "a TIFF picture"),
    (b"MM\x00\x2A", "a TIFF picture"),
    (b"II\x2B\x00", "a BigTIFF picture"),
    (b"lacrjrnl", "a journal of this tool"),
    (b"\xD7\xCD\xC6\x9A", "a WMF file"),
    (b"%PDF", "a PDF file"),
    (b"%!PS", "a PostScript file"),
    (b"PK\x03\x04", "a ZIP archive (office documents are such, too)"),
    (b"\x1F\x8B", "a gzip file (an .emz file is a packed EMF file: unpack it first)"),
    (b"\xD0\xCF\x11\xE0", "an office document of the old kind"),
    (b"<?xml", "an XML file"),
    (b"<svg", "an SVG picture"),
    (b"RIFF", "a RIFF file (a WebP picture is one)"),
];

/// What the file is; None where its beginning tells nothing.
pub fn kind(bytes: &[u8]) -> Option<&'static str> {
    if is_emf(bytes) {
        return Some(EMF);
    }
    if bytes.is_empty() {
        return Some("an empty file");
    }
    if let Some((_, name)) = BEGINNINGS.iter().find(|(beginning, _)| bytes.starts_with(beginning)) {
        return Some(name);
    }
    // Two bytes are few, so the header behind them is looked at.
    if bytes.starts_with(b"BM") && u32_at(bytes, 14).is_some_and(|size| (12..=124).contains(&size)) {
        return Some(BMP);
    }
    // A WMF file without a placeable header: type 1 or 2, a header of 9 words, version 1.0 or 3.0.
    let numbers = [0, 2, 4].map(|at| u16_at(bytes, at));
    if matches!(numbers, [Some(1 | 2), Some(9), Some(0x0100 | 0x0300)]) {
        return Some("a WMF file");
    }
    None
}

/// A header record (type 1) with " EMF" at byte 40.
fn is_emf(bytes: &[u8]) -> bool {
    u32_at(bytes, 0) == Some(1) && bytes.get(40..44) == Some(b" EMF")
}

/// That a file is not what it should be, where one can tell what it is instead: `this is a PNG picture, not an EMF file`.
pub fn mixed_up(bytes: &[u8], wanted: &str) -> Option<String> {
    kind(bytes).filter(|found| *found != wanted).map(|found| format!("this is {found}, not {wanted}"))
}

#[cfg(test)]
mod tests {
    use super::*;

    #[test]
    fn kinds_by_their_beginning() {
        let mut emf = [1u32, 88].map(u32::to_le_bytes).concat();
        emf.resize(40, 0);
        assert_eq!(kind(&emf), None);
        emf.extend(b" EMF");
        assert_eq!(kind(&emf), Some("an EMF file"));
        assert_eq!(kind(b""), Some("an empty file"));
        assert_eq!(kind(b"\x89PNG\r\n\x1a\n..."), Some("a PNG picture"));
        assert_eq!(kind(b"\xFF\xD8\xFF\xE0"), Some("a JPEG picture"));
        assert_eq!(kind(b"BM, we say"), None);
        assert_eq!(kind(b"BM\0\0\0\0\0\0\0\0\x36\0\0\0\x28\0\0\0"), Some("a BMP picture"));
        assert_eq!(kind(b"\x01\0\x09\0\0\x03rest"), Some("a WMF file"));
        assert_eq!(kind(b"\x1F\x8B\x08").unwrap().split(' ').nth(1), Some("gzip"));
        assert_eq!(kind(b"snow"), None);
    }

    #[test]
    fn mix_ups() {
        let png = b"\x89PNG\r\n\x1a\n";
        assert_eq!(mixed_up(png, EMF).unwrap(), "this is a PNG picture, not an EMF file");
        assert_eq!(mixed_up(png, PNG), None);
        assert_eq!(mixed_up(b"snow", EMF), None);
    }
}
