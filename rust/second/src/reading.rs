//! The reading of a record's source or mask.

use crate::dib::Part;
use crate::refusals::check;

#[derive(Clone, Debug, PartialEq, Eq)]
pub struct Reading {
    pub status: u32,
    /// The header part, where it stands in the record.
    pub header: Part,
    /// The picture's rows, where they stand in the record.
    pub view: Part,
    pub width: u32,
    pub rows: u32,
    pub bits: u32,
    pub compression: u32,
    pub top_down: bool,
    /// The masks under BI_BITFIELDS, 0 under BI_RGB.
    pub red: u32,
    pub green: u32,
    pub blue: u32,
    pub alpha: u32,
    pub palette: [u32; 256],
}

/// "A refused reading gives its number, an empty header part, an empty view
/// with width and rows 0 in the 1-bit bottom-up layout, and a black palette."
fn empty(status: u32) -> Reading {
    Reading {
        status,
        header: Part { offset: 0, length: 0 },
        view: Part { offset: 0, length: 0 },
        width: 0,
        rows: 0,
        bits: 1,
        compression: 0,
        top_down: false,
        red: 0,
        green: 0,
        blue: 0,
        alpha: 0,
        palette: [0; 256],
    }
}

/// "A reading is asked for source or mask; if that one is absent, or the type
/// has no mask, it answers 0 with the rest as in a refused reading."
/// "Reading alone checks 3 to 13", and 21 in its place (document 02, item 5).
pub fn reading(record: &[u8], mask: bool) -> Reading {
    let sound = match check(record) {
        Err(refusal) => return empty(refusal),
        Ok(sound) => sound,
    };
    let asked = if mask { sound.mask } else { sound.source };
    match asked {
        None => empty(0),
        Some(dib) => Reading {
            status: 0,
            header: dib.header,
            view: dib.view,
            width: dib.width as u32,
            rows: dib.rows as u32,
            bits: dib.bits as u32,
            compression: dib.compression as u32,
            top_down: dib.top_down,
            red: dib.red as u32,
            green: dib.green as u32,
            blue: dib.blue as u32,
            alpha: dib.alpha as u32,
            palette: dib.palette,
        },
    }
}
