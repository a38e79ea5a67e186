//! The record types of an EMF file, by number and name (MS-EMF, 2.1.1).

use std::borrow::Cow;

pub const HEADER: u32 = 1;
pub const EOF: u32 = 14;
pub const BITBLT: u32 = 0x4C;
pub const STRETCHBLT: u32 = 0x4D;
pub const MASKBLT: u32 = 0x4E;
pub const PLGBLT: u32 = 0x4F;
pub const SETDIBITSTODEVICE: u32 = 0x50;
pub const STRETCHDIBITS: u32 = 0x51;
pub const ALPHABLEND: u32 = 0x72;
pub const TRANSPARENTBLT: u32 = 0x74;

/// Names without their EMR_, from number 1 on; empty where a number is not given to a type.
#[rustfmt::skip]
const NAMES: [&str; 122] = [
    "HEADER", "POLYBEZIER", "POLYGON", "POLYLINE", "POLYBEZIERTO", "POLYLINETO", "POLYPOLYLINE", "POLYPOLYGON",
    "SETWINDOWEXTEX", "SETWINDOWORGEX", "SETVIEWPORTEXTEX", "SETVIEWPORTORGEX", "SETBRUSHORGEX", "EOF", "SETPIXELV",
    "SETMAPPERFLAGS", "SETMAPMODE", "SETBKMODE", "SETPOLYFILLMODE", "SETROP2", "SETSTRETCHBLTMODE", "SETTEXTALIGN",
    "SETCOLORADJUSTMENT", "SETTEXTCOLOR", "SETBKCOLOR", "OFFSETCLIPRGN", "MOVETOEX", "SETMETARGN", "EXCLUDECLIPRECT",
    "INTERSECTCLIPRECT", "SCALEVIEWPORTEXTEX", "SCALEWINDOWEXTEX", "SAVEDC", "RESTOREDC", "SETWORLDTRANSFORM",
    "MODIFYWORLDTRANSFORM", "SELECTOBJECT", "CREATEPEN", "CREATEBRUSHINDIRECT", "DELETEOBJECT", "ANGLEARC", "ELLIPSE",
    "RECTANGLE", "ROUNDRECT", "ARC", "CHORD", "PIE", "SELECTPALETTE", "CREATEPALETTE", "SETPALETTEENTRIES",
    "RESIZEPALETTE", "REALIZEPALETTE", "EXTFLOODFILL", "LINETO", "ARCTO", "POLYDRAW", "SETARCDIRECTION",
    "SETMITERLIMIT", "BEGINPATH", "ENDPATH", "CLOSEFIGURE", "FILLPATH", "STROKEANDFILLPATH", "STROKEPATH",
    "FLATTENPATH", "WIDENPATH", "SELECTCLIPPATH", "ABORTPATH", "", "COMMENT", "FILLRGN", "FRAMERGN", "INVERTRGN",
    "PAINTRGN", "EXTSELECTCLIPRGN", "BITBLT", "STRETCHBLT", "MASKBLT", "PLGBLT", "SETDIBITSTODEVICE", "STRETCHDIBITS",
    "EXTCREATEFONTINDIRECTW", "EXTTEXTOUTA", "EXTTEXTOUTW", "POLYBEZIER16", "POLYGON16", "POLYLINE16", "POLYBEZIERTO16",
    "POLYLINETO16", "POLYPOLYLINE16", "POLYPOLYGON16", "POLYDRAW16", "CREATEMONOBRUSH", "CREATEDIBPATTERNBRUSHPT",
    "EXTCREATEPEN", "POLYTEXTOUTA", "POLYTEXTOUTW", "SETICMMODE", "CREATECOLORSPACE", "SETCOLORSPACE",
    "DELETECOLORSPACE", "GLSRECORD", "GLSBOUNDEDRECORD", "PIXELFORMAT", "DRAWESCAPE", "EXTESCAPE", "", "SMALLTEXTOUT",
    "FORCEUFIMAPPING", "NAMEDESCAPE", "COLORCORRECTPALETTE", "SETICMPROFILEA", "SETICMPROFILEW", "ALPHABLEND",
    "SETLAYOUT", "TRANSPARENTBLT", "", "GRADIENTFILL", "SETLINKEDUFIS", "SETTEXTJUSTIFICATION", "COLORMATCHTOTARGETW",
    "CREATECOLORSPACEW",
];

/// A type's name as MS-EMF has it, such as EMR_BITBLT.
pub fn name(kind: u32) -> Cow<'static, str> {
    match is_known(kind) {
        true => Cow::Owned(format!("EMR_{}", NAMES[kind as usize - 1])),
        false => Cow::Borrowed("record of an unknown type"),
    }
}

/// A type that is played, in words; None for one that is not.
pub fn played(kind: u32) -> Option<&'static str> {
    match kind {
        ALPHABLEND => Some("alpha blend"),
        MASKBLT => Some("mask blit"),
        STRETCHDIBITS => Some("stretched DIB"),
        _ => None,
    }
}

/// The types that carry a bitmap, whether they are played or not (MS-EMF, 2.3.1).
pub fn is_bitmap(kind: u32) -> bool {
    matches!(kind, BITBLT..=STRETCHDIBITS | ALPHABLEND | TRANSPARENTBLT)
}

/// The types that draw something else than a bitmap: lines, shapes, fills, text.
pub fn draws_otherwise(kind: u32) -> bool {
    matches!(kind, 2..=8 | 15 | 41..=47 | 53..=56 | 62..=64 | 71..=74 | 83..=92 | 96 | 97 | 102 | 103 | 105 | 108 | 118)
}

/// Those of them that a path gathers while it is under way: lines, curves, closed shapes, text. The others draw at once.
pub fn is_gathered(kind: u32) -> bool {
    matches!(kind, 2..=8 | 41..=47 | 54..=56 | 83..=92 | 96 | 97 | 108)
}

/// Whether MS-EMF gives this number to a type.
pub fn is_known(kind: u32) -> bool {
    (kind as usize).checked_sub(1).and_then(|at| NAMES.get(at)).is_some_and(|name| !name.is_empty())
}

/// A type as the tool speaks of it: name, number and, where it is played, in words.
pub fn named(kind: u32) -> String {
    match played(kind) {
        Some(words) => format!("{words} ({}, 0x{kind:02X})", name(kind)),
        None => format!("{} (0x{kind:02X})", name(kind)),
    }
}

#[cfg(test)]
mod tests {
    use super::*;

    #[test]
    fn names_stand_at_their_numbers() {
        let known = [
            (1, "HEADER"),
            (9, "SETWINDOWEXTEX"),
            (14, "EOF"),
            (17, "SETMAPMODE"),
            (35, "SETWORLDTRANSFORM"),
            (70, "COMMENT"),
            (75, "EXTSELECTCLIPRGN"),
            (BITBLT, "BITBLT"),
            (SETDIBITSTODEVICE, "SETDIBITSTODEVICE"),
            (108, "SMALLTEXTOUT"),
            (TRANSPARENTBLT, "TRANSPARENTBLT"),
            (122, "CREATECOLORSPACEW"),
        ];
        for (kind, text) in known {
            assert_eq!(name(kind), format!("EMR_{text}"));
        }
        for unknown in [0, 69, 107, 117, 123, u32::MAX] {
            assert_eq!(name(unknown), "record of an unknown type");
        }
    }

    #[test]
    fn types_in_words() {
        assert_eq!(named(ALPHABLEND), "alpha blend (EMR_ALPHABLEND, 0x72)");
        assert_eq!(named(BITBLT), "EMR_BITBLT (0x4C)");
        assert_eq!(named(PLGBLT), "EMR_PLGBLT (0x4F)");
        assert_eq!((1..=200).filter(|kind| is_bitmap(*kind)).count(), 8);
        assert_eq!((1..=200).filter(|kind| played(*kind).is_some()).count(), 3);
        assert!((1..=200).all(|kind| !(is_bitmap(kind) && draws_otherwise(kind))));
        for name_of in ["POLYGON", "SETPIXELV", "PIE", "LINETO", "FILLPATH", "PAINTRGN", "EXTTEXTOUTW", "GRADIENTFILL"]
        {
            let kind = NAMES.iter().position(|name| *name == name_of).unwrap() as u32 + 1;
            assert!(draws_otherwise(kind), "{name_of}");
            let at_once = ["SETPIXELV", "FILLPATH", "PAINTRGN", "GRADIENTFILL"];
            assert_eq!(is_gathered(kind), !at_once.contains(&name_of), "{name_of}");
        }
        assert!((1..=200).all(|kind| draws_otherwise(kind) || !is_gathered(kind)));
        for name_of in ["SETBRUSHORGEX", "MOVETOEX", "SAVEDC", "SELECTOBJECT", "BEGINPATH", "COMMENT", "EXTCREATEPEN"] {
            let kind = NAMES.iter().position(|name| *name == name_of).unwrap() as u32 + 1;
            assert!(!draws_otherwise(kind), "{name_of}");
        }
    }
}
