//! Where the fields of the bitmap records stand: document 01's byte places, and MS-EMF, 2.3.1, for the other types.

use crate::record_types::{
    ALPHABLEND, BITBLT, MASKBLT, PLGBLT, SETDIBITSTODEVICE, STRETCHBLT, STRETCHDIBITS, TRANSPARENTBLT,
};

/// One type's row. A rectangle's places are those of x, y, cx, cy.
#[derive(Clone, Copy, Debug, PartialEq, Eq)]
pub struct Places {
    pub fixed_end: usize,
    pub target: TargetAt,
    /// Some types have no extent of their own for the source: it is the target's.
    pub source: [usize; 4],
    pub transform: Option<usize>,
    pub operation: OperationAt,
    pub source_picture: PictureAt,
    pub mask: Option<MaskAt>,
}

#[derive(Clone, Copy, Debug, PartialEq, Eq)]
pub enum TargetAt {
    Rectangle([usize; 4]),
    /// Three points, one behind the other.
    Points(usize),
}

#[derive(Clone, Copy, Debug, PartialEq, Eq)]
pub enum OperationAt {
    Blend(usize),
    Rop4(usize),
    Rop(usize),
    /// A colour that is not copied.
    Transparent(usize),
    /// First stored row and number of rows.
    Scans(usize),
    /// No field: the source is copied.
    Copy,
}

/// Usage, and the first of offBmi, cbBmi, offBits, cbBits.
#[derive(Clone, Copy, Debug, PartialEq, Eq)]
pub struct PictureAt {
    pub usage: usize,
    pub four: usize,
}

#[derive(Clone, Copy, Debug, PartialEq, Eq)]
pub struct MaskAt {
    pub corner: [usize; 2],
    pub picture: PictureAt,
}

/// What most types have alike.
const BLIT: Places = Places {
    fixed_end: 108,
    target: TargetAt::Rectangle([24, 28, 32, 36]),
    source: [44, 48, 100, 104],
    transform: Some(52),
    operation: OperationAt::Rop(40),
    source_picture: PictureAt { usage: 80, four: 84 },
    mask: None,
};

/// What the two types without XformSrc have alike.
const DIB: Places = Places {
    fixed_end: 80,
    target: TargetAt::Rectangle([24, 28, 72, 76]),
    source: [32, 36, 40, 44],
    transform: None,
    operation: OperationAt::Rop(68),
    source_picture: PictureAt { usage: 64, four: 48 },
    mask: None,
};

const TABLE: [(u32, Places); 8] = [
    (ALPHABLEND, Places { operation: OperationAt::Blend(40), ..BLIT }),
    (
        MASKBLT,
        Places {
            fixed_end: 128,
            source: [44, 48, 32, 36],
            operation: OperationAt::Rop4(40),
            mask: Some(MaskAt { corner: [100, 104], picture: PictureAt { usage: 108, four: 112 } }),
            ..BLIT
        },
    ),
    (STRETCHDIBITS, DIB),
    (
        PLGBLT,
        Places {
            fixed_end: 140,
            target: TargetAt::Points(24),
            source: [48, 52, 56, 60],
            transform: Some(64),
            operation: OperationAt::Copy,
            source_picture: PictureAt { usage: 92, four: 96 },
            mask: Some(MaskAt { corner: [112, 116], picture: PictureAt { usage: 120, four: 124 } }),
        },
    ),
    (BITBLT, Places { fixed_end: 100, source: [44, 48, 32, 36], ..BLIT }),
    (STRETCHBLT, BLIT),
    (TRANSPARENTBLT, Places { operation: OperationAt::Transparent(40), ..BLIT }),
    (
        SETDIBITSTODEVICE,
        Places {
            fixed_end: 76,
            target: TargetAt::Rectangle([24, 28, 40, 44]),
            operation: OperationAt::Scans(68),
            ..DIB
        },
    ),
];

/// The type's row; None for a type without a bitmap.
pub fn places(kind: u32) -> Option<&'static Places> {
    TABLE.iter().find(|(row, _)| *row == kind).map(|(_, places)| places)
}

#[cfg(test)]
mod tests {
    use super::*;
    use crate::record_types::is_bitmap;

    #[test]
    fn every_bitmap_type_has_a_row() {
        assert!((0..=200).all(|kind| places(kind).is_some() == is_bitmap(kind)));
    }

    /// The played types against the places by which records are made for the tests.
    #[test]
    fn played_types_stand_where_records_are_made() {
        for kind in [ALPHABLEND, MASKBLT, STRETCHDIBITS] {
            let (ours, made) = (places(kind).unwrap(), records::places::places(kind));
            let [cx, cy] = made.source_extent.unwrap_or(made.extent);
            let target = [records::places::TARGET, made.extent].concat();
            assert_eq!(ours.fixed_end, made.fixed);
            assert_eq!(ours.target, TargetAt::Rectangle(target.try_into().unwrap()));
            assert_eq!(ours.source, [made.corner[0], made.corner[1], cx, cy]);
            assert_eq!(ours.transform, made.transform);
            assert_eq!(ours.source_picture, PictureAt { usage: made.usage, four: made.four });
        }
        let mask = places(MASKBLT).unwrap().mask.unwrap();
        assert_eq!(mask.corner, records::places::MASK_CORNER);
        assert_eq!([mask.picture.usage, mask.picture.four], [records::places::MASK_USAGE, records::places::MASK_FOUR]);
    }
}
