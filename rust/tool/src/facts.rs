//! What stands in a bitmap record, played or not, before anything is judged. All bytes are taken: a field that lies past
//! the record's end is None.

pub mod names;
mod picture;
mod places;

use crate::bytes::{i32_at, u32_at};
pub use picture::{Header, Masks, Part, Picture, Role, BI_BITFIELDS, BI_RGB};
use places::{places, OperationAt, Places, TargetAt};

#[derive(Clone, Copy, Debug, PartialEq)]
pub struct Facts {
    /// The number of the record's bytes.
    pub length: usize,
    pub kind: Option<u32>,
    pub size: Option<u32>,
    /// Left, top, right, bottom.
    pub bounds: Option<[i32; 4]>,
    pub target: Option<Target>,
    pub source_rectangle: Option<Rectangle>,
    /// XformSrc, where the type has it.
    pub transform: Option<[f32; 6]>,
    pub operation: Option<Operation>,
    pub source: Option<Picture>,
    pub mask: Option<Picture>,
    pub mask_corner: Option<[i32; 2]>,
}

#[derive(Clone, Copy, Debug, PartialEq, Eq)]
pub struct Rectangle {
    pub x: i32,
    pub y: i32,
    pub cx: i32,
    pub cy: i32,
}

#[derive(Clone, Copy, Debug, PartialEq, Eq)]
pub enum Target {
    Rectangle(Rectangle),
    /// Three corners of EMR_PLGBLT's parallelogram.
    Points([[i32; 2]; 3]),
}

#[derive(Clone, Copy, Debug, PartialEq, Eq)]
pub enum Operation {
    Blend {
        operation: u8,
        flags: u8,
        constant_alpha: u8,
        format: u8,
    },
    /// The foreground is used where the mask is 1 (MAKEROP4 of wingdi.h).
    Rop4 {
        field: u32,
        foreground: u8,
        background: u8,
    },
    Rop {
        field: u32,
        raster: u8,
    },
    /// Red, green, blue of the colour that is not copied.
    Transparent {
        colour: [u8; 3],
    },
    /// Stored rows that are copied.
    Scans {
        start: u32,
        count: u32,
    },
    Copy,
}

impl Facts {
    pub fn read(record: &[u8]) -> Facts {
        let kind = u32_at(record, 0);
        let places = kind.and_then(places);
        Facts {
            length: record.len(),
            kind,
            size: u32_at(record, 4),
            bounds: places.and_then(|_| signed(record, [8, 12, 16, 20])),
            target: places.and_then(|places| target(record, places.target)),
            source_rectangle: places.and_then(|places| rectangle(record, places.source)),
            transform: places.and_then(|places| transform(record, places.transform?)),
            operation: places.and_then(|places| operation(record, places.operation)),
            source: places.and_then(|places| Picture::read(record, places.source_picture, Role::Source)),
            mask: places.and_then(|places| Picture::read(record, places.mask?.picture, Role::Mask)),
            mask_corner: places.and_then(|places| signed(record, places.mask?.corner)),
        }
    }

    /// The end of the fixed part of the record's type.
    pub fn fixed_end(&self) -> Option<usize> {
        Some(self.places()?.fixed_end)
    }

    /// Whether the type has a mask, present or not.
    pub fn has_mask(&self) -> bool {
        self.places().is_some_and(|places| places.mask.is_some())
    }

    /// Whether the source's extent is a field of its own, not the target's.
    pub fn has_source_extent(&self) -> bool {
        self.places().is_some_and(|places| match places.target {
            TargetAt::Rectangle([_, _, cx, cy]) => places.source[2..] != [cx, cy],
            TargetAt::Points(_) => true,
        })
    }

    /// The present pictures, the source first.
    pub fn pictures(&self) -> impl Iterator<Item = &Picture> {
        self.source.iter().chain(&self.mask)
    }

    /// Whether a pixel can depend on the brush: its bit, 4 in a place of the truth table, makes a difference.
    pub fn uses_brush(&self) -> bool {
        let brush = |raster: u8| (0..4).any(|k| raster >> k & 1 != raster >> (k + 4) & 1);
        match self.operation {
            Some(Operation::Rop { raster, .. }) => brush(raster),
            Some(Operation::Rop4 { foreground, background, .. }) => brush(foreground) || brush(background),
            _ => false,
        }
    }

    /// Left, top, right, bottom of the pixels covered, right and bottom not included; None for a parallelogram.
    pub fn target_rectangle(&self) -> Option<[i64; 4]> {
        match self.target? {
            Target::Rectangle(rectangle) => Some(rectangle.covered()),
            Target::Points(_) => None,
        }
    }

    fn places(&self) -> Option<&'static Places> {
        places(self.kind?)
    }
}

impl Rectangle {
    /// Left, top, right, bottom, the last two not included. A negative extent covers the pixels before its corner.
    pub fn covered(&self) -> [i64; 4] {
        let [x, y, cx, cy] = [self.x, self.y, self.cx, self.cy].map(i64::from);
        [x + cx.min(0), y + cy.min(0), x + cx.max(0), y + cy.max(0)]
    }
}

fn signed<const N: usize>(record: &[u8], at: [usize; N]) -> Option<[i32; N]> {
    let mut numbers = [0; N];
    for (number, at) in numbers.iter_mut().zip(at) {
        *number = i32_at(record, at)?;
    }
    Some(numbers)
}

fn rectangle(record: &[u8], at: [usize; 4]) -> Option<Rectangle> {
    let [x, y, cx, cy] = signed(record, at)?;
    Some(Rectangle { x, y, cx, cy })
}

fn target(record: &[u8], at: TargetAt) -> Option<Target> {
    match at {
        TargetAt::Rectangle(at) => rectangle(record, at).map(Target::Rectangle),
        TargetAt::Points(at) => {
            let point = |number: usize| signed(record, [at + 8 * number, at + 8 * number + 4]);
            Some(Target::Points([point(0)?, point(1)?, point(2)?]))
        }
    }
}

fn transform(record: &[u8], at: usize) -> Option<[f32; 6]> {
    let mut numbers = [0.0; 6];
    for (place, number) in numbers.iter_mut().enumerate() {
        *number = f32::from_bits(u32_at(record, at + 4 * place)?);
    }
    Some(numbers)
}

fn operation(record: &[u8], at: OperationAt) -> Option<Operation> {
    let bytes = |at| u32_at(record, at).map(u32::to_le_bytes);
    Some(match at {
        OperationAt::Blend(at) => {
            let [operation, flags, constant_alpha, format] = bytes(at)?;
            Operation::Blend { operation, flags, constant_alpha, format }
        }
        OperationAt::Rop4(at) => {
            let [_, _, foreground, background] = bytes(at)?;
            Operation::Rop4 { field: u32_at(record, at)?, foreground, background }
        }
        OperationAt::Rop(at) => Operation::Rop { field: u32_at(record, at)?, raster: bytes(at)?[2] },
        OperationAt::Transparent(at) => {
            // A ColorRef has red in its lowest byte.
            let [red, green, blue, _] = bytes(at)?;
            Operation::Transparent { colour: [red, green, blue] }
        }
        OperationAt::Scans(at) => Operation::Scans { start: u32_at(record, at)?, count: u32_at(record, at + 4)? },
        OperationAt::Copy => Operation::Copy,
    })
}

#[cfg(test)]
mod tests {
    use super::*;
    use crate::record_types::*;

    /// A record of 200 bytes in which each 32-bit field holds its own place.
    fn own_places(kind: u32) -> Vec<u8> {
        let mut bytes: Vec<u8> = (0..50u32).flat_map(|at| (4 * at).to_le_bytes()).collect();
        bytes[..4].copy_from_slice(&kind.to_le_bytes());
        bytes
    }

    fn at([x, y, cx, cy]: [i32; 4]) -> Rectangle {
        Rectangle { x, y, cx, cy }
    }

    /// Usage, offset and size of the header part, offset and size of the bits part.
    fn fields(picture: Option<Picture>) -> Option<[u32; 5]> {
        let Picture { usage, header_part, bits_part, .. } = picture?;
        Some([usage, header_part.offset, header_part.size, bits_part.offset, bits_part.size])
    }

    #[test]
    fn every_type_has_its_fields_at_their_places() {
        let blit = (at([24, 28, 32, 36]), [80, 84, 88, 92, 96], Some(52));
        let rows = [
            (ALPHABLEND, 108, blit, at([44, 48, 100, 104])),
            (MASKBLT, 128, blit, at([44, 48, 32, 36])),
            (BITBLT, 100, blit, at([44, 48, 32, 36])),
            (STRETCHBLT, 108, blit, at([44, 48, 100, 104])),
            (TRANSPARENTBLT, 108, blit, at([44, 48, 100, 104])),
            (STRETCHDIBITS, 80, (at([24, 28, 72, 76]), [64, 48, 52, 56, 60], None), at([32, 36, 40, 44])),
            (SETDIBITSTODEVICE, 76, (at([24, 28, 40, 44]), [64, 48, 52, 56, 60], None), at([32, 36, 40, 44])),
        ];
        for (kind, end, (target, source, transform), from) in rows {
            let facts = Facts::read(&own_places(kind));
            assert_eq!((facts.kind, facts.size, facts.bounds), (Some(kind), Some(4), Some([8, 12, 16, 20])));
            assert_eq!((facts.fixed_end(), facts.target), (Some(end), Some(Target::Rectangle(target))));
            assert_eq!((facts.source_rectangle, fields(facts.source)), (Some(from), Some(source)));
            let floats = transform.map(|at: u32| [0, 4, 8, 12, 16, 20].map(|k| f32::from_bits(at + k)));
            assert_eq!(facts.transform, floats);
            assert_eq!(facts.has_mask(), kind == MASKBLT);
            assert_eq!(facts.mask_corner, (kind == MASKBLT).then_some([100, 104]));
            assert_eq!(fields(facts.mask), (kind == MASKBLT).then_some([108, 112, 116, 120, 124]));
        }
    }

    #[test]
    fn a_parallelogram_has_its_own_places() {
        let facts = Facts::read(&own_places(PLGBLT));
        assert_eq!(facts.fixed_end(), Some(140));
        assert_eq!(facts.target, Some(Target::Points([[24, 28], [32, 36], [40, 44]])));
        assert_eq!(facts.source_rectangle, Some(at([48, 52, 56, 60])));
        assert_eq!(facts.transform, Some([64, 68, 72, 76, 80, 84].map(f32::from_bits)));
        assert_eq!(fields(facts.source), Some([92, 96, 100, 104, 108]));
        assert_eq!(facts.mask_corner, Some([112, 116]));
        assert_eq!(fields(facts.mask), Some([120, 124, 128, 132, 136]));
        assert_eq!((facts.operation, facts.target_rectangle()), (Some(Operation::Copy), None));
    }

    fn operation_of(kind: u32, place: usize, field: u32) -> Facts {
        let mut bytes = own_places(kind);
        bytes[place..place + 4].copy_from_slice(&field.to_le_bytes());
        Facts::read(&bytes)
    }

    #[test]
    fn operations() {
        let is = |kind, place| operation_of(kind, place, 0x04_03_02_01).operation.unwrap();
        let blend = Operation::Blend { operation: 1, flags: 2, constant_alpha: 3, format: 4 };
        assert_eq!(is(ALPHABLEND, 40), blend);
        assert_eq!(is(MASKBLT, 40), Operation::Rop4 { field: 0x0403_0201, foreground: 3, background: 4 });
        for (kind, place) in [(BITBLT, 40), (STRETCHBLT, 40), (STRETCHDIBITS, 68)] {
            assert_eq!(is(kind, place), Operation::Rop { field: 0x0403_0201, raster: 3 });
        }
        assert_eq!(is(TRANSPARENTBLT, 40), Operation::Transparent { colour: [1, 2, 3] });
        assert_eq!(is(SETDIBITSTODEVICE, 68), Operation::Scans { start: 0x0403_0201, count: 72 });
    }

    #[test]
    fn operations_that_use_the_brush() {
        // PATCOPY, PATINVERT, MERGECOPY and PATPAINT name the pattern; the others do not.
        for (raster, uses) in [(0xF0, true), (0x5A, true), (0xC0, true), (0xFB, true), (0xCC, false), (0xAA, false)] {
            assert_eq!(operation_of(STRETCHDIBITS, 68, raster << 16).uses_brush(), uses);
            assert_eq!(operation_of(MASKBLT, 40, raster << 16 | 0xCC00_0000).uses_brush(), uses);
            assert_eq!(operation_of(MASKBLT, 40, raster << 24 | 0x00CC_0000).uses_brush(), uses);
            assert!(!operation_of(ALPHABLEND, 40, raster << 16).uses_brush());
        }
        assert!(!operation_of(STRETCHDIBITS, 68, 0xF000_F0F0).uses_brush());
    }

    #[test]
    fn targets_cover_pixels_before_a_negative_extent() {
        let covered = |numbers| at(numbers).covered();
        assert_eq!(covered([3, 4, 20, 10]), [3, 4, 23, 14]);
        assert_eq!(covered([3, 4, -20, 10]), [-17, 4, 3, 14]);
        assert_eq!(covered([0, 0, 5, -1]), [0, -1, 5, 0]);
        let (least, most) = (i64::from(i32::MIN), i64::from(i32::MAX));
        assert_eq!(covered([i32::MIN, i32::MAX, i32::MIN, i32::MAX]), [2 * least, most, least, 2 * most]);
        assert_eq!(Facts::read(&own_places(STRETCHDIBITS)).target_rectangle(), Some([24, 28, 96, 104]));
    }

    /// A DIB of these fields in a record that ends behind so many of its bytes.
    fn header_of(fields: &[u8], claimed: u32) -> Option<Header> {
        let mut bytes = own_places(STRETCHDIBITS)[..80].to_vec();
        bytes[48..56].copy_from_slice(&[80u32.to_le_bytes(), claimed.to_le_bytes()].concat());
        bytes.extend(fields);
        Facts::read(&bytes).source.unwrap().header
    }

    #[test]
    fn headers_whole_and_cut() {
        let info: Vec<u8> = [40u32, 7, 0xFFFF_FFFB, 0x0020_0001, 3, 1, 2, 3, 9, 4, 0xA, 0xB, 0xC, 0xD]
            .into_iter()
            .flat_map(u32::to_le_bytes)
            .collect();
        let masks = Some(Masks { red: 0xA, green: 0xB, blue: 0xC, alpha: None });
        let whole = Header {
            size: 40,
            width: Some(7),
            height: Some(-5),
            planes: Some(1),
            bits: Some(32),
            compression: Some(3),
            used: Some(9),
            masks,
        };
        assert_eq!(header_of(&info, 52), Some(whole));
        assert_eq!(header_of(&info, 40), Some(Header { masks: None, ..whole }));
        // Neither the part's end nor the record's is passed.
        for cut in [header_of(&info, 14), header_of(&info[..14], 99), header_of(&info[..14], u32::MAX)] {
            let cut = cut.unwrap();
            assert_eq!((cut.planes, cut.bits, cut.compression, cut.used), (Some(1), None, None, None));
        }
        assert_eq!((header_of(&info, 3), header_of(&info[..3], 40)), (None, None));
        let long = [&108u32.to_le_bytes(), &info[4..]].concat();
        assert_eq!(header_of(&long, 108).unwrap().masks.unwrap().alpha, Some(0xD));
        let core = header_of(&[12, 0, 0, 0, 7, 0, 5, 0, 1, 0, 24, 0], 12).unwrap();
        assert_eq!((core.width, core.height, core.planes, core.bits), (Some(7), Some(5), Some(1), Some(24)));
    }

    #[test]
    fn any_bytes_have_facts() {
        for kind in 0..=0x80 {
            let whole = own_places(kind);
            for length in 0..whole.len() {
                let facts = Facts::read(&whole[..length]);
                assert_eq!(facts.length, length);
                assert_eq!(facts.size.is_some(), length >= 8);
                assert_eq!(facts.bounds.is_some(), length >= 24 && is_bitmap(kind));
            }
        }
        assert_eq!(Facts::read(&own_places(HEADER)).target, None);
    }
}
