//! The reasons against the library's judgement, over seeded records.

use std::collections::BTreeMap;

use lacrumont_tool::facts::Facts;
use lacrumont_tool::library::{self, Which};
use lacrumont_tool::reasons::reason;
use records::bytes::{get, set, set_half};
use records::dib::{part_length, rows_length, V4};
use records::operation::{blend_field, rop, rop4};
use records::places::{header, places, BOUNDS, MASK_CORNER, MASK_FOUR, MASK_USAGE, SIZE, TARGET, TYPE};
use records::{Header, Picture, Record, ALPHABLEND, MASKBLT, STRETCHDIBITS};

/// The statuses in the order in which they are judged.
const ORDER: [u32; 12] = [3, 4, 5, 6, 21, 7, 8, 9, 10, 11, 12, 13];
const RECORDS: usize = 150_000;
const LEAST_OF_EACH: usize = 200;

/// SplitMix64.
struct Seeded(u64);

impl Seeded {
    fn next(&mut self) -> u64 {
        self.0 = self.0.wrapping_add(0x9E37_79B9_7F4A_7C15);
        let mut n = self.0;
        n = (n ^ (n >> 30)).wrapping_mul(0xBF58_476D_1CE4_E5B9);
        n = (n ^ (n >> 27)).wrapping_mul(0x94D0_49BB_1331_11EB);
        n ^ (n >> 31)
    }

    fn below(&mut self, end: usize) -> usize {
        (self.next() % end as u64) as usize
    }

    fn one_in(&mut self, n: usize) -> bool {
        self.below(n) == 0
    }

    fn of<T: Copy>(&mut self, choices: &[T]) -> T {
        choices[self.below(choices.len())]
    }
}

/// A sound picture of these sides.
fn picture(seeded: &mut Seeded, width: i32, rows: i32, bits: u16) -> Picture {
    let size = seeded.of(&[40, V4]);
    let height = if seeded.one_in(2) { rows } else { -rows };
    let masks = match bits {
        16 => seeded.of(&[
            None,
            Some([0xF800, 0x07E0, 0x001F, 0]),
            Some([0x001F, 0x03E0, 0x7C00, 0x8000]),
            Some([0x000F, 0x00F0, 0x0F00, 0xF000]),
        ]),
        32 => seeded.of(&[
            None,
            Some([0x00FF_0000, 0x0000_FF00, 0x0000_00FF, 0]),
            Some([0x0000_00FF, 0x0000_FF00, 0x00FF_0000, 0xFF00_0000]),
            Some([0x0000_0001, 0x0000_003E, 0x0FF0_0000, 0x8000_0000]),
        ]),
        _ => None,
    };
    let used = if seeded.one_in(2) { 0 } else { seeded.of(&[1, 2]) };
    let head = Header { used, masks, ..Header::new(size, width, height, bits) };
    let table = part_length(size, masks.is_some(), bits, used) - part_length(size, masks.is_some(), 24, 0);
    let pixels = rows_length(width.into(), rows.into(), bits);
    Picture { header: head, table: vec![0x00A0_B0C0; table / 4], pixels: (0..pixels).map(|k| k as u8).collect() }
}

/// Whether the source can be blended by its own alpha.
fn has_alpha(picture: &Picture) -> bool {
    let Header { size, bits, masks, .. } = picture.header;
    bits == 32 && masks.is_none_or(|masks| size == V4 && masks[3] != 0)
}

/// A sound record of one of the three types; some masks have a depth that is not played.
fn record(seeded: &mut Seeded) -> Vec<u8> {
    let kind = seeded.of(&[ALPHABLEND, MASKBLT, STRETCHDIBITS]);
    let [width, rows] = [1, 1].map(|least| least + seeded.below(9) as i32);
    let bits = seeded.of(&[1, 4, 8, 16, 24, 32, 32]);
    let source = picture(seeded, width, rows, bits);
    let target = [seeded.below(50) as i32 - 25, 7, 1 + seeded.below(60) as i32, 9];
    let gap = (seeded.below(6), seeded.one_in(2));
    let made = match kind {
        ALPHABLEND => {
            let format = u32::from(has_alpha(&source) && seeded.one_in(2));
            Record::new(kind, target, blend_field(200, format)).from([0, 0, width, rows], source)
        }
        MASKBLT => {
            let depth = if seeded.one_in(8) { seeded.of(&[4, 8, 24]) } else { 1 };
            let mask = picture(seeded, 8, 2, depth);
            let made = |operation| Record::new(kind, [3, 4, width, rows], operation).masked([-3, 5], mask);
            match seeded.one_in(3) {
                true => made(rop4(0xF0, 0x55)),
                false => made(rop4(0xCC, 0xAA)).from([0; 4], source),
            }
        }
        _ => match seeded.one_in(4) {
            true => Record::new(kind, target, rop(0x5A)),
            false => Record::new(kind, [9, 9, -5, 6], rop(0xCC)).from([width, 0, -width, rows], source),
        },
    };
    made.gapped(gap.0, gap.1).bytes()
}

/// Numbers at which tests of extents, corners, sides and sizes turn.
const EDGES: [i64; 30] = [
    0,
    1,
    2,
    3,
    4,
    8,
    12,
    39,
    40,
    41,
    52,
    56,
    107,
    108,
    124,
    255,
    256,
    257,
    4_095,
    4_096,
    4_097,
    16_384,
    16_385,
    65_536,
    1_000_000,
    1_000_001,
    0x7FFF_FFFF,
    0x8000_0000,
    0xFFFF_FFF0,
    0xFFFF_FFFF,
];

/// An edge, its negative, or a number near the one that is there.
fn edge(seeded: &mut Seeded, old: u32) -> u32 {
    match seeded.below(4) {
        0 => seeded.of(&EDGES) as u32,
        1 => (-seeded.of(&EDGES)) as u32,
        2 => old.wrapping_add(seeded.of(&[1, 2, 3, 4, 8, 40])),
        _ => old.wrapping_sub(seeded.of(&[1, 2, 3, 4, 8, 40])),
    }
}

fn set_edge(seeded: &mut Seeded, bytes: &mut [u8], at: usize) {
    let number = edge(seeded, get(bytes, at));
    set(bytes, at, number);
}

/// One change, of the kind that the number says.
fn change(seeded: &mut Seeded, bytes: &mut Vec<u8>, what: usize) {
    let kind = get(bytes, TYPE);
    let at = places(kind);
    let masked = kind == MASKBLT && seeded.one_in(2);
    let four = if masked { MASK_FOUR } else { at.four };
    match what {
        0 => change_length(seeded, bytes),
        1 => set(bytes, TYPE, seeded.of(&[0, 1, 14, 0x4C, 0x4D, 0x4F, 0x50, 0x52, 0x73, 0x74, 0x7200, u32::MAX])),
        2 => set_edge(seeded, bytes, SIZE),
        3 | 4 => {
            let field = four + 4 * seeded.below(4);
            set_edge(seeded, bytes, field);
        }
        5 => {
            let floats = [1.0, 0.0, -0.0, 2.0, 0.5, -1.0, f32::NAN, f32::INFINITY, f32::from_bits(1)];
            let place = at.transform.unwrap_or(at.corner[0]) + 4 * seeded.below(6);
            set(bytes, place, seeded.of(&floats).to_bits());
        }
        6 => set(bytes, if masked { MASK_USAGE } else { at.usage }, seeded.of(&[0, 1, 2, 3, u32::MAX])),
        7..=9 => {
            let part = get(bytes, four) as usize;
            if part < bytes.len() {
                change_header(seeded, bytes, part);
            }
        }
        10 => {
            let place = at.operation + seeded.below(4);
            if let Some(byte) = bytes.get_mut(place) {
                *byte = seeded.of(&[0, 1, 2, 3, 0xF0, 0xCC, 0xAA, 0x5A, 0x80]);
            }
        }
        11 | 12 => {
            let [cx, cy] = at.source_extent.unwrap_or(at.extent);
            let fields = [TARGET, at.extent, at.corner, [cx, cy], MASK_CORNER, [BOUNDS, BOUNDS + 4]];
            let field = seeded.of(&fields)[seeded.below(2)];
            set_edge(seeded, bytes, field);
        }
        _ => (0..4).for_each(|k| set(bytes, four + 4 * k, 0)),
    }
}

/// Cut or made longer, with Size to match or without.
fn change_length(seeded: &mut Seeded, bytes: &mut Vec<u8>) {
    let length = match seeded.below(4) {
        0 | 1 => seeded.below(9),
        2 => seeded.below(bytes.len() + 1),
        _ => bytes.len() + seeded.below(9),
    };
    bytes.resize(length, 0x5C);
    if seeded.one_in(2) {
        set(bytes, SIZE, length as u32);
    }
}

/// A field or a mask of the header that begins at this place.
fn change_header(seeded: &mut Seeded, bytes: &mut [u8], part: usize) {
    match seeded.below(9) {
        0 => set(bytes, part + header::SIZE, seeded.of(&[0, 12, 39, 40, 41, 52, 107, 108, 124, u32::MAX])),
        1 => set_edge(seeded, bytes, part + header::WIDTH),
        2 => set_edge(seeded, bytes, part + header::HEIGHT),
        3 => set_half(bytes, part + header::PLANES, seeded.of(&[0, 1, 2, 256, 65_535])),
        4 => set_half(bytes, part + header::BITS, seeded.of(&[0, 1, 2, 4, 8, 15, 16, 24, 32, 33, 64, 65_535])),
        5 => set(bytes, part + header::COMPRESSION, seeded.of(&[0, 1, 2, 3, 4, 5, 6, 11, 77, u32::MAX])),
        6 => set_edge(seeded, bytes, part + header::USED),
        _ => {
            let masks = [0, 1, 5, 0x1F, 0xFF, 0x1FF, 0x7E0, 0x8000, 0x1_0000, 0x00FF_0000, 0x3FF0_0000, 0xFF00_0000];
            set(bytes, part + header::COMPRESSION, 3);
            set(bytes, part + header::MASKS + 4 * seeded.below(4), seeded.of(&masks));
        }
    }
}

/// The library's status has a reason, no status judged before it has one, and none stops the tool.
fn check(bytes: &[u8]) -> u32 {
    let read = library::read(bytes, Which::Source);
    let status = read.err().unwrap_or(0);
    let shown = || format!("status {status}: {:?}", &bytes[..bytes.len().min(400)]);
    for number in ORDER {
        if number == status {
            assert!(reason(bytes, number).is_some(), "no reason for {}", shown());
            break;
        }
        assert_eq!(reason(bytes, number), None, "{number} before {}", shown());
    }
    for number in 0..32 {
        reason(bytes, number);
    }
    if let Ok(picture) = read {
        let header = Facts::read(bytes).source.map(|source| source.header.unwrap());
        let rows = header.map_or(0, |header| header.height.unwrap().unsigned_abs());
        let width = header.map_or(0, |header| header.width.unwrap());
        assert_eq!((picture.width, picture.rows), (width as u64, rows.into()), "{}", shown());
    }
    status
}

#[test]
fn each_status_has_its_reason_and_no_other() {
    let mut seeded = Seeded(20_260_000);
    let mut tally: BTreeMap<u32, usize> = BTreeMap::new();
    for _ in 0..RECORDS {
        let mut bytes = record(&mut seeded);
        for _ in 0..seeded.below(5) {
            let what = seeded.below(14);
            change(&mut seeded, &mut bytes, what);
        }
        *tally.entry(check(&bytes)).or_default() += 1;
    }
    println!("{tally:?}");
    assert!(tally.keys().all(|status| *status == 0 || ORDER.contains(status)), "{tally:?}");
    for status in ORDER.into_iter().chain([0]) {
        assert!(tally.get(&status).is_some_and(|count| *count >= LEAST_OF_EACH), "status {status}: {tally:?}");
    }
}

/// The longest record there is, and longer ones.
#[test]
fn long_records() {
    let mut bytes = Record::new(STRETCHDIBITS, [0, 0, 4, 4], rop(0xF0)).bytes();
    for (length, status) in [(16_777_212, 0), (16_777_216, 0), (16_777_220, 3), (16_777_217, 3)] {
        bytes.resize(length, 0);
        set(&mut bytes, SIZE, length as u32);
        assert_eq!(check(&bytes), status);
    }
}

/// Bytes without any sense, under each type, and cut at each place.
#[test]
fn any_bytes_are_judged_alike() {
    let mut seeded = Seeded(7);
    for kind in 0..=0x80 {
        for _ in 0..50 {
            let mut bytes: Vec<u8> = (0..seeded.below(300)).map(|_| seeded.of(&[0, 0, 0, 1, 40, 150, 255])).collect();
            set(&mut bytes, TYPE, kind);
            if seeded.one_in(2) {
                let length = bytes.len() as u32;
                set(&mut bytes, SIZE, length);
            }
            check(&bytes);
        }
    }
    let whole = record(&mut seeded);
    for length in 0..whole.len() {
        check(&whole[..length]);
    }
}
