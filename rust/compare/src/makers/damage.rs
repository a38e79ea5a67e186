//! Damage: one fault or several, aimed at a status, at a field's limits, or at nothing.

use super::geometry::{Aim, FAR};
use super::sound::{raster, sound, sourceless, Record, Wish};
use crate::random::Random;
use face::constants::MOST_RECORD;
use records::bytes::{get, get_half, get_signed, set, set_half, set_signed};
use records::dib::{part_length, rows_length, BI_BITFIELDS, V4};
use records::places::{header, places, MASK_CORNER, MASK_FOUR, MASK_USAGE, SIZE, TARGET, TYPE};
use records::{Parts, ALPHABLEND, MASKBLT, STRETCHDIBITS};

/// Where the length of a part stands, counted from a picture's four fields.
const HEADER_LEN: usize = 4;
const BITS_LEN: usize = 12;
/// Where it stands, counted from the part's own offset field.
const LEN: usize = 4;

/// The statuses that a record can have, in the order in which they are judged.
const STATUSES: [u32; 12] = [3, 4, 5, 6, 21, 7, 8, 9, 10, 11, 12, 13];

/// A sound or a damaged record; `sound_percent` of a hundred are sound.
pub fn any(r: &mut Random, aim: Aim, sound_percent: u64) -> Vec<u8> {
    if r.percent(sound_percent) {
        return sound(r, aim, Wish::default()).bytes;
    }
    match r.below(46) {
        0..=25 => {
            let status = target_status(r);
            aimed(r, aim, status)
        }
        26..=33 => {
            let mut record = sound(r, aim, Wish::default());
            boundary(r, &mut record);
            record.bytes
        }
        34..=37 => several(r, aim),
        38..=41 => crossed(r, aim),
        42..=43 => single_bytes(r, aim),
        44 => other_length(r, aim),
        _ => random_bytes(r),
    }
}

/// What damage is aimed at. 3 to 5 come by other damage as well, and 21 has six pairs of parts to do.
fn target_status(r: &mut Random) -> u32 {
    match r.below(52) {
        0..=5 => r.pick(&[3, 4, 5]),
        6..=10 => 6,
        11..=19 => 21,
        20..=34 => r.pick(&[7, 8, 9]),
        35..=38 => 10,
        _ => r.pick(&[11, 12, 13]),
    }
}

/// Several faults of any status.
fn several(r: &mut Random, aim: Aim) -> Vec<u8> {
    let wish = wish_for(r, 0);
    let mut record = sound(r, aim, wish);
    for _ in 0..2 + r.below(3) {
        if r.percent(25) {
            boundary(r, &mut record);
        } else {
            let status = r.pick(&STATUSES);
            spoil(r, &mut record, status);
        }
    }
    record.bytes
}

fn single_bytes(r: &mut Random, aim: Aim) -> Vec<u8> {
    let mut bytes = sound(r, aim, Wish::default()).bytes;
    for _ in 0..1 + r.below(4) {
        let at = r.below(bytes.len() as u64) as usize;
        bytes[at] = if r.percent(50) { r.pick(&[0, 1, 127, 128, 255]) } else { r.byte() };
    }
    bytes
}

/// Cut off or longer, with or without Size following.
fn other_length(r: &mut Random, aim: Aim) -> Vec<u8> {
    let mut bytes = sound(r, aim, Wish::default()).bytes;
    let length =
        if r.percent(80) { r.below(bytes.len() as u64 + 1) as usize } else { bytes.len() + r.below(13) as usize };
    let fill = r.byte();
    bytes.resize(length, fill);
    if r.percent(70) {
        if r.percent(80) {
            bytes.truncate(length / 4 * 4);
        }
        set_size(&mut bytes);
    }
    bytes
}

/// Bytes without an order, mostly with a type and a Size that pass.
fn random_bytes(r: &mut Random) -> Vec<u8> {
    let length = if r.percent(10) { r.below(12) } else { r.below(400) } as usize;
    let mut bytes = r.bytes(length);
    if r.percent(80) {
        set(&mut bytes, TYPE, r.pick(&[ALPHABLEND, MASKBLT, STRETCHDIBITS]));
    }
    if r.percent(80) {
        bytes.truncate(length / 4 * 4);
        set_size(&mut bytes);
    }
    bytes
}

/// Size follows the length.
fn set_size(bytes: &mut [u8]) {
    let size = bytes.len() as u32;
    set(bytes, SIZE, size);
}

/// What a record needs so that damage at this status bites; 0 for any status.
fn wish_for(r: &mut Random, status: u32) -> Wish {
    let mut wish = Wish::default();
    match status {
        9 => {
            wish.bitfields = true;
        }
        21 => {
            // A mask blit of two pictures has six pairs of parts, the others one.
            wish.kind = Some(r.pick(&[ALPHABLEND, MASKBLT, MASKBLT, MASKBLT, MASKBLT, STRETCHDIBITS]));
            wish.source = r.percent(90);
        }
        11 => {
            wish.kind = Some(r.pick(&[ALPHABLEND, ALPHABLEND, MASKBLT, STRETCHDIBITS]));
            wish.format_1 = r.percent(50);
        }
        13 => {
            wish.kind = Some(MASKBLT);
            if r.percent(50) {
                wish.no_mask = true;
            } else {
                wish.mask_depth = Some(r.pick(&[4, 8, 16, 24, 32]));
            }
        }
        _ => {
            wish.bitfields = r.percent(25);
            wish.format_1 = r.percent(5);
            if r.percent(8) {
                wish.mask_depth = Some(r.pick(&[4, 8, 16, 24, 32]));
            }
        }
    }
    wish
}

/// A record with one fault that mostly gives this status, or comes very near it.
fn aimed(r: &mut Random, aim: Aim, status: u32) -> Vec<u8> {
    let wish = wish_for(r, status);
    let mut record = sound(r, aim, wish);
    // The wish alone brings 13, and half of what 11 is about.
    if !(status == 13 || (status == 11 && wish.format_1 && record.kind == ALPHABLEND)) {
        spoil(r, &mut record, status);
    }
    record.bytes
}

/// Source and mask with a fault each: the first in the order must win, whichever picture has it.
fn crossed(r: &mut Random, aim: Aim) -> Vec<u8> {
    let mask_depth = Some(r.pick(&[1, 8, 16, 16, 32, 32]));
    let wish = Wish { kind: Some(MASKBLT), bitfields: true, mask_depth, ..Wish::default() };
    let mut record = sound(r, aim, wish);
    const FAULTS: [u32; 15] = [6, 6, 21, 7, 7, 8, 8, 9, 9, 9, 9, 10, 10, 10, 10];
    let (source, mask) = (record.source, record.mask);
    (record.source, record.mask) = (source, None);
    let status = r.pick(&FAULTS);
    spoil(r, &mut record, status);
    (record.source, record.mask) = (None, mask);
    let status = r.pick(&FAULTS);
    spoil(r, &mut record, status);
    record.bytes
}

/// One of the present pictures, with the place of its four fields.
fn present(r: &mut Random, record: &Record) -> Option<(Parts, usize)> {
    let source = record.source.map(|p| (p, places(record.kind).four));
    let mask = record.mask.map(|p| (p, MASK_FOUR));
    match (source, mask) {
        (Some(s), Some(m)) => Some(if r.percent(60) { s } else { m }),
        (s, m) => s.or(m),
    }
}

/// The present pictures' parts, by the places of their offset fields.
fn parts(record: &Record) -> Vec<usize> {
    let source = record.source.map(|_| places(record.kind).four);
    let mask = record.mask.map(|_| MASK_FOUR);
    source.into_iter().chain(mask).flat_map(|four| [four, four + 8]).collect()
}

/// Where a part stands, and its length.
fn part(bytes: &[u8], field: usize) -> (usize, usize) {
    (get(bytes, field) as usize, get(bytes, field + LEN) as usize)
}

/// The part begins there from now on.
fn begin(record: &mut Record, field: usize, to: usize) {
    set(&mut record.bytes, field, to as u32);
    let source = record.source.as_mut().map(|p| (p, places(record.kind).four));
    let mask = record.mask.as_mut().map(|p| (p, MASK_FOUR));
    for (p, four) in source.into_iter().chain(mask) {
        if field == four {
            p.header_at = to;
        } else if field == four + 8 {
            p.bits_at = to;
        }
    }
}

/// The same, and a header takes its bytes along. For bits those that stand there will do.
fn put(record: &mut Record, field: usize, to: usize) {
    let (from, length) = part(&record.bytes, field);
    if field == MASK_FOUR || field == places(record.kind).four {
        record.bytes.copy_within(from..from + length, to);
    }
    begin(record, field, to);
}

/// The part stands behind all others from now on, with so many bytes before it and so many behind it up to the record's
/// end. False where damage before this one left no such part.
fn stand_apart(r: &mut Random, record: &mut Record, field: usize, before: usize, behind: usize) -> bool {
    let size = record.bytes.len();
    let (at, length) = part(&record.bytes, field);
    if size < places(record.kind).fixed || at + length > size {
        return false;
    }
    let end = (size + before + length + behind).div_ceil(4) * 4;
    let more = r.bytes(end - size);
    record.bytes.extend(more);
    set_size(&mut record.bytes);
    put(record, field, end - behind - length);
    true
}

/// One fault of the kind that this status is about.
fn spoil(r: &mut Random, record: &mut Record, status: u32) {
    match status {
        3 => record.bytes.truncate(r.below(8) as usize),
        4 => {
            const OTHERS: [u32; 13] =
                [0, 1, 0x4D, 0x4F, 0x50, 0x52, 0x71, 0x73, 0x4E00, 0x01000051, 0x80000072, 0x51000000, u32::MAX];
            let kind = match r.below(10) {
                0 => r.word(),
                // Another type's places over this one's bytes.
                1..=2 => r.pick(&[ALPHABLEND, MASKBLT, STRETCHDIBITS]),
                _ => r.pick_or(&OTHERS, |_| record.kind + 256),
            };
            set(&mut record.bytes, TYPE, kind);
        }
        5 => spoil_size(r, record),
        6 => spoil_part(r, record),
        21 => share(r, record),
        7 => spoil_transform(r, record),
        8 => spoil_header(r, record),
        9 => spoil_masks(r, record),
        10 => spoil_bits(r, record),
        11 => spoil_operation(r, record),
        12 => spoil_geometry(r, record),
        _ => {
            if record.kind == MASKBLT {
                for k in 0..4 {
                    set(&mut record.bytes, MASK_FOUR + 4 * k, 0);
                }
            }
        }
    }
}

fn spoil_size(r: &mut Random, record: &mut Record) {
    let fixed = places(record.kind).fixed;
    let length = record.bytes.len();
    match r.below(5) {
        // Size alone.
        0 => {
            let by = r.pick(&[1, 2, 3, 4, 8, 12, 256, 65_536, 1 << 24, 1 << 31]);
            let size = if r.percent(50) { (length as u32).wrapping_add(by) } else { (length as u32).wrapping_sub(by) };
            set(&mut record.bytes, SIZE, size);
        }
        1 => {
            let size = r.pick(&[0, 4, 8, fixed as u32, fixed as u32 - 4, u32::MAX, 1 << 31, MOST_RECORD as u32]);
            set(&mut record.bytes, SIZE, size);
        }
        // The length alone.
        2 => {
            let by = 1 + r.below(8) as usize;
            let longer = if r.percent(50) { length + by } else { length.saturating_sub(by) };
            let fill = r.byte();
            record.bytes.resize(longer, fill);
        }
        // Both, but not a multiple of 4.
        3 => {
            let by = r.below(4) as usize;
            record.bytes.resize(length + by, 0);
            set(&mut record.bytes, SIZE, (length + by) as u32);
        }
        // Both, around the fixed part's end.
        _ => {
            let new = r.pick(&[8, 12, fixed - 8, fixed - 4, fixed - 3, fixed - 1, fixed]);
            record.bytes.resize(new, 0);
            set(&mut record.bytes, SIZE, new as u32);
        }
    }
}

fn spoil_part(r: &mut Random, record: &mut Record) {
    let fixed = places(record.kind).fixed as u32;
    let Some((_, four)) = present(r, record) else {
        // An absent picture becomes present by one field.
        let four = if record.kind == MASKBLT && r.percent(50) { MASK_FOUR } else { places(record.kind).four };
        let length = record.bytes.len() as u32;
        let n = r.pick(&[1, 40, fixed, length, u32::MAX]);
        set(&mut record.bytes, four + 4 * r.below(4) as usize, n);
        return;
    };
    let at = four + 8 * r.below(2) as usize;
    let form = r.below(8);
    if matches!(form, 2..=4) && r.percent(50) {
        // At the record's end nothing but 6 can be wrong; elsewhere 6 must come before 21.
        stand_apart(r, record, at, 0, 0);
    }
    let length = record.bytes.len() as u32;
    let (offset, size) = (get(&record.bytes, at), get(&record.bytes, at + LEN));
    match form {
        0 => {
            let n = r.pick_or(&[0, 1, 8, fixed - 1, fixed - 4, fixed], |r| r.below(fixed as u64) as u32);
            set(&mut record.bytes, at, n);
        }
        1 => {
            let n = r.pick(&[length, length + 1, length - 1, u32::MAX, 0xFFFF_FFF0, 1 << 31]);
            set(&mut record.bytes, at, n);
        }
        // The end at Size, and one past it.
        2 => set(&mut record.bytes, at, length.wrapping_sub(size)),
        3 => set(&mut record.bytes, at, length.wrapping_sub(size).wrapping_add(1)),
        4 => set(&mut record.bytes, at + 4, length.wrapping_sub(offset).wrapping_add(r.below(2) as u32)),
        // A sum that 32 bits lose.
        5 => {
            let end = r.pick(&[0, 1, 32, fixed, length]);
            if r.percent(50) {
                set(&mut record.bytes, at + 4, end.wrapping_sub(offset));
            } else {
                set(&mut record.bytes, at, 0u32.wrapping_sub(size).wrapping_add(end));
            }
        }
        // Empty parts: nowhere, at the end, where they were.
        6 => {
            let n = r.pick(&[0, 0, length, length + 1, fixed, fixed - 1, offset]);
            set(&mut record.bytes, at, n);
            set(&mut record.bytes, at + 4, 0);
        }
        _ => {
            let n = r.pick_or(&[0, 1, 0x7FFF_FFFF, 1 << 31, u32::MAX], Random::word);
            set(&mut record.bytes, at + 4, n);
        }
    }
}

/// Two parts with a byte in common, or with just none.
fn share(r: &mut Random, record: &mut Record) {
    let four = places(record.kind).four;
    let two = record.source.is_some() && record.mask.is_some();
    let [one, other] = if two && r.percent(80) {
        [four, MASK_FOUR].map(|four| four + 8 * r.below(2) as usize)
    } else {
        match present(r, record) {
            Some((_, four)) => [four, four + 8],
            None => return,
        }
    };
    let [one, other] = if r.percent(50) { [one, other] } else { [other, one] };
    let size = record.bytes.len();
    let (at, length) = part(&record.bytes, other);
    let lost = |field| part(&record.bytes, field).0 + part(&record.bytes, field).1 > size;
    if size < places(record.kind).fixed || lost(one) || lost(other) {
        return;
    }
    match r.below(12) {
        0..=2 => lengthen(r, record),
        3..=7 => meet(r, record, one, other),
        // One part for two.
        8 => {
            begin(record, one, at);
            set(&mut record.bytes, one + LEN, length as u32);
        }
        // One picture for two.
        9 if two && r.percent(50) => {
            record.bytes.copy_within(four..four + 16, MASK_FOUR);
            record.mask = record.source;
        }
        9 if two => {
            record.bytes.copy_within(MASK_FOUR..MASK_FOUR + 16, four);
            record.source = record.mask;
        }
        // An empty part in another, or at its ends.
        10 => {
            let inside = at + r.below(length as u64 + 1) as usize;
            set(&mut record.bytes, one, r.pick(&[at, at + length, inside, inside, inside]) as u32);
            set(&mut record.bytes, one + LEN, 0);
        }
        // A part anywhere behind the fixed part.
        _ => {
            let fixed = places(record.kind).fixed;
            let last = (size - fixed).saturating_sub(part(&record.bytes, one).1);
            put(record, one, fixed + r.below(last as u64 + 1) as usize);
        }
    }
}

/// A part goes on up to the next one, or into it: what it needs is its own still. Or the next one begins so early.
fn lengthen(r: &mut Random, record: &mut Record) {
    let mut all = parts(record);
    all.sort_by_key(|&field| part(&record.bytes, field));
    let k = r.below(all.len() as u64 - 1) as usize;
    let ((at, length), (next_at, next_length)) = (part(&record.bytes, all[k]), part(&record.bytes, all[k + 1]));
    let common = |r: &mut Random, most: usize| r.pick_or(&[0, 1, 1, most], |r| r.below(most as u64 + 1) as usize);
    if r.percent(70) {
        let into = common(r, next_length);
        set(&mut record.bytes, all[k] + LEN, (next_at + into - at) as u32);
    } else if next_at >= at + length {
        let begin = at + length - common(r, length);
        set(&mut record.bytes, all[k + 1], begin as u32);
        set(&mut record.bytes, all[k + 1] + LEN, (next_at + next_length - begin) as u32);
    }
}

/// Two parts behind all others that have one byte in common, at either end, or none, or more.
fn meet(r: &mut Random, record: &mut Record, one: usize, other: usize) {
    let (_, length) = part(&record.bytes, one);
    let (_, other_length) = part(&record.bytes, other);
    if length == 0 || other_length == 0 || !stand_apart(r, record, other, length, length) {
        return;
    }
    let (at, end) = (part(&record.bytes, other).0, part(&record.bytes, other).0 + other_length);
    let to = match r.below(10) {
        // One byte.
        0..=1 => at + 1 - length,
        2..=3 => end - 1,
        // They touch.
        4 => at - length,
        5 => end,
        // One stands in the other, at its begin or its end.
        6 => at,
        7 => end - length,
        _ => at + 1 - length + r.below((length + other_length - 1) as u64) as usize,
    };
    put(record, one, to);
}

fn spoil_transform(r: &mut Random, record: &mut Record) {
    let at = places(record.kind);
    if let (Some(transform), true) = (at.transform, r.percent(65)) {
        let known = [
            0x7FC00000, 0xFFC00000, 0x7F800001, 0x7F800000, 0xFF800000, 0x3F800001, 0x3F7FFFFF, 0xBF800000, 0x3F800000,
            // Smallest numbers that are not zero, and both zeros.
            0x00000001, 0x80000001, 0x00800000, 0x00000000, 0x80000000,
        ];
        let n = if r.percent(85) { r.pick(&known) } else { r.word() };
        set(&mut record.bytes, transform + 4 * r.below(6) as usize, n);
        return;
    }
    let usage = if record.kind == MASKBLT && r.percent(50) { MASK_USAGE } else { at.usage };
    let n = r.pick_or(&[1, 2, 3, 0x100, 0x1_0000, 0x100_0000, 1 << 31, u32::MAX], Random::word);
    set(&mut record.bytes, usage, n);
}

fn spoil_header(r: &mut Random, record: &mut Record) {
    let Some((parts, four)) = present(r, record) else { return };
    let at = parts.header_at;
    let bytes = &mut record.bytes;
    let depth = get_half(bytes, at + header::BITS);
    match r.below(10) {
        0 => {
            let n = r.pick(&[0, 1, 12, 39, 40, 41, 52, 56, 64, 107, 108, 109, 124, 0x1_0028, 0x8000_0028, u32::MAX]);
            set(bytes, at + header::SIZE, n);
        }
        1 => {
            let n = r.pick(&[0, -1, -5, 16_384, 16_385, -16_384, 65_537, i32::MIN, i32::MAX]);
            set(bytes, at + header::WIDTH, n as u32);
        }
        2 => {
            let n = r.pick(&[0, 16_384, 16_385, -16_384, -16_385, 65_537, i32::MIN, i32::MIN + 1, i32::MAX]);
            set(bytes, at + header::HEIGHT, n as u32);
        }
        3 => set_half(bytes, at + header::PLANES, r.pick(&[0, 2, 0x100, 0x101, 0x8001, 0xFFFF])),
        4 => {
            let known = [0, 2, 3, 5, 7, 9, 12, 15, 17, 23, 25, 31, 33, 64, 0x101, 0x120, 0x2000, 0x8001, 0xFFFF];
            let n = if r.percent(70) { r.pick(&known) } else { r.pick(&[1, 4, 8, 16, 24, 32]) };
            set_half(bytes, at + header::BITS, n);
        }
        5 => {
            let n = r.pick(&[0, 1, 2, 3, 4, 5, 6, 0x100, 0x300, 0x03000000, 0x80000000, 0x80000003, u32::MAX]);
            set(bytes, at + header::COMPRESSION, n);
        }
        6 => {
            let full = if depth <= 8 { 1u32 << depth } else { 256 };
            // The last two are small numbers once multiplied by 4 in 32 bits.
            let known =
                [full, full + 1, full - 1, 255, 256, 257, 65_536, 65_537, 1 << 31, u32::MAX, 0x4000_0000, 0x4000_0002];
            set(bytes, at + header::USED, r.pick(&known));
        }
        // The part too short: by one, or for the header, the masks, or nearly nothing.
        7 => {
            let size = get(bytes, at + header::SIZE);
            let bitfields = get(bytes, at + header::COMPRESSION) == BI_BITFIELDS;
            let needed = part_length(size, bitfields, depth, get(bytes, at + header::USED).min(256));
            let n = if r.percent(50) { needed.saturating_sub(r.pick(&[1, 2, 4])) } else { needed };
            set(bytes, four + HEADER_LEN, n as u32);
        }
        8 => {
            let n = r.pick(&[0, 1, 3, 4, 12, 16, 36, 39, 40, 51, 52, 55, 56, 107, 108]);
            set(bytes, four + HEADER_LEN, n);
        }
        // Around 256 colours in a part that is long enough for more, and stands apart.
        _ => {
            const COLOURS: usize = 1_200;
            if stand_apart(r, record, four, 0, COLOURS) {
                let (at, length) = part(&record.bytes, four);
                set(&mut record.bytes, four + HEADER_LEN, (length + COLOURS) as u32);
                set(&mut record.bytes, at + header::USED, r.pick(&[2, 3, 16, 17, 255, 256, 257, 258, 270]));
            }
        }
    }
}

fn spoil_masks(r: &mut Random, record: &mut Record) {
    let Some((parts, _)) = present(r, record) else { return };
    let at = parts.header_at;
    let bytes = &mut record.bytes;
    if get(bytes, at + header::COMPRESSION) != BI_BITFIELDS {
        // Any header of 108 bytes can become one with masks.
        set_half(bytes, at + header::BITS, r.pick(&[16, 32]));
        set(bytes, at + header::COMPRESSION, BI_BITFIELDS);
        let width = get(bytes, at + header::WIDTH);
        if r.percent(50) && width < 40 {
            set(bytes, at + header::MASKS, 0x1F);
            set(bytes, at + header::MASKS + 4, 0x3E0);
            set(bytes, at + header::MASKS + 8, 0x7C00);
            set(bytes, at + header::MASKS + 12, 0);
        }
    }
    let v4 = get(bytes, at + header::SIZE) == V4;
    let channel = r.below(if v4 { 4 } else { 3 }) as usize;
    let other = r.below(3) as usize;
    let place = at + header::MASKS + 4 * channel;
    let now = get(bytes, place);
    let n = match r.below(10) {
        0 => 0,
        // A bit more or less, anywhere.
        1..=3 => now ^ (1 << r.below(32)),
        // One more at either end.
        4 => now | now << 1,
        5 => now | now >> 1,
        6 => get(bytes, at + header::MASKS + 4 * other),
        // 8 and 9 ones, at any place.
        7 => r.pick(&[0xFF, 0x1FF]) << r.below(24),
        // Around the end of 16 bits.
        8 => r.pick(&[0x1_0000, 0x8000, 0x1_8000, 0xFF00, 0x1_FE00, 0x80000000]),
        _ => r.pick_or(&[u32::MAX, 0x5555, 0x80000001], Random::word),
    };
    set(bytes, place, n);
}

fn spoil_bits(r: &mut Random, record: &mut Record) {
    let Some((parts, four)) = present(r, record) else { return };
    let at = parts.header_at;
    let bytes = &mut record.bytes;
    let width = get_signed(bytes, at + header::WIDTH);
    let height = get_signed(bytes, at + header::HEIGHT);
    let depth = get_half(bytes, at + header::BITS);
    if !(1..=16_384).contains(&width) || !(1..=16_384).contains(&height.abs()) || depth > 32 {
        return;
    }
    let needed = rows_length(width, height.abs(), depth) as u32;
    match r.below(8) {
        0..=2 => set(bytes, four + BITS_LEN, needed.saturating_sub(r.pick(&[1, 2, 3, 4]))),
        3 => set(bytes, four + BITS_LEN, r.below(needed as u64) as u32),
        4 => set(bytes, four + BITS_LEN, 0),
        // Just enough.
        5 => set(bytes, four + BITS_LEN, needed),
        6 => set_signed(bytes, at + header::HEIGHT, height + height.signum() * r.between(1, 3)),
        _ => set_signed(bytes, at + header::WIDTH, width + r.between(1, 40)),
    }
}

fn spoil_operation(r: &mut Random, record: &mut Record) {
    let at = places(record.kind);
    let bytes = &mut record.bytes;
    if bytes.len() < at.fixed {
        return;
    }
    let absent = |bytes: &mut [u8]| {
        for k in 0..4 {
            set(bytes, at.four + 4 * k, 0);
        }
    };
    if record.kind == ALPHABLEND {
        match r.below(5) {
            0 | 1 => bytes[at.operation] = r.pick_or(&[1, 2, 0x80, 0xFF], Random::byte),
            2 | 3 => bytes[at.operation + 3] = r.pick_or(&[2, 3, 0x80, 0x81, 0xFE, 0xFF, 1], Random::byte),
            _ => absent(bytes),
        }
        return;
    }
    absent(bytes);
    // One byte, or both, need the source, or by one bit only.
    let first = at.operation + 2;
    match r.below(4) {
        0 => bytes[first] = 0xCC,
        1 if record.kind == MASKBLT => {
            bytes[first] = sourceless(r);
            bytes[first + 1] = raster(r);
        }
        2 => bytes[first] = sourceless(r) ^ 1 << r.below(8),
        _ => bytes[first] = r.byte(),
    }
}

fn spoil_geometry(r: &mut Random, record: &mut Record) {
    let at = places(record.kind);
    let axis = r.below(2) as usize;
    let far = [FAR + 1, -FAR - 1, FAR, -FAR, i32::MIN as i64, i32::MAX as i64, i32::MIN as i64 + 1, 1 << 24];
    let bytes = &mut record.bytes;
    match r.below(9) {
        0 | 1 => {
            let n = r.pick(&[0, 4_097, 4_096, -4_096, -4_097, -1, i32::MIN as i64, i32::MAX as i64, 65_537]);
            set_signed(bytes, at.extent[axis], n);
        }
        2 => set_signed(bytes, TARGET[axis], r.pick(&far)),
        3 => set_signed(bytes, at.corner[axis], r.pick(&far)),
        4 if record.kind == MASKBLT => set_signed(bytes, MASK_CORNER[axis], r.pick(&far)),
        5 => {
            let place = at.source_extent.unwrap_or(at.extent)[axis];
            let n = r.pick(&[0, -1, 16_384, 16_385, -16_384, -16_385, i32::MIN as i64, i32::MAX as i64]);
            set_signed(bytes, place, n);
        }
        // The other sign.
        6 => {
            let place = if r.percent(50) { at.extent[axis] } else { at.source_extent.unwrap_or(at.extent)[axis] };
            let n = get(bytes, place);
            set(bytes, place, n.wrapping_neg());
        }
        // The rectangle just out of the picture, or just in it.
        _ => {
            let corner = get_signed(bytes, at.corner[axis]);
            let extent = get_signed(bytes, at.source_extent.unwrap_or(at.extent)[axis]);
            let size = record.source.map_or(1, |p| get_signed(bytes, p.header_at + header::WIDTH + 4 * axis).abs());
            let (low, high) = if extent < 0 { (-extent, size) } else { (0, size - extent) };
            let n = r.pick(&[low - 1, low, high, high + 1, corner + 1, corner - 1, -1]);
            set_signed(bytes, at.corner[axis], n);
        }
    }
}

/// One field, of the fixed part or of a header, set to a number where something turns.
fn boundary(r: &mut Random, record: &mut Record) {
    let fixed = places(record.kind).fixed;
    let at = match present(r, record) {
        Some((parts, _)) if r.percent(50) => match r.below(16) {
            14 => {
                let n = r.pick(&[0, 1, 2, 0x7FFF, 0x8000, 0xFFFF, 0x101]);
                set_half(&mut record.bytes, parts.header_at + header::PLANES, n);
                return;
            }
            15 => {
                let n = r.pick(&[0, 1, 2, 4, 8, 16, 24, 32, 0x8000, 0xFFFF]);
                set_half(&mut record.bytes, parts.header_at + header::BITS, n);
                return;
            }
            k => parts.header_at + 4 * k as usize,
        },
        _ => 4 * r.below(fixed as u64 / 4) as usize,
    };
    let now = get(&record.bytes, at) as i64;
    let length = record.bytes.len() as i64;
    const LIMITS: [i64; 22] = [
        0,
        1,
        2,
        4,
        8,
        12,
        16,
        24,
        32,
        40,
        80,
        108,
        128,
        255,
        256,
        4_096,
        16_384,
        65_536,
        FAR,
        16_777_216,
        20_000_000,
        1 << 31,
    ];
    let limit = r.pick_or(&LIMITS, |r| r.pick(&[fixed as i64, length, 1 << 32]));
    let n = match r.below(8) {
        0 => r.pick(&[0, 1, 0xFFFF_FFFF, 1 << 31, (1 << 31) - 1]),
        1 => now + r.pick(&[-4, -1, 1, 4]),
        2 => -now,
        3 => now ^ (1 << r.below(32)),
        4 => -limit + r.between(-1, 1),
        _ => limit + r.between(-1, 1),
    };
    set(&mut record.bytes, at, n as u32);
}
