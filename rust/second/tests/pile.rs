//! Lists of plays and take-backs against the pile, and random records that
//! must end without harm.

use records::dib::{INFO, V4};
use records::{operation, Header, Picture, Record, ALPHABLEND, MASKBLT, STRETCHDIBITS};
use second::journal::{set_entry, MOST_RECORDS, RECORD};
use second::{play, reading, status, undo, Answer, Clip, Pile};

struct Random(u64);

impl Random {
    fn next(&mut self) -> u32 {
        self.0 = self.0.wrapping_mul(6_364_136_223_846_793_005).wrapping_add(99_991);
        (self.0 >> 33) as u32
    }

    fn below(&mut self, n: u32) -> u32 {
        self.next() % n
    }

    /// A number from `low` to `high`, both included.
    fn between(&mut self, low: i32, high: i32) -> i32 {
        low + self.below((high - low + 1) as u32) as i32
    }
}

/// A random picture.
fn picture(r: &mut Random, bits: u16, width: i32, rows: i32) -> Picture {
    let size = if r.below(2) == 0 { V4 } else { INFO };
    let fields = (bits == 16 || bits == 32) && r.below(2) == 0;
    let used = if bits <= 8 { r.below((1 << bits) + 1) } else { r.below(3) };
    let height = if r.below(2) == 0 { rows } else { -rows };
    let alpha = r.below(2);
    let masks =
        if bits == 16 { [0xF80, 0x70, 0xF, 0x7000 * alpha] } else { [0xFF, 0xFF00, 0xFF_0000, 0xFF00_0000 * alpha] };
    let header = Header { size, width, height, bits, used, masks: fields.then_some(masks) };
    let entries = if bits <= 8 && used == 0 { 1 << bits } else { used };
    let table = (0..entries).map(|_| r.next()).collect();
    let pixels = (0..header.rows_length()).map(|_| r.next() as u8).collect();
    Picture { header, table, pixels }
}

/// The extent from the corner on, or turned round: it covers the same.
fn turned(r: &mut Random, corner: i32, extent: i32) -> (i32, i32) {
    if r.below(2) == 0 {
        (corner + extent, -extent)
    } else {
        (corner, extent)
    }
}

/// A record that is mostly sound.
fn record(r: &mut Random) -> Vec<u8> {
    let kind = [ALPHABLEND, MASKBLT, STRETCHDIBITS][r.below(3) as usize];
    let bits = [1, 4, 8, 16, 24, 32][r.below(6) as usize];
    let (x, y) = (r.between(-4, 9), r.between(-4, 7));
    let (mut cx, mut cy) = (r.between(1, 7), r.between(1, 6));
    let (w, h) = (r.between(7, 10), r.between(6, 9));
    let (mut sx, mut sy) = (r.between(0, w - 7), r.between(0, h - 6));
    let (mut scx, mut scy) = (r.between(1, 7), r.between(1, 6));
    if kind == STRETCHDIBITS {
        // The target is turned about its corner, the source in its place.
        cx = turned(r, 0, cx).1;
        cy = turned(r, 0, cy).1;
        (sx, scx) = turned(r, sx, scx);
        (sy, scy) = turned(r, sy, scy);
    }
    let source = if r.below(5) > 0 { Some(picture(r, bits, w, h)) } else { None };
    let mask = if kind == MASKBLT {
        let (mw, mh) = (r.between(1, 9), r.between(1, 9));
        let depth = if r.below(40) == 0 { 4 } else { 1 };
        Some(picture(r, depth, mw, mh))
    } else {
        None
    };
    let bounds = [r.between(-2, 8), r.between(-2, 8), r.between(0, 12), r.between(0, 12)];
    let operation = match kind {
        ALPHABLEND => operation::blend_field(r.below(256), r.below(2)),
        MASKBLT => r.next() * 2,
        _ => r.next(),
    };
    let mut made = Record::new(kind, [x, y, cx, cy], operation).bounded(bounds);
    made.source_at = [sx, sy, scx, scy];
    made.mask_corner = if kind == MASKBLT { [r.between(-20, 20), r.between(-20, 20)] } else { [0; 2] };
    (made.source, made.mask) = (source, mask);
    made.bytes()
}

/// A few bytes of the record spoiled, or a part's offset, so that it stands on
/// another.
fn spoiled(r: &mut Random, mut b: Vec<u8>) -> Vec<u8> {
    if r.below(8) == 0 {
        let offsets = if b[0] as u32 == STRETCHDIBITS { [48, 56] } else { [84, 92] };
        let at = offsets[r.below(2) as usize];
        let n = b[at] as i32 + r.between(-60, 60);
        b[at] = n.clamp(0, 255) as u8;
    }
    for _ in 0..r.below(4) {
        let at = r.below(b.len() as u32) as usize;
        b[at] = match r.below(3) {
            0 => 0,
            1 => 255,
            _ => r.next() as u8,
        };
    }
    if r.below(30) == 0 {
        b.truncate(r.below(b.len() as u32 + 1) as usize);
    }
    b
}

#[test]
fn lists_follow_the_pile() {
    let mut r = Random(1);
    let mut seen = std::collections::BTreeMap::new();
    for _ in 0..300 {
        let (width, height) = (1 + r.below(9), 1 + r.below(8));
        let start: Vec<u32> = (0..width * height).map(|_| r.next() * 2 + r.below(2)).collect();
        let records = r.below(160);
        let mut journal: Vec<u8> = (0..records as usize * RECORD).map(|_| r.next() as u8).collect();
        let mut sheet = start.clone();
        let mut used = 0u64;
        let mut pile = Pile::new(&start, records as u64, width, height);
        for _ in 0..40 {
            let before = (sheet.clone(), journal.clone(), used);
            let (answer, wanted) = if r.below(4) == 0 {
                (undo(&mut sheet, width, height, &journal, &mut used), pile.undo())
            } else {
                let rec = record(&mut r);
                let rec = if r.below(3) == 0 { spoiled(&mut r, rec) } else { rec };
                let clip = Clip {
                    left: r.between(-3, 6),
                    top: r.between(-3, 6),
                    right: r.between(2, 12),
                    bottom: r.between(2, 12),
                };
                let brush = r.next();
                (
                    play(&mut sheet, width, height, &mut journal, &mut used, &rec, clip, brush),
                    pile.play(&rec, clip, brush),
                )
            };
            assert_eq!(answer, wanted);
            assert_eq!(sheet, pile.surface());
            assert_eq!(used, pile.room());
            if answer.status != 0 {
                assert_eq!(answer.pixels, 0);
                assert_eq!((sheet.clone(), journal.clone(), used), before);
            }
            *seen.entry(answer.status).or_insert(0) += 1;
        }
        while used > 0 {
            assert_eq!(undo(&mut sheet, width, height, &journal, &mut used).status, 0);
            pile.undo();
        }
        assert_eq!(pile.undo(), Answer { status: 15, pixels: 0 });
        assert_eq!(sheet, start);
    }
    println!("{seen:?}");
    for wanted in [0, 14, 15, 21] {
        assert!(seen.contains_key(&wanted));
    }
}

#[test]
fn any_record_ends() {
    let mut r = Random(7);
    let mut seen = std::collections::BTreeMap::new();
    for _ in 0..100_000 {
        let rec = record(&mut r);
        let rec = spoiled(&mut r, rec);
        let number = status(&rec);
        for mask in [false, true] {
            let read = reading(&rec, mask);
            assert_eq!(read.status, number);
            // Both parts stand in the record.
            assert!(read.header.offset + read.header.length <= rec.len() as u64);
            assert!(read.view.offset + read.view.length <= rec.len() as u64);
            if number != 0 {
                assert_eq!((read.bits, read.width, read.rows), (1, 0, 0));
                assert_eq!(read.palette, [0; 256]);
            }
        }
        let mut sheet = [0x8040_2010u32; 12];
        let mut journal = [0u8; 13 * RECORD];
        let mut used = 0;
        let clip = Clip { left: i32::MIN, top: i32::MIN, right: i32::MAX, bottom: i32::MAX };
        let answer = play(&mut sheet, 4, 3, &mut journal, &mut used, &rec, clip, 0x123456);
        assert_eq!(answer.status, number);
        *seen.entry(number).or_insert(0) += 1;
    }
    println!("{seen:?}");
    for wanted in (3..=13).chain([0, 21]) {
        assert!(seen.contains_key(&wanted), "{wanted} not seen");
    }
}

/// Any journal bytes, any count: a take-back ends and keeps its word.
#[test]
fn any_journal_ends() {
    let mut r = Random(3);
    for _ in 0..20_000 {
        let records = r.below(7) as usize;
        let mut journal = vec![0; records * RECORD];
        for k in 0..records {
            let (x, y) = (r.below(4), r.below(3));
            let first = if r.below(3) == 0 { 0xFFFF_FFFF } else { x };
            let old = r.next();
            set_entry(&mut journal, k, (first, y, old));
        }
        let mut sheet = [0u32; 6];
        let mut used = r.below(8) as u64;
        let before = (sheet, used);
        let answer = undo(&mut sheet, 3, 2, &journal, &mut used);
        match answer.status {
            0 => assert_eq!(used + answer.pixels + 1, before.1),
            n => {
                assert!([2, 15, 16].contains(&n));
                assert_eq!((sheet, used, answer.pixels), (before.0, before.1, 0));
            }
        }
    }
}

/// A count above 32 bits is judged as the number it is.
#[test]
fn wide_counts() {
    let mut sheet = [0u32; 1];
    for count in [1u64 << 32, (1 << 32) + 1, u64::MAX] {
        let mut used = count;
        assert_eq!(undo(&mut sheet, 1, 1, &[0; RECORD], &mut used).status, 2);
        assert_eq!(used, count);
    }
}

/// 20,000,000 records pass, one more does not; 16,777,216 bytes of record
/// pass 3, four more do not.
#[test]
fn largest_sizes() {
    let mut journal = vec![0u8; (MOST_RECORDS as usize + 1) * RECORD];
    let mut sheet = [0u32; 1];
    let mut used = 0;
    assert_eq!(undo(&mut sheet, 1, 1, &journal, &mut used).status, 2);
    journal.truncate(MOST_RECORDS as usize * RECORD);
    assert_eq!(undo(&mut sheet, 1, 1, &journal, &mut used).status, 15);
    assert_eq!(status(&vec![0u8; 16_777_216]), 4);
    assert_eq!(status(&vec![0u8; 16_777_220]), 3);
}
