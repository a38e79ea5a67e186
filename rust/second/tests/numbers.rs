//! Document 01, "Numbers to check by", all of them, and wingdi.h's MAKEROP4.

use records::{bytes::words, Header, Picture, Record, MASKBLT, STRETCHDIBITS};
use second::blend::{format_0, format_1};
use second::dib::row_length;
use second::journal::RECORD;
use second::raster::raster;
use second::region::{mask_step, source_step};
use second::sample::{stored, widen};
use second::{check, play, status, undo, Answer, Clip};

const ALL: Clip = Clip { left: 0, top: 0, right: 2, bottom: 1 };

/// Type 0x51 without source: target (0, 0) 2 by 1, ROP 0x00F00021.
fn pattern() -> Vec<u8> {
    Record::new(STRETCHDIBITS, [0, 0, 2, 1], 0x00F0_0021).bounded([0, 0, 1, 0]).bytes()
}

/// Type 0x51 with a picture of these pixels, of which it draws the first.
fn pictured(width: i32, height: i32, bits: u16, table: &[u32], pixels: &[u8]) -> Vec<u8> {
    let header = Header { used: table.len() as u32, ..Header::new(40, width, height, bits) };
    let picture = Picture { header, table: table.to_vec(), pixels: pixels.to_vec() };
    Record::new(STRETCHDIBITS, [0, 0, 1, 1], 0x00CC_0020).from([0, 0, 1, 1], picture).bytes()
}

#[test]
fn format_0_number() {
    assert_eq!(format_0(200, 100, 128), 150);
}

#[test]
fn format_1_numbers() {
    assert_eq!(format_1(100, 128, 255, 200), 200);
    assert_eq!(format_1(100, 128, 128, 200), 200);
    assert_eq!(format_1(1, 1, 128, 1), 1);
    assert_eq!(format_1(255, 0, 255, 255), 255);
}

#[test]
fn raster_number() {
    assert_eq!(raster(0x66, 0, 0xFF00FF, 0x0F0F0F), 0xF00FF0);
    // The brush has no part in 0x66.
    assert_eq!(raster(0x66, 0xFFFFFF, 0xFF00FF, 0x0F0F0F), 0xF00FF0);
}

#[test]
fn widths() {
    assert_eq!(widen(16, 5), 132);
    assert_eq!(widen(32, 6), 130);
    // Each of the 510 numbers is nearer to 255·v/(2^w − 1) than any other:
    // twice the distance, times the divisor, stays below the divisor.
    let mut seen = 0;
    for w in 1..=8i64 {
        let top = (1i64 << w) - 1;
        for v in 0..=top {
            let n = widen(v, w);
            assert!((0..=255).contains(&n));
            assert!(2 * (n * top - 255 * v).abs() < top);
            seen += 1;
        }
    }
    assert_eq!(seen, 510);
}

#[test]
fn row_lengths() {
    assert_eq!(row_length(1, 24), 4);
    assert_eq!(row_length(33, 1), 8);
}

#[test]
fn stretch() {
    let plain: Vec<i64> = (0..3).map(|i| source_step(i, 2, 3, false)).collect();
    let mirrored: Vec<i64> = (0..3).map(|i| source_step(i, 2, 3, true)).collect();
    assert_eq!(plain, [0, 0, 1]);
    assert_eq!(mirrored, [1, 1, 0]);
}

#[test]
fn mask_column() {
    assert_eq!(mask_step(-3, 0, 8), 5);
}

#[test]
fn four_bits() {
    let table: Vec<u32> = (0..16).map(|k| k * 0x010203).collect();
    let r = pictured(2, 1, 4, &table, &[0x1F, 0, 0, 0]);
    let sound = check(&r).expect("sound");
    let dib = sound.source.as_ref().expect("present");
    assert_eq!(stored(&r, dib, 0, 0), 1);
    assert_eq!(stored(&r, dib, 1, 0), 15);
}

/// MAKEROP4(0x00CC0020, 0x00AA0029), by the macro 0xAACC0020: the source's colour where the mask's bit is 1, the
/// target's where it is 0.
#[test]
fn copy_or_keep() {
    let source = Picture { header: Header::new(40, 2, 1, 24), table: vec![], pixels: vec![1, 2, 3, 4, 5, 6, 0, 0] };
    let mask = Picture { header: Header::new(40, 2, 1, 1), table: vec![0, 0], pixels: vec![0x80, 0, 0, 0] };
    let r = Record::new(MASKBLT, [0, 0, 2, 1], 0xAACC_0020).from([0, 0, 2, 1], source).masked([0, 0], mask).bytes();
    let mut sheet = [0xFF77_7777u32, 0x8088_8888];
    let answer = play(&mut sheet, 2, 1, &mut [0; 3 * RECORD], &mut 0, &r, ALL, 0x112233);
    assert_eq!(answer, Answer { status: 0, pixels: 2 });
    assert_eq!(sheet, [0xFF03_0201, 0x8088_8888]);
}

#[test]
fn short_records() {
    assert_eq!(status(&[0x51, 0, 0, 0, 7, 0, 0]), 3);
    assert_eq!(status(&[0x51, 0, 0, 0, 8, 0, 0, 0]), 5);
}

#[test]
fn lowest_height() {
    assert_eq!(status(&pictured(1, i32::MIN, 24, &[], &[0; 4])), 8);
    assert_eq!(status(&pictured(1, -1, 24, &[], &[0; 4])), 0);
}

#[test]
fn row_bytes_one_short() {
    assert_eq!(status(&pictured(2, 2, 24, &[], &[0; 16])), 0);
    assert_eq!(status(&pictured(2, 2, 24, &[], &[0; 15])), 10);
}

#[test]
fn whole_play() {
    let mut sheet = [0xFF00_0000u32, 0xFF00_00FF];
    let mut journal = vec![0xA5u8; 3 * RECORD];
    let mut used = 0;
    let answer = play(&mut sheet, 2, 1, &mut journal, &mut used, &pattern(), ALL, 0x112233);
    assert_eq!(answer, Answer { status: 0, pixels: 2 });
    assert_eq!(sheet, [0xFF11_2233, 0xFF11_2233]);
    assert_eq!(used, 3);
    let wanted = words(&[0, 0, 0xFF00_0000, 1, 0, 0xFF00_00FF, 0xFFFF_FFFF, 2, 0x51]);
    assert_eq!(journal, wanted);

    let answer = undo(&mut sheet, 2, 1, &journal, &mut used);
    assert_eq!(answer, Answer { status: 0, pixels: 2 });
    assert_eq!(sheet, [0xFF00_0000, 0xFF00_00FF]);
    assert_eq!(used, 0);
    assert_eq!(journal, wanted);
    let answer = undo(&mut sheet, 2, 1, &journal, &mut used);
    assert_eq!(answer, Answer { status: 15, pixels: 0 });
}

#[test]
fn whole_play_without_room() {
    for (bytes, number) in [(2 * RECORD, 14), (3 * RECORD - 1, 2)] {
        let mut sheet = [0xFF00_0000u32, 0xFF00_00FF];
        let mut journal = vec![0xA5u8; bytes];
        let mut used = 0;
        let answer = play(&mut sheet, 2, 1, &mut journal, &mut used, &pattern(), ALL, 0x112233);
        assert_eq!(answer, Answer { status: number, pixels: 0 });
        assert_eq!(sheet, [0xFF00_0000, 0xFF00_00FF]);
        assert_eq!(journal, vec![0xA5u8; bytes]);
        assert_eq!(used, 0);
    }
}

#[test]
fn sums_and_fill() {
    use second::script::{fill, sum};
    // Known values of FNV-1a, and the first fill bytes of seed 0:
    // 0, then 2654435761 / 2^24 = 158, then 2·2654435761 mod 2^32 / 2^24 = 60.
    assert_eq!(sum(b""), 0xcbf29ce484222325);
    assert_eq!(sum(b"a"), 0xaf63dc4c8601ec8c);
    assert_eq!(sum(b"foobar"), 0x85944171f73967e8);
    assert_eq!([fill(0, 0), fill(0, 1), fill(0, 2)], [0, 158, 60]);
    assert_eq!(fill(0xFFFF_FFFF, 1), fill(0, 0));
}
