//! Every raster operation, and every pair of them under a mask. Brush 0xF0, source 0xCC and target 0xAA have the three digits of k at bit k, so they
//! read an operation's truth table off it: each channel becomes the operation byte itself. Then colours of any kind, against the second player.

use compare::library;
use compare::random::Random;
use face::constants::JOURNAL_RECORD;
use records::operation::{rop, rop4};
use records::{bytes::words, dib::INFO, Header, Picture, Record, MASKBLT, STRETCHDIBITS};
use second::raster::raster;
use second::{Answer, Clip};

/// More than two vectors, and not a whole number of them.
const WIDTH: u32 = 11;
const TARGET: [i32; 4] = [0, 0, WIDTH as i32, 1];

/// What stands in the high byte of brush and source is no colour; the target's stays.
const BRUSH: u32 = 0x77F0_F0F0;
const SOURCE: u32 = 0x66CC_CCCC;

fn target(k: u32) -> u32 {
    (k * 0x1700_0000) | 0x00AA_AAAA
}

/// What column k becomes where the operation is `r`.
fn read_off(k: u32, r: u32) -> u32 {
    k * 0x1700_0000 + r * 0x0001_0101
}

fn row(colour: impl Fn(u32) -> u32) -> Vec<u32> {
    (0..WIDTH).map(colour).collect()
}

fn picture(colours: &[u32]) -> Picture {
    Picture { header: Header::new(INFO, WIDTH as i32, 1, 32), table: vec![], pixels: words(colours) }
}

fn played(record: Record, target: Vec<u32>, brush: u32) -> Vec<u32> {
    let mut surface = target;
    let mut journal = vec![0; (WIDTH as usize + 1) * JOURNAL_RECORD];
    let all = Clip { left: 0, top: 0, right: WIDTH as i32, bottom: 1 };
    let answer = library::play(&mut surface, WIDTH, 1, &mut journal, &mut 0, &record.bytes(), all, brush);
    assert_eq!(answer, Answer { status: 0, pixels: WIDTH as u64 });
    surface
}

#[test]
fn an_operation_is_read_off() {
    for r in 0..256 {
        let record = Record::new(STRETCHDIBITS, TARGET, rop(r)).from(TARGET, picture(&row(|_| SOURCE)));
        assert_eq!(played(record, row(target), BRUSH), row(|k| read_off(k, r)), "operation {r:02x}");
    }
}

#[test]
fn two_operations_are_read_off() {
    // Columns 0, 3, 4, 6, 9 and 10.
    let mask = Picture {
        header: Header::new(INFO, WIDTH as i32, 1, 1),
        table: vec![0; 2],
        pixels: vec![0b1001_1010, 0b0110_0000, 0, 0],
    };
    let is_foreground = |k| [0, 3, 4, 6, 9, 10].contains(&k);
    let source = picture(&row(|_| SOURCE));
    for (foreground, background) in (0..256).flat_map(|f| (0..256).map(move |b| (f, b))) {
        let record = Record::new(MASKBLT, TARGET, rop4(foreground, background))
            .from(TARGET, source.clone())
            .masked([0, 0], mask.clone());
        let wanted = row(|k| read_off(k, if is_foreground(k) { foreground } else { background }));
        assert_eq!(played(record, row(target), BRUSH), wanted, "{foreground:02x} over {background:02x}");
    }
}

/// Source and target as they are and complemented, four ways in a row, and the brush both ways: every bit meets all eight rows of the table.
#[test]
fn an_operation_on_any_colours() {
    for r in 0..256 {
        let mut random = Random::of(4, r as u64);
        let [b, s, t] = [random.word(), random.word(), random.word()];
        let source = row(|k| if k & 2 == 0 { s } else { !s });
        let target = row(|k| if k & 1 == 0 { t } else { !t });
        for brush in [b, !b] {
            let record = Record::new(STRETCHDIBITS, TARGET, rop(r)).from(TARGET, picture(&source));
            for ((new, s), t) in played(record, target.clone(), brush).iter().zip(&source).zip(&target) {
                let colour =
                    raster(r as i64, (brush & 0xFF_FFFF) as i64, (s & 0xFF_FFFF) as i64, (t & 0xFF_FFFF) as i64);
                assert_eq!(
                    *new,
                    (t & 0xFF00_0000) + colour as u32,
                    "operation {r:02x}: brush {brush:08x}, source {s:08x} on {t:08x}"
                );
            }
        }
    }
}
