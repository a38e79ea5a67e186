//! Every channel of format 0, and the alpha of format 1, for all 2^24 inputs: the library, which does not cut them, against the
//! second player, which does. The colours of format 1 come along.

use compare::library;
use face::constants::JOURNAL_RECORD;
use records::operation::blend_field;
use records::{bytes::words, dib::V4, Header, Picture, Record, ALPHABLEND};
use second::blend::blend;
use second::colour::{packed, unpacked};
use second::{Answer, Clip};

const SIDE: u32 = 256;
const MASKS: [u32; 4] = [0x00FF_0000, 0x0000_FF00, 0x0000_00FF, 0xFF00_0000];
const ALL: Clip = Clip { left: 0, top: 0, right: SIDE as i32, bottom: SIDE as i32 };

/// A pixel whose alpha is n and whose colours are, one after the other, so much further on around the 256 bytes.
fn pixel(n: u32, step: u32) -> u32 {
    (0..4).fold(0, |sum, k| sum * 256 + (n + k * step) % 256)
}

/// The target's pixels go by the row and the source's by the column, so each channel meets every pair of bytes. The source's
/// colours go further on with the constant alpha: over all of them its red meets every pair of colour and alpha.
fn all_pairs(format: u32) {
    let target: Vec<u32> = (0..SIDE * SIDE).map(|k| pixel(k / SIDE, 51)).collect();
    let whole = [0, 0, SIDE as i32, SIDE as i32];
    let mut journal = vec![0; (SIDE as usize * SIDE as usize + 1) * JOURNAL_RECORD];
    for c in 0..256 {
        let source: Vec<u32> = (0..SIDE * SIDE).map(|k| pixel(k % SIDE, 85 + c)).collect();
        let header = Header::new(V4, SIDE as i32, -(SIDE as i32), 32);
        let picture = Picture { header, table: vec![], pixels: words(&source) }.bitfields(MASKS);
        let record = Record::new(ALPHABLEND, whole, blend_field(c, format)).from(whole, picture).bytes();
        let mut surface = target.clone();
        let answer = library::play(&mut surface, SIDE, SIDE, &mut journal, &mut 0, &record, ALL, 0);
        assert_eq!(answer, Answer { status: 0, pixels: (SIDE * SIDE) as u64 });
        for ((new, s), d) in surface.iter().zip(&source).zip(&target) {
            let wanted = packed(blend(unpacked(*s), unpacked(*d), c as i64, format as i64));
            assert_eq!(*new, wanted, "format {format}: {s:08x} over {d:08x} at {c}");
        }
    }
}

#[test]
fn format_0() {
    all_pairs(0);
}

#[test]
fn format_1() {
    all_pairs(1);
}
