//! A record of each type against one laid out by hand, word by word.

use records::bytes::words;
use records::operation::{blend_field, rop, rop4};
use records::{Header, Picture, Record, ALPHABLEND, MASKBLT, STRETCHDIBITS};

const ONE: u32 = 0x3F80_0000;
const BACK: u32 = 0x00C0_FFEE;

/// The first 40 bytes of a header, with the nonsense that stands in its ignored fields.
fn info(size: u32, width: u32, height: u32, bits: u32, compression: u32, used: u32) -> [u32; 10] {
    [size, width, height, 1 | bits << 16, compression, 0xDEAD_BEEF, 2_835, 2_835, used, 7]
}

#[test]
fn stretchdibits_without_a_source() {
    let made = Record::new(STRETCHDIBITS, [0, 0, 2, 1], rop(0xF0)).bounded([0, 0, 1, 0]).bytes();
    let hand = [0x51, 80, 0, 0, 1, 0, 0, 0, 0, 0, 0, 0, 0, 0, 0, 0, 0, 0x99F0_0020, 2, 1];
    assert_eq!(made, words(&hand));
}

#[test]
fn stretchdibits_with_masks_behind_its_header() {
    let header = Header { masks: Some([0xF800, 0x7E0, 0x1F, 9]), ..Header::new(40, 2, -3, 16) };
    let picture = Picture { header, table: vec![], pixels: words(&[11, 12, 13]) };
    let made = Record::new(STRETCHDIBITS, [5, 6, -7, 8], rop(0xCC)).from([1, 2, 3, -4], picture).bytes();
    let mut hand = vec![0x51, 144, 0, 0, 4_095, 4_095, 5, 6, 1, 2, 3, 0xFFFF_FFFC];
    hand.extend([80, 52, 132, 12, 0, 0x99CC_0020, 0xFFFF_FFF9, 8]);
    hand.extend(info(40, 2, 0xFFFF_FFFD, 16, 3, 0));
    hand.extend([0xF800, 0x7E0, 0x1F, 11, 12, 13]);
    assert_eq!(made, words(&hand));
}

#[test]
fn alphablend_with_a_v4_header() {
    let header = Header { masks: Some([0xFF, 0xFF00, 0xFF_0000, 0xFF00_0000]), ..Header::new(108, 1, 1, 32) };
    let picture = Picture { header, table: vec![], pixels: words(&[11]) };
    let made = Record::new(ALPHABLEND, [5, 6, 7, 8], blend_field(0x12, 1)).from([0, 0, 1, 1], picture).bytes();
    let mut hand = vec![0x72, 220, 0, 0, 4_095, 4_095, 5, 6, 7, 8, 0x0112_7700, 0, 0];
    hand.extend([ONE, 0, 0, ONE, 0, 0, BACK, 0, 108, 108, 216, 4, 1, 1]);
    hand.extend(info(108, 1, 1, 32, 3, 0));
    hand.extend([0xFF, 0xFF00, 0xFF_0000, 0xFF00_0000]);
    hand.extend((3..16).map(|k| 0x0101_0101 * k));
    hand.push(11);
    assert_eq!(made, words(&hand));
}

#[test]
fn maskblt_backwards_with_gaps() {
    let source = Picture { header: Header::new(40, 1, 1, 24), table: vec![], pixels: words(&[11]) };
    let header = Header { used: 1, ..Header::new(40, 8, 1, 1) };
    let mask = Picture { header, table: vec![0x0033_2211], pixels: words(&[12]) };
    let made = Record::new(MASKBLT, [5, 6, 1, 1], rop4(0xCC, 0xAA)).from([0, 0, 9, 9], source).masked([-1, 2], mask);
    let mut hand = vec![0x4E, 236, 0, 0, 4_095, 4_095, 5, 6, 1, 1, 0xAACC_1234, 0, 0];
    hand.extend([ONE, 0, 0, ONE, 0, 0, BACK, 0, 196, 40, 188, 4, 0xFFFF_FFFF, 2, 0, 140, 44, 132, 4]);
    // Mask's bits, mask's header, source's bits, source's header, each behind four bytes.
    let gap = 0xE3E2_E1E0;
    hand.extend([gap, 12, gap]);
    hand.extend(info(40, 8, 1, 1, 0, 1));
    hand.extend([0x0033_2211, gap, 11, gap]);
    hand.extend(info(40, 1, 1, 24, 0, 0));
    assert_eq!(made.gapped(4, true).bytes(), words(&hand));
}
