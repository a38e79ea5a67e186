//! Document 02, item 5: "Any two parts of the present pictures that have a byte
//! in common are now refused.  Refusals: 21; document 01's order becomes 1 to 6,
//! 21, 7 onwards."  The numbers are worked out by hand from that and from A49.

use records::bytes::with;
use records::{Header, Picture, Record, ALPHABLEND, MASKBLT, STRETCHDIBITS};
use second::{reading, status};

/// 2 by 2 pixels: of 24 bits, a header of 40 bytes and bits of 16; of 1 bit, 48
/// and 8.
fn picture(bits: u16) -> Picture {
    let header = Header::new(40, 2, 2, bits);
    let table = if bits == 1 { vec![0, 0x00FF_FFFF] } else { vec![] };
    Picture { header, table, pixels: vec![7; header.rows_length()] }
}

/// The record with bytes up to this Size behind its last part.
fn longer(record: Record, size: u32) -> Vec<u8> {
    let mut bytes = record.bytes();
    bytes.resize(size as usize, 0xEE);
    with(&bytes, 4, size)
}

/// 0x51 of 152 bytes: header at 88 to 127, bits at 136 to 151.
fn stretch() -> Vec<u8> {
    let made = Record::new(STRETCHDIBITS, [0, 0, 2, 2], 0x00CC_0020).from([0, 0, 2, 2], picture(24));
    longer(made.gapped(8, false), 152)
}

// Its fields.
const HEADER_AT: usize = 48;
const HEADER_SIZE: usize = 52;
const BITS_AT: usize = 56;
const BITS_SIZE: usize = 60;
const USAGE: usize = 64;

/// 0x4E of 320 bytes: the source's header at 136 to 175 and bits at 184 to 199,
/// the mask's header at 208 to 255 and bits at 264 to 271.
fn blit() -> Vec<u8> {
    let made = Record::new(MASKBLT, [0, 0, 2, 2], 0xAACC_0020).from([0, 0, 2, 2], picture(24));
    longer(made.masked([0, 0], picture(1)).gapped(8, false), 320)
}

/// Its fields offBmi, cbBmi, offBits, cbBits.
const SOURCE: [usize; 4] = [84, 88, 92, 96];
const MASK: [usize; 4] = [112, 116, 120, 124];

/// The record with these fields changed gives this number, and both readings do.
#[track_caller]
fn gives(number: u32, record: &[u8], fields: &[(usize, u32)]) {
    let bytes = fields.iter().fold(record.to_vec(), |bytes, &(at, n)| with(&bytes, at, n));
    let all = [status(&bytes), reading(&bytes, false).status, reading(&bytes, true).status];
    assert_eq!(all, [number; 3], "{fields:?}");
}

#[test]
fn parts_apart() {
    gives(0, &stretch(), &[]);
    gives(0, &blit(), &[]);
}

#[test]
fn one_byte_at_either_end() {
    // 8 bytes of bits at 80 touch the header, and 16 are needed: 10.  The ninth
    // is the header's first.
    gives(10, &stretch(), &[(BITS_AT, 80), (BITS_SIZE, 8)]);
    gives(21, &stretch(), &[(BITS_AT, 80), (BITS_SIZE, 9)]);
    // 128 is behind the header, 127 its last byte.
    gives(0, &stretch(), &[(BITS_AT, 128)]);
    gives(21, &stretch(), &[(BITS_AT, 127)]);
}

#[test]
fn shared_only_past_what_is_needed() {
    // 40 are needed, 48 end where the bits begin, the 49th is their first.
    gives(0, &stretch(), &[(HEADER_SIZE, 48)]);
    gives(21, &stretch(), &[(HEADER_SIZE, 49)]);
    // The source's bits need 16; 24 end where the mask's header begins.
    gives(0, &blit(), &[(SOURCE[3], 24)]);
    gives(21, &blit(), &[(SOURCE[3], 25)]);
}

#[test]
fn a_part_inside_a_part() {
    // In the middle, at the first bytes, at the last ones.
    for at in [100, 88, 112] {
        gives(21, &stretch(), &[(BITS_AT, at)]);
    }
    // The same bytes, and bits around the header.
    gives(21, &stretch(), &[(BITS_AT, 88), (BITS_SIZE, 40)]);
    gives(21, &stretch(), &[(BITS_AT, 80), (BITS_SIZE, 72)]);
    // One byte: the header's first, one inside, its last; then beside it, where
    // it is too few for the rows: 10.
    for at in [88, 100, 127] {
        gives(21, &stretch(), &[(BITS_AT, at), (BITS_SIZE, 1)]);
    }
    for at in [87, 128] {
        gives(10, &stretch(), &[(BITS_AT, at), (BITS_SIZE, 1)]);
    }
}

#[test]
fn empty_parts_share_nothing() {
    // Before the header, at its first byte, inside, at its last byte, behind it.
    for at in [87, 88, 100, 127, 128] {
        gives(10, &stretch(), &[(BITS_AT, at), (BITS_SIZE, 0)]);
    }
    // The same of an empty header and the bits, and both at one place.
    for at in [135, 136, 140, 151, 152] {
        gives(8, &stretch(), &[(HEADER_AT, at), (HEADER_SIZE, 0)]);
    }
    gives(8, &stretch(), &[(HEADER_AT, 100), (HEADER_SIZE, 0), (BITS_AT, 100), (BITS_SIZE, 0)]);
    // The mask's inside the source's.
    gives(10, &blit(), &[(MASK[2], 190), (MASK[3], 0)]);
    gives(8, &blit(), &[(MASK[0], 190), (MASK[1], 0)]);
}

#[test]
fn within_the_source_and_within_the_mask() {
    gives(0, &blit(), &[(SOURCE[1], 48)]);
    gives(21, &blit(), &[(SOURCE[1], 49)]);
    gives(0, &blit(), &[(MASK[1], 56)]);
    gives(21, &blit(), &[(MASK[1], 57)]);
}

#[test]
fn source_header_and_mask_header() {
    // "A source and mask that use one header part are refused."
    gives(21, &blit(), &[(MASK[0], 136), (MASK[1], 40)]);
    // The source's header begins with the mask header's last byte, the mask's
    // bits out of its way; behind it there are no bytes of a header: 8.
    gives(21, &blit(), &[(SOURCE[0], 255), (MASK[2], 300)]);
    gives(8, &blit(), &[(SOURCE[0], 256), (MASK[2], 300)]);
    // It ends with the mask header's first byte, its own bits out of its way.
    gives(21, &blit(), &[(SOURCE[0], 169), (SOURCE[2], 300)]);
    gives(8, &blit(), &[(SOURCE[0], 168), (SOURCE[2], 300)]);
}

#[test]
fn source_header_and_mask_bits() {
    // The mask's 8 bytes of bits, from the fixed part's end on.
    gives(0, &blit(), &[(MASK[2], 128)]);
    gives(21, &blit(), &[(MASK[2], 129)]);
    gives(21, &blit(), &[(MASK[2], 150)]);
    gives(21, &blit(), &[(MASK[2], 175)]);
    gives(0, &blit(), &[(MASK[2], 176)]);
}

#[test]
fn source_bits_and_mask_bits() {
    gives(0, &blit(), &[(MASK[2], 176)]);
    gives(21, &blit(), &[(MASK[2], 177)]);
    gives(21, &blit(), &[(MASK[2], 184)]);
    gives(21, &blit(), &[(MASK[2], 199)]);
    gives(0, &blit(), &[(MASK[2], 200)]);
}

#[test]
fn source_bits_and_mask_header() {
    // The source's 16 bytes of bits; its first byte and its last.
    gives(0, &blit(), &[(SOURCE[2], 192)]);
    gives(21, &blit(), &[(SOURCE[2], 193)]);
    gives(21, &blit(), &[(SOURCE[2], 255), (MASK[2], 300)]);
    gives(0, &blit(), &[(SOURCE[2], 256), (MASK[2], 300)]);
}

#[test]
fn one_picture_for_both() {
    let blit = Record::new(MASKBLT, [0, 0, 2, 2], 0xAACC_0020).from([0, 0, 2, 2], picture(1)).bytes();
    // 13: no mask.  Its four fields are the source's: header 48 bytes at 128.
    gives(13, &blit, &[]);
    gives(21, &blit, &[(MASK[0], 128), (MASK[1], 48), (MASK[2], 176), (MASK[3], 8)]);
}

#[test]
fn six_comes_first() {
    // The bits share the header's last byte and end at Size, or a byte past it.
    gives(21, &stretch(), &[(BITS_AT, 127), (BITS_SIZE, 25)]);
    gives(6, &stretch(), &[(BITS_AT, 127), (BITS_SIZE, 26)]);
    // The header shares the bits' first byte and begins with the record's
    // variable part, or a byte before it.
    gives(21, &stretch(), &[(HEADER_AT, 80), (HEADER_SIZE, 57)]);
    gives(6, &stretch(), &[(HEADER_AT, 79), (HEADER_SIZE, 58)]);
    // A sum that is small in 32 bits: 0xFFFFFFF0 + 128.
    gives(6, &stretch(), &[(BITS_AT, 0xFFFF_FFF0), (BITS_SIZE, 128)]);
    // The source's parts share a byte, the mask's end past Size.
    gives(6, &blit(), &[(SOURCE[1], 49), (MASK[2], 313)]);
    gives(21, &blit(), &[(SOURCE[1], 49), (MASK[2], 312)]);
}

#[test]
fn seven_and_all_behind_it_come_later() {
    gives(7, &stretch(), &[(USAGE, 1)]);
    gives(21, &stretch(), &[(USAGE, 1), (BITS_AT, 127)]);
    let blend = Record::new(ALPHABLEND, [0, 0, 2, 2], 0x00FF_0000).from([0, 0, 2, 2], picture(24)).bytes();
    // XformSrc's first number is 0; the header at 108 gets a 41st byte.
    gives(7, &blend, &[(52, 0)]);
    gives(21, &blend, &[(52, 0), (88, 41)]);
    // The mask's usage, and the source's parts.
    gives(7, &blit(), &[(108, 1)]);
    gives(21, &blit(), &[(108, 1), (SOURCE[1], 49)]);
    // 8: a header of 41 bytes is not listed; 10: bits a byte short; 12: no columns.
    gives(8, &stretch(), &[(88, 41)]);
    gives(21, &stretch(), &[(88, 41), (HEADER_SIZE, 49)]);
    gives(10, &stretch(), &[(BITS_SIZE, 15)]);
    gives(21, &stretch(), &[(BITS_SIZE, 15), (BITS_AT, 127)]);
    gives(12, &stretch(), &[(72, 0)]);
    gives(21, &stretch(), &[(72, 0), (BITS_AT, 127)]);
}

#[test]
fn an_absent_picture_has_no_parts() {
    // 0x51 of 80 bytes and no source, 0x72 of 108: nothing to share.
    let none = Record::new(STRETCHDIBITS, [0, 0, 2, 2], 0x00F0_0021).bytes();
    gives(0, &none, &[]);
    gives(11, &Record::new(ALPHABLEND, [0, 0, 2, 2], 0).bytes(), &[]);
    // 0x4E: the source's four fields 0, and the mask's; each has the other's
    // place to itself.  0xAA needs no source.
    let gone = |fields: [usize; 4]| fields.map(|at| (at, 0));
    let keep = with(&blit(), 40, 0xAAAA_0000);
    gives(0, &keep, &gone(SOURCE));
    gives(0, &keep, &[&gone(SOURCE)[..], &[(MASK[2], 184)]].concat());
    gives(21, &keep, &[&gone(SOURCE)[..], &[(MASK[2], 255)]].concat());
    gives(13, &keep, &gone(MASK));
    gives(21, &keep, &[&gone(MASK)[..], &[(SOURCE[1], 49)]].concat());
}
