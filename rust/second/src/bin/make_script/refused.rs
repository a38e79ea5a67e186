//! Records that statuses 3 to 13 and 21 refuse, and their neighbours that pass.

use crate::pictures::picture;
use crate::random::Random;
use crate::script::{brushed, record, Script, COPY, WHOLE};
use records::bytes::{get, with, with_byte};
use records::operation::{blend_field, rop, rop4};
use records::{Header, Picture, ALPHABLEND, MASKBLT, STRETCHDIBITS};

pub fn refusals_3_to_5(s: &mut Script) {
    let good = brushed([0, 0, 2, 2], 0xF0).bytes();
    s.read_source(&[]); // an empty record: 3
    s.play(WHOLE, 0, &good[..7]); // 7 bytes: 3
    s.play(WHOLE, 0, &good[..8]); // 8 bytes, Size 80: 5
    s.play(WHOLE, 0, &with(&good[..8], 4, 8)); // 8 bytes, Size 8: 5
    s.play(WHOLE, 0, &with(&good[..8], 0, 0)); // type 0: 4, before 5
    for kind in [0x4F, 0x50, 0x172, 0x7200_0000] {
        // Types near the listed ones, and with high bytes: 4.
        s.read_source(&with(&good, 0, kind));
    }
    let mut longer = with(&good, 4, 84);
    longer.extend([9, 9, 9, 9]);
    s.play(WHOLE, 0x0022_4466, &longer); // bytes behind the fixed part: accepted
    s.play(WHOLE, 0, &with(&longer, 4, 80)); // Size below the lent length: 5
    s.play(WHOLE, 0, &with(&good, 4, 84)); // Size above it: 5
    let mut odd = with(&good, 4, 82);
    odd.extend([0, 0]);
    s.play(WHOLE, 0, &odd); // 82 bytes lent and named, no multiple of 4: 5
    s.read_source(&with(&good[..76], 4, 76)); // 0x51 below its fixed 80: 5
    let blend = record(ALPHABLEND, [0, 0, 2, 2], 0).bytes();
    s.read_source(&with(&blend[..104], 4, 104)); // 0x72 below its 108: 5
    s.read_source(&blend); // exactly 108, no source: 11
    let masked = record(MASKBLT, [0, 0, 2, 2], rop4(0xF0, 0xF0)).bytes();
    s.read_source(&with(&masked[..124], 4, 124)); // 0x4E below its 128: 5
    s.read_source(&masked); // exactly 128, no mask: 13
}

pub fn refusals_6_and_7(s: &mut Script, r: &mut Random) {
    let p = picture(r, 40, 2, 2, 24, 0);
    let stretch = record(STRETCHDIBITS, [0, 0, 2, 2], COPY).from([0, 0, 2, 2], p.clone()).bytes();
    let size = stretch.len() as u32;
    s.play(WHOLE, 0, &with(&stretch, 48, 76)); // header begins in the fixed part: 6
    s.play(WHOLE, 0, &with(&stretch, 56, 79)); // bits begin a byte too early: 6
    s.play(WHOLE, 0, &with(&stretch, 52, size - 79)); // header ends a byte past Size: 6
    s.play(WHOLE, 0, &with(&stretch, 60, 17)); // bits end a byte past Size: 6
    s.play(WHOLE, 0, &with(&with(&stretch, 56, 0xFFFF_FFF0), 60, 32)); // sum looks small in 32 bits: 6
    s.play(WHOLE, 0, &with(&with(&stretch, 56, 0), 60, 0)); // header given, bits 0 and 0: 6
    s.play(WHOLE, 0, &with(&with(&stretch, 48, 0), 52, 0)); // bits given, header 0 and 0: 6
    s.play(WHOLE, 0, &with(&with(&stretch, 56, size), 60, 0)); // empty bits at Size: passes 6, 10
    s.play(WHOLE, 0, &with(&with(&stretch, 56, size + 1), 60, 0)); // empty bits past Size: 6
    s.play(WHOLE, 0, &with(&with(&stretch, 48, size), 52, 0)); // empty header at Size: 8
    let none = brushed([0, 0, 2, 2], 0xF0).bytes();
    s.read_source(&with(&none, 52, 1)); // only one of the four not zero: present, 6

    let mask = picture(r, 40, 4, 4, 1, 2);
    let blt =
        record(MASKBLT, [0, 0, 2, 2], rop4(0xCC, 0xAA)).from([0, 0, 0, 0], p.clone()).masked([0, 0], mask).bytes();
    s.read_mask(&with(&blt, 112, 124)); // the mask's header in the fixed part: 6
    s.read_source(&with(&blt, 120, 4)); // the mask's bits too, asked for the source: 6
    s.read_mask(&with(&blt, 124, 17)); // the mask's bits end past Size: 6
    s.read_mask(&with(&with(&blt, 52, 0), 88, 0xFFFF)); // 6 before 7
    s.play(WHOLE, 0, &with(&blt, 108, 1)); // the mask's usage 1: 7
    s.play(WHOLE, 0, &with(&blt, 80, 1)); // the source's usage 1: 7
    s.play(WHOLE, 0, &with(&stretch, 64, 2)); // 0x51's usage: 7

    let blend = record(ALPHABLEND, [0, 0, 2, 2], blend_field(99, 0)).from([0, 0, 2, 2], p).bytes();
    for (place, bits) in [
        (52, 0x3F80_0001), // the number after 1
        (56, 1),           // the smallest subnormal
        (60, 0x7F80_0000), // infinity
        (64, 0xBF80_0000), // minus 1
        (68, 0x7FC0_0000), // a NaN
        (72, 0x3F80_0000), // a move of 1
    ] {
        // Each of the six numbers off: 7.
        s.play(WHOLE, 0, &with(&blend, place, bits));
    }
    let mut zeros = blend.clone();
    for place in [56, 60, 68, 72] {
        zeros = with(&zeros, place, 0x8000_0000);
    }
    s.play(WHOLE, 0, &zeros); // four negative zeros pass
    let bare = record(MASKBLT, [0, 0, 2, 2], rop4(0x0F, 0xF0)).masked([0, 0], picture(r, 40, 2, 2, 1, 2));
    s.play(WHOLE, 0, &with(&bare.bytes(), 52, 0)); // XformSrc is judged without a source: 7
    let none = record(ALPHABLEND, [0, 0, 2, 2], 0).bytes();
    s.read_source(&with(&none, 64, 0)); // 7, before the absent source's 11
}

/// Parts with a byte in common, and parts that only touch.  What passes is
/// read and not played, so that sheet and journal stay.
pub fn refusal_21(s: &mut Script) {
    shared_in_a_picture(s);
    shared_by_pictures(s);
}

/// A picture of 2 by 2 that is one colour.
fn plain(bits: u16, colours: usize) -> Picture {
    let header = Header::new(40, 2, 2, bits);
    Picture { header, table: vec![0x0033_6699; colours], pixels: vec![0x5C; header.rows_length()] }
}

fn shared_in_a_picture(s: &mut Script) {
    let stretch = record(STRETCHDIBITS, [0, 0, 2, 2], COPY).from([0, 0, 2, 2], plain(24, 0));
    // Header at 84 to 123, bits at 128 to 143, where Size ends.
    let there = stretch.clone().gapped(4, false).bytes();
    s.read_source(&with(&there, 52, 44)); // the header part goes up to the bits: they touch
    s.read_source(&with(&there, 52, 45)); // one byte further, past what it needs: 21
    s.read_source(&with(&there, 56, 124)); // the bits begin behind the header: they touch
    s.play(WHOLE, 0, &with(&there, 56, 123)); // they begin with its last byte: 21
    s.play(WHOLE, 0, &with(&there, 56, get(&there, 48) + 1)); // they stand inside it: 21
    s.play(WHOLE, 0, &with(&with(&there, 56, 84), 60, 40)); // they are the header part: 21
    s.play(WHOLE, 0, &with(&with(&there, 56, 100), 60, 0)); // empty bits inside it share nothing: 10
    s.play(WHOLE, 0, &with(&with(&there, 48, 136), 52, 0)); // nor an empty header inside the bits: 8
    s.play(WHOLE, 0, &with(&with(&there, 56, 123), 60, 22)); // a byte shared, and ends past Size: 6
    s.play(WHOLE, 0, &with(&with(&there, 48, 79), 52, 50)); // a byte shared, and begins too early: 6
    s.play(WHOLE, 0, &with(&with(&there, 56, 123), 64, 1)); // a byte shared, and the usage 1: 21
    s.read_source(&with(&with(&there, 56, 123), 60, 15)); // a byte shared, and one too few: 21, before 10

    // Bits at 84 to 99, header at 104 to 143.
    let back = stretch.gapped(4, true).bytes();
    s.read_source(&with(&back, 60, 20)); // the bits part goes up to the header: they touch
    s.read_source(&with(&back, 60, 21)); // one byte further: 21

    let blend = record(ALPHABLEND, [0, 0, 2, 2], blend_field(99, 0)).from([0, 0, 2, 2], plain(24, 0)).bytes();
    s.play(WHOLE, 0, &with(&with(&blend, 88, 41), 52, 0)); // a byte shared, and XformSrc not the identity: 21
}

fn shared_by_pictures(s: &mut Script) {
    let rec = record(MASKBLT, [0, 0, 2, 2], rop4(0xCC, 0xAA)).from([0, 0, 0, 0], plain(24, 0));
    // Source: header at 132 to 171, bits at 176 to 191.  Mask: header at 196
    // to 243, bits at 248 to 255, where Size ends.
    let blt = rec.clone().masked([0, 0], plain(1, 2)).gapped(4, false).bytes();
    s.read_mask(&with(&blt, 96, 20)); // the source's bits go up to the mask's header: they touch
    s.play(WHOLE, 0, &with(&blt, 96, 21)); // one byte further: 21
    s.play(WHOLE, 0, &with(&with(&blt, 112, 132), 116, 40)); // one header part for both: 21
    s.play(WHOLE, 0, &with(&blt, 112, 133)); // headers a byte apart: 21
    s.play(WHOLE, 0, &with(&blt, 120, 171)); // the mask's bits begin with the source header's last byte: 21
    s.play(WHOLE, 0, &with(&blt, 120, 184)); // they are the source's second row: 21
    s.read_source(&with(&blt, 116, 53)); // the mask's header part goes into its bits: 21
    s.read_mask(&with(&blt, 88, 45)); // the source's into its own: 21
    s.read_mask(&with(&with(&blt, 120, 180), 124, 0)); // the mask's bits empty inside the source's: 10
    s.play(WHOLE, 0, &with(&with(&blt, 96, 21), 124, 9)); // a byte shared, and the mask's bits end past Size: 6
    s.play(WHOLE, 0, &with(&with(&blt, 96, 21), 108, 1)); // a byte shared, and the mask's usage 1: 21
    let alone = rec.gapped(4, false).bytes();
    s.play(WHOLE, 0, &with(&alone, 88, 45)); // no mask, and a byte shared in the source: 21, before 13

    // One picture for both: the mask's four fields are the source's.
    let mut both = record(MASKBLT, [0, 0, 2, 2], rop4(0xB8, 0x11)).from([0, 0, 0, 0], plain(1, 2)).bytes();
    for k in 0..4 {
        both = with(&both, 112 + 4 * k, get(&both, 84 + 4 * k));
    }
    s.play(WHOLE, 0, &both); // 21
}

pub fn refusals_8_to_10(s: &mut Script, r: &mut Random) {
    let p24 = make(picture(r, 40, 2, 2, 24, 0));
    bad_headers(s, r, &p24);
    bad_channel_masks(s, r);
    s.play(WHOLE, 0, &with(&p24, 60, 15)); // bits a byte short: 10
    faults_of_both_pictures(s, r);
}

/// 0x51 with a picture of 2 by 2; its header stands at 80.
fn make(p: Picture) -> Vec<u8> {
    record(STRETCHDIBITS, [0, 0, 2, 2], COPY).from([0, 0, 2, 2], p).bytes()
}

fn bad_headers(s: &mut Script, r: &mut Random, p24: &[u8]) {
    for size in [3, 39] {
        // A header part too short for its 40 bytes: 8.
        s.play(WHOLE, 0, &with(p24, 52, size));
    }
    for size in [12, 124] {
        // Header sizes not listed: 8.
        s.read_source(&with(p24, 80, size));
    }
    let v4 = make(picture(r, 108, 2, 2, 24, 0));
    s.play(WHOLE, 0, &with(&v4, 52, 107)); // a V4 header a byte short: 8
    s.play(WHOLE, 0, &with(p24, 92, 24 * 65_536 + 2)); // planes 2: 8
    for bits in [0, 2] {
        // Bits not listed: 8.
        s.read_source(&with(p24, 92, bits * 65_536 + 1));
    }
    for compression in [1, 3, 5] {
        // Compressions not listed, and BI_BITFIELDS at 24 bits: 8.  The V4
        // header has room for masks, and they are nonsense.
        s.read_source(&with(&v4, 96, compression));
    }
    s.play(WHOLE, 0, &with(p24, 84, 0)); // width 0: 8
    s.play(WHOLE, 0, &with(p24, 84, -2i32 as u32)); // width with a sign: 8
    s.play(WHOLE, 0, &with(p24, 84, 16_385)); // width one too many: 8
    s.play(WHOLE, 0, &with(p24, 84, 16_384)); // width at its limit, bits too few: 10
    s.play(WHOLE, 0, &with(p24, 88, 0)); // height 0: 8
    s.play(WHOLE, 0, &with(p24, 88, -16_385i32 as u32)); // without sign too: 8
    s.play(WHOLE, 0, &with(p24, 88, -16_384i32 as u32)); // at its limit: 10
    s.play(WHOLE, 0, &with(p24, 88, 0x8000_0000)); // height -2^31: 8
    s.read_source(&with(p24, 112, 1)); // one colour used, no room for it: 8
    s.read_source(&with(p24, 112, 0x4000_0000)); // 4·2^30 looks like 0: 8
    let mut p = picture(r, 40, 2, 2, 24, 257);
    s.read_source(&make(p.clone())); // 257 colours used: 8
    p.header.used = 256;
    s.play(WHOLE, 0, &make(p)); // 256 of them, the 257th word is over: accepted
    let mut p = picture(r, 40, 2, 2, 1, 3);
    s.read_source(&make(p.clone())); // 3 colours used at 1 bit: 8
    p.header.used = 0;
    s.play(WHOLE, 0, &make(p.clone())); // 0 stands for 2, the third is over: accepted
    p.table.truncate(1);
    s.read_source(&make(p)); // 0 stands for 2, one is there: 8
}

fn bad_channel_masks(s: &mut Script, r: &mut Random) {
    // Masks at 16 bits, header of 40.
    for m in [
        [0, 0x7E0, 0x1F, 0],          // red zero
        [0xF800, 0xFE0, 0x1F, 0],     // red and green overlap
        [0xF800, 0x7E0, 0x3F, 0],     // green and blue overlap
        [0x8800, 0x7E0, 0x1F, 0],     // a hole in red
        [0xF800, 0x7E0, 0x1_0000, 0], // beyond the pixel's bits
        [0x1FF, 0x600, 0x800, 0],     // nine ones
    ] {
        // All 9.
        s.read_source(&make(picture(r, 40, 2, 2, 16, 0).bitfields(m)));
    }
    // Masks at 32 bits, V4.
    for m in [
        [0xFF, 0xFF00, 0xFF_0000, 0x8100_0000], // a hole in alpha
        [0xFF, 0xFF00, 0xFF_0000, 0x0180_0000], // alpha overlaps blue
        [0xFF, 0xFF00, 0x1_0000, 0xFF80_0000],  // alpha of nine ones
        [0xFF, 0xFF00, 0xFF00_00FF, 0],         // blue wraps round
    ] {
        // All 9, though 0x51 uses no alpha.
        s.play(WHOLE, 0, &make(picture(r, 108, 2, 2, 32, 0).bitfields(m)));
    }
    // 40-byte BI_BITFIELDS: the masks count in the header part's length.
    let p = picture(r, 40, 2, 2, 32, 0).bitfields([0xFF, 0xFF00, 0xFF_0000, 0]);
    s.play(WHOLE, 0, &with(&make(p), 52, 51)); // a byte short: 8
}

/// Two pictures, two faults: number by number.
fn faults_of_both_pictures(s: &mut Script, r: &mut Random) {
    let bad_masks = picture(r, 40, 2, 2, 16, 0).bitfields([0, 0x7E0, 0x1F, 0]);
    let good = picture(r, 40, 2, 2, 16, 0);
    let blt = |source: &Picture, mask: &Picture| {
        record(MASKBLT, [0, 0, 2, 2], rop4(0xCC, 0xAA))
            .from([0, 0, 0, 0], source.clone())
            .masked([0, 0], mask.clone())
            .bytes()
    };
    let mask = picture(r, 40, 2, 2, 1, 2);
    let mut flat = mask.clone();
    flat.header.width = 0;
    let short = Picture { pixels: vec![0; 7], ..good.clone() };
    let short_mask = Picture { pixels: vec![0; 7], ..mask.clone() };
    s.read_source(&blt(&bad_masks, &flat)); // source 9, mask 8: 8
    s.read_source(&blt(&short, &bad_masks)); // source 10, mask 9: 9, before 13
    s.read_source(&blt(&bad_masks, &short_mask)); // source 9, mask 10: 9
    s.read_source(&blt(&good, &short_mask)); // the mask's bits a byte short: 10
    s.read_mask(&blt(&good, &mask)); // none: the mask
}

pub fn refusals_11_to_13(s: &mut Script, r: &mut Random) {
    let p32 = picture(r, 40, 3, 3, 32, 0);
    let blend = record(ALPHABLEND, [0, 0, 3, 3], blend_field(80, 0)).from([0, 0, 3, 3], p32.clone()).bytes();
    bad_blends(s, r, &blend);
    let mask = picture(r, 40, 3, 3, 1, 2);
    absent_sources(s, &mask);
    bad_geometry(s, &p32, &blend);
    bad_mask_blits(s, r, &p32, &mask);
}

fn bad_blends(s: &mut Script, r: &mut Random, blend: &[u8]) {
    s.play(WHOLE, 0, &with_byte(blend, 40, 1)); // blend operation 1: 11
    s.play(WHOLE, 0, &with_byte(blend, 43, 2)); // format 2: 11
    for p in [
        picture(r, 40, 3, 3, 24, 0),                                          // 24 bits
        picture(r, 40, 3, 3, 32, 0).bitfields([0xFF, 0xFF00, 0xFF_0000, 0]),  // no alpha mask can be
        picture(r, 108, 3, 3, 32, 0).bitfields([0xFF, 0xFF00, 0xFF_0000, 0]), // alpha mask zero
        picture(r, 108, 3, 3, 16, 0).bitfields([0xF, 0xF0, 0xF00, 0xF000]),   // alpha, but 16 bits
    ] {
        // Format 1 without 32 bits and an alpha: 11.
        let rec = record(ALPHABLEND, [0, 0, 3, 3], blend_field(80, 1)).from([0, 0, 3, 3], p);
        s.play(WHOLE, 0, &rec.bytes());
    }
}

fn absent_sources(s: &mut Script, mask: &Picture) {
    s.play(WHOLE, 0, &record(ALPHABLEND, [0, 0, 0, 3], blend_field(80, 0)).bytes()); // no source: 11, before 12
    for byte in [0x01, 0x02, 0x10, 0x20] {
        // Raster bytes that need the absent source, by each pair of bits: 11.
        s.read_source(&brushed([0, 0, 3, 3], byte).bytes());
    }
    for (foreground, background) in [(0xAA, 0xCC), (0xCC, 0xAA)] {
        // One byte of two needs the source: 11.
        let rec = record(MASKBLT, [0, 0, 3, 3], rop4(foreground, background));
        s.play(WHOLE, 0, &rec.masked([0, 0], mask.clone()).bytes());
    }
    s.play(WHOLE, 0, &record(MASKBLT, [0, 0, 3, 3], rop4(0xCC, 0xAA)).bytes()); // 11, before 13
}

fn bad_geometry(s: &mut Script, p32: &Picture, blend: &[u8]) {
    // 12, target: at 72 and 76 in 0x51.
    let none = brushed([0, 0, 3, 3], 0xF0).bytes();
    for (place, n) in [(72, 0), (72, 4_097), (76, -4_097), (76, i32::MIN)] {
        // Target extents out of range.
        s.play(WHOLE, 0, &with(&none, place, n as u32));
    }
    for (place, n) in [(24, 1_000_001), (28, -1_000_001)] {
        // Target corners out of range.
        s.read_source(&with(&none, place, n as u32));
    }
    // 12, source of 0x51: corner at 32 and 36, extents at 40 and 44.
    let st = record(STRETCHDIBITS, [0, 0, 3, 3], COPY).from([0, 0, 3, 3], p32.clone()).bytes();
    for (place, n) in [
        (40, 0),        // no columns
        (44, 16_385),   // too many rows
        (40, i32::MIN), // no number has this one's other sign
        (32, -1),       // before the picture
        (36, 1),        // over its bottom
        (44, -3),       // rows -3 to -1
    ] {
        s.play(WHOLE, 0, &with(&st, place, n as u32));
    }
    // A source that is not needed is judged all the same: 12.
    s.play(WHOLE, 0, &with(&with(&st, 68, rop(0xF0)), 40, 4));
    // A negative extent covers the columns before: x = width passes.
    s.play(WHOLE, 0, &with(&with(&st, 40, -3i32 as u32), 32, 3));
    // 12, negative extents of 0x72: target at 32 and 36, source at 100, 104.
    for place in [32, 36, 100, 104] {
        let moved = with(blend, if place >= 100 { place - 56 } else { place }, 3);
        s.read_source(&with(&moved, place, -3i32 as u32));
    }
}

/// 12 and 13 in 0x4E.
fn bad_mask_blits(s: &mut Script, r: &mut Random, p32: &Picture, mask: &Picture) {
    let blt = |m: Picture| {
        record(MASKBLT, [0, 0, 3, 3], rop4(0xCC, 0xAA)).from([0, 0, 0, 0], p32.clone()).masked([0, 0], m).bytes()
    };
    let good = blt(mask.clone());
    s.play(WHOLE, 0, &with(&with(&good, 32, -3i32 as u32), 44, 3)); // negative extent: 12
    s.play(WHOLE, 0, &with(&good, 36, 4)); // the target's rows are the source's: 12
    s.play(WHOLE, 0, &with(&good, 48, 1)); // the source's corner too low: 12
    s.play(WHOLE, 0, &with(&good, 100, 1_000_001)); // the mask's corner too far: 12
    let deep = blt(picture(r, 40, 3, 3, 4, 16));
    s.play(WHOLE, 0, &with(&deep, 100, 1_000_001)); // 12, before the mask's 13
    s.play(WHOLE, 0, &deep); // a mask of 4 bits: 13
    let mut rec = record(MASKBLT, [0, 0, 3, 3], rop4(0xCC, 0xAA)).from([0, 0, 0, 0], p32.clone());
    rec.mask_corner = [i32::MIN, i32::MAX];
    rec.mask_usage = 7;
    s.play(WHOLE, 0, &rec.bytes()); // no mask; its corner and usage not looked at: 13
    s.read_source(&rec.bytes()); // a reading of the source judges the mask: 13
    s.play(WHOLE, 0, &good); // and the good one plays
}
