//! Plays and readings that are accepted: every depth and header, mirrored and clipped, masks and raster bytes.

use crate::pictures::{field_pictures, filled_table, four_forms, mask_picture, picture, plain_pictures};
use crate::random::Random;
use crate::script::{brushed, record, Script, COPY, HEIGHT, PAGE, WHOLE, WIDEST, WIDTH};
use records::operation::{blend_field, rop, rop4};
use records::{Picture, ALPHABLEND, MASKBLT, STRETCHDIBITS};

/// 0x51 over every depth, header size and row order.
pub fn stretch_depths(s: &mut Script, r: &mut Random) {
    s.count(7 * PAGE); // a page of its own
    for p in plain_pictures(r).into_iter().chain(field_pictures(r)) {
        // Source copied, stretched from 5 by 4 to 8 by 6; the gap makes parts
        // stand at odd places.
        let dest = somewhere(r, 8, 6);
        let rec = record(STRETCHDIBITS, dest, COPY).from([1, 1, 5, 4], p).gapped(1, false);
        s.play(WHOLE, r.next(), &rec.bytes());
    }
}

/// 0x72 over every depth, both header sizes, both formats.
pub fn blend_depths(s: &mut Script, r: &mut Random) {
    s.count(PAGE); // a page of its own
    let mut constant = 255;
    let plain = plain_pictures(r);
    for (k, p) in plain.into_iter().enumerate() {
        // Format 0, each depth once: 40 top-down and 108 bottom-up in turn.
        if k % 8 == 1 || k % 8 == 6 {
            let dest = somewhere(r, 9, 7);
            let rec = record(ALPHABLEND, dest, blend_field(constant, 0)).from([0, 0, 7, 5], p);
            s.play(WHOLE, r.next(), &rec.bytes());
            constant = r.below(256);
        }
    }
    for (k, p) in field_pictures(r).into_iter().enumerate() {
        // Format 0 under BI_BITFIELDS: an alpha mask gives the blended alpha.
        // Without one it is 255; of the four such pictures one is played.
        if k == 0 || k == 1 || k == 4 {
            continue;
        }
        let dest = somewhere(r, 6, 6);
        let rec = record(ALPHABLEND, dest, blend_field(128, 0)).from([1, 0, 6, 5], p);
        s.play(WHOLE, r.next(), &rec.bytes());
    }
    for (k, p) in four_forms(r, 32, 0).into_iter().enumerate() {
        // Format 1 under BI_RGB: the high byte is alpha, also with a V4 header
        // whose masks are nonsense; colours above alpha are cut to 255.
        let rec = record(ALPHABLEND, [1, 1, 22, 18], blend_field([255, 128, 1, 77][k], 1));
        s.play(WHOLE, 0, &rec.from([0, 0, 7, 5], p).bytes());
    }
    for (masks, constant) in [
        // Format 1 with an alpha mask of 8 bits, at the top and at the bottom.
        ([0xFF, 0xFF00, 0xFF0000, 0xFF00_0000u32], 200),
        ([0xFF00_0000, 0xFF_0000, 0xFF00, 0xFF], 255),
        // Alpha of 1 bit, and of 4 bits.
        ([0x7F, 0x3F80, 0x1F_C000, 0x8000_0000], 128),
        ([0x1F, 0x3E0, 0x7C00, 0x0F00_0000], 254),
    ] {
        let p = picture(r, 108, 6, -6, 32, 0).bitfields(masks);
        let rec = record(ALPHABLEND, somewhere(r, 12, 11), blend_field(constant, 1));
        s.play(WHOLE, 0, &rec.from([0, 0, 6, 6], p).bytes());
    }
    // Constant alpha 0 leaves every pixel, and counts them.
    let p = picture(r, 40, 6, 6, 32, 0);
    let rec = record(ALPHABLEND, [0, 0, 6, 6], blend_field(0, 1)).from([0, 0, 6, 6], p);
    s.play(WHOLE, 0, &rec.bytes());
    // A ramp of alphas from 0 to 253 under one colour with channels 255, 128
    // and 0.
    let mut ramp = Vec::new();
    for k in 0..24u32 {
        let a = k * 11;
        ramp.extend_from_slice(&(a * 16_777_216 + 0x00FF_8000).to_le_bytes());
    }
    let p = Picture { pixels: ramp, ..picture(r, 40, 24, 1, 32, 0) };
    let rec = record(ALPHABLEND, [0, 0, 24, 20], blend_field(129, 1)).from([0, 0, 24, 1], p);
    s.play(WHOLE, 0, &rec.bytes()); // one source row over the whole sheet
}

/// 0x4E over every depth, both header sizes.
pub fn mask_depths(s: &mut Script, r: &mut Random) {
    s.count(2 * PAGE); // a page of its own
    let list: Vec<Picture> = plain_pictures(r).into_iter().chain(field_pictures(r)).collect();
    for (k, p) in list.into_iter().enumerate() {
        // Each depth once, 40 bottom-up and 108 top-down in turn, then both
        // under BI_BITFIELDS; copy over keep.
        if k % 8 == 0 || k % 8 == 7 {
            let dest = somewhere(r, 6, 4);
            let mask = mask_picture(r, k);
            let rec = record(MASKBLT, dest, rop4(0xCC, 0xAA));
            let rec = rec.from([1, 1, 0, 0], p).masked([2, 1], mask).gapped(3, k % 8 == 7);
            s.play(WHOLE, r.next(), &rec.bytes());
        }
    }
}

/// 0x51 with every mix of signs, and stretches up and down.
pub fn mirrored(s: &mut Script, r: &mut Random) {
    s.count(3 * PAGE); // a page of its own
    let p = picture(r, 40, 6, 5, 16, 0);
    for k in 0..16 {
        // Signs of cxDest, cyDest, cxSrc, cySrc; corners move with them, so
        // that all lie on sheet and picture.
        let (a, b, c, d) = (k & 1, k & 2, k & 4, k & 8);
        let dest = [
            if a == 0 { 4 } else { 17 },
            if b == 0 { 3 } else { 14 },
            if a == 0 { 13 } else { -13 },
            if b == 0 { 11 } else { -11 },
        ];
        let src = [
            if c == 0 { 1 } else { 6 },
            if d == 0 { 0 } else { 5 },
            if c == 0 { 5 } else { -5 },
            if d == 0 { 5 } else { -5 },
        ];
        // Source and target by exclusive or (0x66), so that each one leaves a
        // trace.
        let rec = record(STRETCHDIBITS, dest, rop(0x66)).from(src, p.clone());
        s.play([5, 4, 16, 13], r.next(), &rec.bytes());
    }
    // The widest picture, 16,384 columns of 1 bit, on 24 pixels.
    let mut wide = picture(r, 40, 16_384, 1, 1, 2);
    wide.table = vec![0x00FF_0000, 0x0000_FF00];
    let rec = record(STRETCHDIBITS, [0, 2, 24, 3], COPY).from([0, 0, 16_384, 1], wide.clone());
    s.play(WHOLE, 0, &rec.bytes()); // shrunk

    // Mirrored by the largest negative extent, target beyond the sheet.
    let rec = record(STRETCHDIBITS, [3_000, 6, -4_096, 2], COPY).from([0, 0, 16_384, 1], wide);
    s.play(WIDEST, 0, &rec.bytes());
    // One source pixel over the largest target.
    let p = picture(r, 108, 3, -3, 24, 0);
    let rec = record(STRETCHDIBITS, [-2_000, -3_000, 4_096, 4_096], rop(0x99));
    s.play([2, 2, 22, 18], 0, &rec.from([2, 1, 1, 1], p).bytes());
    // n 2, m 3, plain and mirrored.
    let p = picture(r, 40, 2, 1, 24, 0);
    for cx in [3, -3] {
        let x = if cx > 0 { 10 } else { 13 };
        let rec = record(STRETCHDIBITS, [x, 9, cx, 1], COPY).from([0, 0, 2, 1], p.clone());
        s.play(WHOLE, 0, &rec.bytes());
    }
}

/// Clips, Bounds and targets at and over the edges.
pub fn regions(s: &mut Script, r: &mut Random) {
    s.count(4 * PAGE); // a page of its own
    let p = picture(r, 40, 8, 8, 8, 16);
    for (x, y) in [(-3, 5), (20, 5), (9, -4), (9, 16), (-4, -5), (21, 17)] {
        // The target cut by left, right, top, bottom, and by two corners.
        let rec = record(STRETCHDIBITS, [x, y, 7, 9], COPY).from([0, 0, 8, 8], p.clone());
        s.play(WIDEST, 0, &rec.bytes());
    }
    for clip in [
        [6, 0, 24, 20],  // the clip cuts left
        [0, 6, 24, 20],  // top
        [0, 0, 9, 20],   // right
        [0, 0, 24, 9],   // bottom
        [-50, 7, 8, 90], // beyond the sheet at three sides
    ] {
        let rec = record(STRETCHDIBITS, [4, 4, 9, 9], COPY).from([0, 0, 8, 8], p.clone());
        s.play(clip, 0, &rec.bytes());
    }
    let plain = brushed([2, 3, 9, 8], 0x5A);
    for clip in [
        [9, 3, 2, 11],    // inverted in x: nothing
        [2, 11, 9, 3],    // inverted in y: nothing
        [24, 0, 90, 20],  // right of the sheet
        [12, 12, 20, 20], // on it, beside the target
    ] {
        // All accepted with 0 pixels and one closing record.
        s.play(clip, 0x00FF_00FF, &plain.bytes());
    }
    for (bounds, clip) in [
        ([0, 0, 4, 19], [4, 0, 24, 20]),                            // Bounds' last column meets
        ([0, 0, 3, 19], [4, 0, 24, 20]),                            // one column short: 0
        ([7, 0, 90, 19], [0, 0, 8, 20]),                            // its first column meets
        ([8, 0, 90, 19], [0, 0, 8, 20]),                            // one too far: 0
        ([9, 0, 4, 19], [0, 0, 24, 20]),                            // inverted in x: 0
        ([0, 9, 23, 4], [0, 0, 24, 20]),                            // inverted in y: 0
        ([i32::MIN, i32::MIN, i32::MAX, i32::MAX], WIDEST),         // the widest of both: all of the target
        ([i32::MAX, i32::MAX, i32::MIN, i32::MIN], [0, 0, 24, 20]), // inverted at the ends: 0
        ([22, 18, 23, 19], [0, 0, 24, 20]),                         // apart from the target: still drawn
        ([24, 0, 30, 19], [0, 0, 99, 99]),                          // off the sheet, in the uncut clip: 0
    ] {
        let rec = plain.clone().bounded(bounds);
        s.play(clip, 0x0012_3456, &rec.bytes());
    }
    for dest in [
        [1_000_000, -1_000_000, 5, 5],       // the farthest corners pass, count 0
        [-1_000_000, 1_000_000, -4_096, -1], // and the target may reach further
        [24, 20, -24, -20],                  // the whole sheet from its far corner
        [0, 0, -1, -1],                      // wholly before the sheet: 0
        [1, 1, -1, -1],                      // the first pixel only
    ] {
        let rec = brushed(dest, 0x0F);
        s.play(WIDEST, 0x00AB_CDEF, &rec.bytes());
    }
}

/// Mask corners, ROP4 mixes, raster bytes.
pub fn masks_and_rasters(s: &mut Script, r: &mut Random) {
    s.count(5 * PAGE); // a page of its own
    let p = picture(r, 40, 20, 16, 4, 16);
    for (corner, mask) in [
        ([-3, 0], picture(r, 40, 8, 3, 1, 2)),                   // document 01's -3
        ([0, -1], picture(r, 40, 3, -3, 1, 2)),                  // negative row, mask smaller
        ([-8, -3], picture(r, 108, 8, 3, 1, 2)),                 // a whole width back
        ([-1_000_000, 1_000_000], picture(r, 40, 7, 5, 1, 2)),   // the farthest corners
        ([1_000_000, -1_000_000], picture(r, 40, 33, -2, 1, 1)), // 33 columns: rows of 8 bytes
        ([0, 0], picture(r, 40, 1, 1, 1, 2)),                    // one pixel for all
    ] {
        let rec = record(MASKBLT, [3, 2, 18, 15], rop4(0xCC, 0x66));
        let rec = rec.from([2, 1, 0, 0], p.clone()).masked(corner, mask);
        s.play([2, 3, 20, 16], 0x0040_8020, &rec.bytes());
    }
    for (foreground, background) in [(0x0F, 0xF0), (0x5A, 0xAA), (0xA5, 0x55)] {
        // No source: neither byte needs one; its fields are nonsense, usage too.
        let mut rec = record(MASKBLT, [-2, 4, 14, 9], rop4(foreground, background));
        rec = rec.masked([1, 1], mask_picture(r, background as usize));
        rec.source_at = [i32::MIN, i32::MAX, 0, 0];
        rec.usage = 9;
        s.play(WHOLE, 0x00C3_A55A, &rec.bytes());
    }
    // Source and mask are alike, each with bytes of its own.
    let alike = picture(r, 40, 12, 10, 1, 2);
    let rec = record(MASKBLT, [6, 6, 12, 10], rop4(0xB8, 0x11)).from([0, 0, 0, 0], alike.clone()).masked([0, 0], alike);
    s.play(WHOLE, 0x00FE_DCBA, &rec.bytes());
    // Pixels that are bytes of their header, once more.
    let mut p = picture(r, 40, 9, 1, 24, 0);
    p.pixels = p.header_part()[1..29].to_vec();
    let rec = record(STRETCHDIBITS, [1, 1, 9, 1], COPY).from([0, 0, 9, 1], p);
    s.play(WHOLE, 0, &rec.bytes());
    // Raster bytes with a source, over all eight mixes of bits.
    let p = picture(r, 40, 9, 8, 24, 0);
    for byte in [0x1B, 0xE4, 0x96, 0xB8] {
        let rec = record(STRETCHDIBITS, somewhere(r, 9, 8), rop(byte)).from([0, 0, 9, 8], p.clone());
        s.play(WHOLE, r.next(), &rec.bytes());
    }
    for byte in [0x05, 0x5A, 0xA0, 0xFF] {
        // Raster bytes that need no source, and have none; nonsense in its
        // rectangle and usage is not looked at.
        let mut rec = brushed(somewhere(r, 4, 4), byte);
        rec.source_at = [i32::MIN, -1, 0, i32::MAX];
        rec.usage = 0xFFFF_FFFF;
        s.play(WHOLE, r.next(), &rec.bytes());
    }
}

/// Readings of every sort.
pub fn readings(s: &mut Script, r: &mut Random) {
    for (k, p) in plain_pictures(r).into_iter().chain(field_pictures(r)).enumerate() {
        // Each depth of 0x51, 40 bottom-up and 108 top-down in turn; of
        // BI_BITFIELDS every second one.
        if k < 24 && (k % 8 == 0 || k % 8 == 7) || k >= 24 && k % 2 == 0 {
            let rec = record(STRETCHDIBITS, [0, 0, 1, 1], COPY).from([0, 0, 7, 5], p);
            s.read_source(&rec.gapped(5, k % 4 == 0).bytes());
        }
    }
    // 8 bits with colours used 0: the whole table of 256.
    let p = filled_table(picture(r, 40, 5, 4, 8, 0));
    let rec = record(ALPHABLEND, [0, 0, 5, 4], blend_field(9, 0)).from([0, 0, 5, 4], p);
    s.read_source(&rec.bytes()); // read
    s.count(6 * PAGE); // a page of its own
    s.play(WHOLE, 0, &rec.bytes()); // and played
    s.read_mask(&rec.bytes()); // 0x72 has no mask: 0 and empty
    s.read_mask(&brushed([0, 0, 1, 1], 0xF0).bytes()); // nor has 0x51
    s.read_source(&brushed([0, 0, 1, 1], 0xF0).bytes()); // source absent: 0 and empty

    // MASKBLT: the mask's own reading, with its palette, and the source's.
    let rec = record(MASKBLT, [0, 0, 4, 4], rop4(0xCC, 0xAA));
    let rec = rec.from([0, 0, 0, 0], picture(r, 108, 4, 4, 32, 2)).masked([0, 0], mask_picture(r, 3));
    s.read_mask(&rec.bytes());
    s.read_source(&rec.bytes());
    // Header and bits parts longer than needed: the header comes back whole,
    // the view is cut.
    let mut p = picture(r, 40, 3, 3, 4, 2);
    p.table.extend([0x00FF_FFFF, 0x0011_1111]);
    p.pixels.extend([1, 2, 3, 4, 5]);
    let rec = record(STRETCHDIBITS, [1, 1, 3, 3], COPY).from([0, 0, 3, 3], p);
    s.read_source(&rec.bytes()); // read
    s.play(WHOLE, 0, &rec.bytes()); // entries past the two show black

    // A 16-bit V4 picture with all alpha bits, 0x51 ignores alpha.
    let p = picture(r, 108, 4, -4, 16, 256).bitfields([0xF, 0xF0, 0xF00, 0xF000]);
    let p = Picture { table: vec![0x7777_7777; 256], ..p };
    let rec = record(STRETCHDIBITS, [12, 12, 8, 8], rop(0xCC)).from([0, 0, 4, 4], p);
    s.read_source(&rec.bytes()); // 256 skipped colours are lawful
}

/// A place for a target of this size on the working sheet.
pub fn somewhere(r: &mut Random, cx: i32, cy: i32) -> [i32; 4] {
    let x = r.below((WIDTH as i32 - cx + 1) as u32) as i32;
    let y = r.below((HEIGHT as i32 - cy + 1) as u32) as i32;
    [x, y, cx, cy]
}
