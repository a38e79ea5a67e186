//! The reasons word for word, a record for each clause.

use lacrumont_tool::library::{self, Which};
use lacrumont_tool::reasons::{reason, refused};
use records::bytes::{with, with_byte};
use records::operation::{blend_field, rop, rop4};
use records::{Header, Picture, Record, ALPHABLEND, MASKBLT, STRETCHDIBITS};

/// Three columns and two rows under a 40-byte header, BI_RGB; the table is whole.
fn picture(bits: u16, table: &[u32]) -> Picture {
    let head = Header::new(40, 3, 2, bits);
    Picture { header: head, table: table.to_vec(), pixels: vec![0; head.rows_length()] }
}

/// Its header is at 108, its bits at 148.
fn blend_of(format: u32, picture: Picture) -> Vec<u8> {
    Record::new(ALPHABLEND, [3, 4, 20, 10], blend_field(255, format)).from([0, 0, 3, 2], picture).bytes()
}

fn blend() -> Vec<u8> {
    blend_of(1, picture(32, &[]))
}

/// Its header is at 80, its bits at 120.
fn stretch() -> Vec<u8> {
    Record::new(STRETCHDIBITS, [3, 4, 20, 10], rop(0xCC)).from([0, 0, 3, 2], picture(24, &[])).bytes()
}

/// The source's header is at 128, its bits at 168; the mask's header at 192, its bits at 240.
fn masked() -> Vec<u8> {
    let mask = picture(1, &[0, 0xFF_FFFF]);
    let made = Record::new(MASKBLT, [0, 0, 3, 2], rop4(0xCC, 0xAA));
    made.from([0; 4], picture(24, &[])).masked([0, 0], mask).bytes()
}

fn without_source(kind: u32, operation: u32) -> Vec<u8> {
    Record::new(kind, [0, 0, 3, 2], operation).bytes()
}

fn bitfields(bits: u16, size: u32, masks: [u32; 4]) -> Vec<u8> {
    let mut picture = picture(bits, &[]).bitfields(masks);
    picture.header.size = size;
    Record::new(STRETCHDIBITS, [3, 4, 20, 10], rop(0xCC)).from([0, 0, 3, 2], picture).bytes()
}

/// The records are refused with the status and these words.
#[track_caller]
fn say(status: u32, cases: &[(Vec<u8>, &str)]) {
    for (record, words) in cases {
        assert_eq!(library::read(record, Which::Source), Err(status), "{words}");
        assert_eq!(reason(record, status).as_deref(), Some(*words));
        assert_eq!(refused(record, status), format!("status {status}: {words}"));
    }
}

/// A signed number as a field has it.
fn n(number: i32) -> u32 {
    number as u32
}

#[test]
fn the_records_are_sound_before_they_are_changed() {
    for record in [blend(), stretch(), masked(), bitfields(16, 40, [0xF800, 0x07E0, 0x001F, 0])] {
        assert!(library::read(&record, Which::Source).is_ok());
    }
    assert_eq!([get(&blend(), 84), get(&blend(), 92)], [108, 148]);
    assert_eq!([get(&stretch(), 48), get(&stretch(), 56)], [80, 120]);
    assert_eq!([84, 92, 112, 120].map(|at| get(&masked(), at)), [128, 168, 192, 240]);
}

fn get(record: &[u8], at: usize) -> u32 {
    records::bytes::get(record, at)
}

#[test]
fn length_type_and_size() {
    let long = [&stretch()[..], &[0; 16_777_216]].concat();
    say(
        3,
        &[
            (vec![], "the record has 0 bytes, fewer than the 8 of Type and Size"),
            (stretch()[..7].to_vec(), "the record has 7 bytes, fewer than the 8 of Type and Size"),
            (long, "the record has 16777360 bytes, above 16777216"),
        ],
    );
    say(
        4,
        &[
            (with(&stretch(), 0, 0x4C), "Type 0x4C (EMR_BITBLT) is not played"),
            (with(&stretch(), 0, 0x4F), "Type 0x4F (EMR_PLGBLT) is not played"),
            (with(&stretch(), 0, 0x1234), "Type 0x1234 (record of an unknown type) is not played"),
        ],
    );
    let odd = with(&[&stretch()[..], &[0; 2]].concat(), 4, 146);
    say(
        5,
        &[
            (with(&stretch(), 4, 140), "Size 140 is not the record's length, 144"),
            (odd, "Size 146 is not a multiple of 4"),
            (with(&blend()[..104], 4, 104), "Size 104 is below 108, the fixed part of EMR_ALPHABLEND"),
            (with(&masked()[..8], 4, 8), "Size 8 is below 128, the fixed part of EMR_MASKBLT"),
        ],
    );
}

#[test]
fn parts() {
    say(
        6,
        &[
            (with(&blend(), 84, 107), "offBmiSrc 107 lies before the end of the fixed part, 108"),
            (with(&blend(), 92, 0), "offBitsSrc 0 lies before the end of the fixed part, 108"),
            (with(&stretch(), 52, 65), "offBmiSrc 80 and cbBmiSrc 65 end at 145, past Size 144"),
            (
                with(&stretch(), 56, 0xFFFF_FFF0),
                "offBitsSrc 4294967280 and cbBitsSrc 24 end at 4294967304, past Size 144",
            ),
            (with(&masked(), 112, 127), "offBmiMask 127 lies before the end of the fixed part, 128"),
            (with(&masked(), 124, 9), "offBitsMask 240 and cbBitsMask 9 end at 249, past Size 248"),
        ],
    );
    let one_header = with(&with(&masked(), 112, 128), 116, 40);
    say(
        21,
        &[
            (
                with(&stretch(), 52, 41),
                "offBmiSrc 80 with cbBmiSrc 41 and offBitsSrc 120 with cbBitsSrc 24 share byte 120",
            ),
            (one_header, "offBmiSrc 128 with cbBmiSrc 40 and offBmiMask 128 with cbBmiMask 40 share bytes 128 to 167"),
            (
                with(&masked(), 120, 190),
                "offBitsSrc 168 with cbBitsSrc 24 and offBitsMask 190 with cbBitsMask 8 share bytes 190 to 191",
            ),
        ],
    );
}

#[test]
fn transform_and_usage() {
    let only = "only 1, 0, 0, 1, 0, 0 (as it is) is played";
    let scaled = with(&with(&blend(), 52, 2f32.to_bits()), 64, 0.5f32.to_bits());
    let alone = with(&without_source(MASKBLT, rop4(0xF0, 0xF0)), 72, 3f32.to_bits());
    say(
        7,
        &[
            (scaled, &format!("XformSrc 2, 0, 0, 0.5, 0, 0 scales the source; {only}")),
            (alone, &format!("XformSrc 1, 0, 0, 1, 0, 3 moves the source; {only}")),
            (
                with(&masked(), 60, (-0.25f32).to_bits()),
                &format!("XformSrc 1, 0, -0.25, 1, 0, 0 turns or slants the source; {only}"),
            ),
            (
                with(&blend(), 56, f32::NAN.to_bits()),
                &format!("XformSrc 1, NaN, 0, 1, 0, 0 is no transform; {only}"),
            ),
            (
                with(&blend(), 80, 1),
                "UsageSrc 1 (DIB_PAL_COLORS) is not played: its colours are places in a palette outside the record; \
                 only 0 (DIB_RGB_COLORS) is",
            ),
            (
                with(&masked(), 108, 2),
                "UsageMask 2 (DIB_PAL_INDICES) is not played: it has no colour table, only places in a palette outside \
                 the record; only 0 (DIB_RGB_COLORS) is",
            ),
            (with(&stretch(), 64, 7), "UsageSrc 7 is not played; only 0 (DIB_RGB_COLORS) is"),
        ],
    );
}

/// The header at this place with its 16-bit planes and bits changed.
fn depth(record: &[u8], header: usize, planes: u16, bits: u16) -> Vec<u8> {
    with(record, header + 12, u32::from(planes) | u32::from(bits) << 16)
}

#[test]
fn headers_too_short() {
    let table = blend_of(0, picture(4, &[0; 16]));
    let masks = bitfields(32, 40, [0xFF_0000, 0xFF00, 0xFF, 0]);
    say(
        8,
        &[
            (with(&blend(), 88, 3), "cbBmiSrc 3 is too short for a header"),
            (with(&blend(), 88, 39), "cbBmiSrc 39 is below biSize 40"),
            (with(&stretch(), 80, 108), "cbBmiSrc 40 is below biSize 108"),
            (with(&table, 88, 103), "cbBmiSrc 103 is below 104: biSize 40, colour table 64 bytes"),
            (with(&masks, 52, 51), "cbBmiSrc 51 is below 52: biSize 40, three masks 12 bytes, colour table 0 bytes"),
            (with(&masked(), 116, 47), "cbBmiMask 47 is below 48: biSize 40, colour table 8 bytes"),
        ],
    );
}

#[test]
fn header_fields() {
    let packed = with(&depth(&stretch(), 80, 1, 0), 96, 4);
    let core = with(&with(&stretch(), 52, 12), 80, 12);
    say(
        8,
        &[
            (core, "biSize 12 (BITMAPCOREHEADER) is not played; 40 and 108 are"),
            (with(&stretch(), 80, 77), "biSize 77 is not played; 40 and 108 are"),
            (with(&masked(), 192, 124), "the mask's biSize 124 (BITMAPV5HEADER) is not played; 40 and 108 are"),
            (depth(&stretch(), 80, 3, 24), "biPlanes 3 is not 1"),
            (depth(&stretch(), 80, 1, 2), "biBitCount 2 is not played; 1, 4, 8, 16, 24 and 32 are"),
            (depth(&stretch(), 80, 1, 0), "biBitCount 0 is not played; 1, 4, 8, 16, 24 and 32 are"),
            (with(&stretch(), 96, 1), "biCompression 1 (RLE8) is not played"),
            (packed, "biCompression 4 (JPEG) is not played"),
            (with(&masked(), 208, 2), "the mask's biCompression 2 (RLE4) is not played"),
            (with(&stretch(), 96, 99), "biCompression 99 is not played"),
            (
                with(&stretch(), 96, 3),
                "biCompression 3 (BITFIELDS) is played with 16 and 32 bits only; biBitCount is 24",
            ),
            (with(&stretch(), 84, n(-5)), "biWidth -5 is below 1"),
            (with(&stretch(), 84, 16_385), "biWidth 16385 is above 16384"),
            (with(&stretch(), 88, 0), "biHeight 0 leaves no rows"),
            (with(&stretch(), 88, 16_385), "biHeight 16385 is above 16384"),
            (with(&stretch(), 88, 0x8000_0000), "biHeight -2147483648 is below -16384"),
            (with(&masked(), 196, 0), "the mask's biWidth 0 is below 1"),
            (with(&stretch(), 112, 257), "biClrUsed 257 is above 256, the most with biBitCount 24"),
            (with(&masked(), 224, 3), "the mask's biClrUsed 3 is above 2, the most with biBitCount 1"),
        ],
    );
}

#[test]
fn channel_masks_and_bits() {
    let ten = bitfields(32, 40, [0x3FF0_0000, 0x000F_FC00, 0x3FF, 0]);
    say(
        9,
        &[
            (bitfields(16, 40, [0xF800, 0, 0x1F, 0]), "green mask 0x00000000 has no ones"),
            (ten, "red mask 0x3FF00000 has 10 ones, above 8"),
            (bitfields(32, 40, [0xFF_0000, 0xFF00, 0x5F, 0]), "blue mask 0x0000005F has ones that are not contiguous"),
            (
                bitfields(32, 108, [0xFF_0000, 0xFF00, 0xFF, 0x8000_8000]),
                "alpha mask 0x80008000 has ones that are not contiguous",
            ),
            (
                bitfields(32, 108, [0xFF_0000, 0xFF00, 0xFF, 0x0180_0000]),
                "alpha mask 0x01800000 overlaps the red mask 0x00FF0000",
            ),
            (bitfields(16, 40, [0x1_0000, 0x07E0, 0x001F, 0]), "red mask 0x00010000 leaves the pixel's 16 bits"),
        ],
    );
    say(
        10,
        &[
            (with(&stretch(), 60, 23), "cbBitsSrc 23 is below 24, row length 12 times height 2"),
            (with(&stretch(), 88, n(-3)), "cbBitsSrc 24 is below 36, row length 12 times height 3"),
            (with(&masked(), 124, 0), "cbBitsMask 0 is below 8, row length 4 times height 2"),
        ],
    );
}

#[test]
fn operations() {
    let alpha = [0xFF_0000, 0xFF00, 0xFF, 0];
    let v4 = Picture { header: Header::new(108, 3, 2, 32), ..picture(32, &[]) }.bitfields(alpha);
    let fields = "offBmiSrc, cbBmiSrc, offBitsSrc and cbBitsSrc are 0";
    say(
        11,
        &[
            (with_byte(&blend(), 40, 1), "blend operation 1 is not 0 (source over target)"),
            (with_byte(&blend(), 43, 2), "alpha format 2 is above 1"),
            (blend_of(1, picture(24, &[])), "alpha format 1 needs 32 bits; biBitCount is 24"),
            (
                blend_of(1, picture(32, &[]).bitfields(alpha)),
                "alpha format 1 needs an alpha; this header is 40 bytes, BI_BITFIELDS, and has no alpha mask",
            ),
            (
                blend_of(1, v4),
                "alpha format 1 needs an alpha; this header is 108 bytes, BI_BITFIELDS, and its alpha mask is 0",
            ),
            (
                without_source(ALPHABLEND, blend_field(255, 0)),
                &format!("the blend needs a source, and the record has none: {fields}"),
            ),
            (
                without_source(STRETCHDIBITS, rop(0xCC)),
                &format!("the raster operation 0xCC (SRCCOPY) needs a source, and the record has none: {fields}"),
            ),
            (
                without_source(MASKBLT, rop4(0x66, 0xAA)),
                &format!("the foreground raster operation 0x66 (SRCINVERT) needs a source, and the record has none: {fields}"),
            ),
            (
                without_source(MASKBLT, rop4(0xF0, 0xB8)),
                &format!("the background raster operation 0xB8 needs a source, and the record has none: {fields}"),
            ),
        ],
    );
}

#[test]
fn geometry() {
    say(
        12,
        &[
            (with(&stretch(), 72, 6_772), "cxDest 6772 is above 4096"),
            (with(&stretch(), 76, n(-4_097)), "cyDest -4097 is below -4096"),
            (with(&blend(), 36, 0), "cyDest 0 leaves no pixels"),
            (with(&blend(), 100, 16_385), "cxSrc 16385 is above 16384"),
            (with(&stretch(), 44, 0), "cySrc 0 leaves no pixels"),
            (with(&blend(), 32, n(-20)), "cxDest -20 is negative, which EMR_ALPHABLEND does not allow"),
            (with(&blend(), 104, n(-2)), "cySrc -2 is negative, which EMR_ALPHABLEND does not allow"),
            (with(&masked(), 36, n(-2)), "cyDest -2 is negative, which EMR_MASKBLT does not allow"),
            (with(&stretch(), 24, 1_000_001), "xDest 1000001 is above 1000000"),
            (with(&stretch(), 36, n(-1_000_001)), "ySrc -1000001 is below -1000000"),
            (with(&masked(), 100, 0x8000_0000), "xMask -2147483648 is below -1000000"),
            (with(&stretch(), 32, 1), "xSrc 1 with cxSrc 3 takes columns 1 to 3 of a picture that has 0 to 2"),
            (with(&stretch(), 40, n(-3)), "xSrc 0 with cxSrc -3 takes columns -3 to -1 of a picture that has 0 to 2"),
            (with(&blend(), 48, n(-1)), "ySrc -1 with cySrc 2 takes rows -1 to 0 of a picture that has 0 to 1"),
            (with(&masked(), 36, 5), "ySrc 0 with cyDest 5 takes rows 0 to 4 of a picture that has 0 to 1"),
        ],
    );
}

#[test]
fn masks_of_a_mask_blit() {
    let grey = Record::new(MASKBLT, [0, 0, 3, 2], rop4(0xF0, 0xAA)).masked([0, 0], picture(24, &[])).bytes();
    say(
        13,
        &[
            (
                without_source(MASKBLT, rop4(0xF0, 0xAA)),
                "the record has no mask: offBmiMask, cbBmiMask, offBitsMask and cbBitsMask are 0",
            ),
            (grey, "the mask's biBitCount 24 is not 1"),
        ],
    );
}

/// A status that is none of the record's own, or that it does not call for, is told in general words.
#[test]
fn statuses_without_a_reason() {
    assert_eq!(refused(&stretch(), 14), "status 14: the journal has no room for this play");
    assert_eq!(refused(&stretch(), 13), "status 13: the mask is absent or not 1 bit deep");
    assert_eq!(reason(&stretch(), 0), None);
}
