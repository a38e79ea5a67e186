//! `lacrumont info` on whole files.

mod common;

use common::json::Json;
use common::*;
use records::bytes::{with, with_byte, words};
use records::operation::{blend_field, rop};
use records::{Record, ALPHABLEND, STRETCHDIBITS};

/// A 40-byte header and one row: 1 by 1, 24 bits.
const PIXEL: [u32; 11] = [40, 1, 1, 0x0018_0001, 0, 0, 0, 0, 0, 0, 0x00FF_FFFF];
const IDENTITY: [u32; 6] = [0x3F80_0000, 0, 0, 0x3F80_0000, 0, 0];
const BOUNDS: [u32; 4] = [0, 1, 2, 3];
/// Of every file that the tests make.
const HEADER: &str =
    "header: Bounds 0, 0, 4095, 4095; frame 40.95 by 40.95 mm; device 4096 by 4096 pixels, 1000 by 1000 mm\n";

/// A record of these fields behind Type, Size and Bounds.
fn made(kind: u32, fields: &[&[u32]]) -> Vec<u8> {
    let fields = fields.concat();
    let size = 24 + 4 * fields.len() as u32;
    [words(&[kind, size]), words(&BOUNDS), words(&fields)].concat()
}

/// EMR_BITBLT: 5 by 6 pixels of a picture of one.
fn bit_blit() -> Vec<u8> {
    let parts = [0, 0, 100, 40, 140, 4];
    made(0x4C, &[&[10, 20, 5, 6, 0x0088_00C6, 7, 8], &IDENTITY, &parts, &PIXEL])
}

/// EMR_PLGBLT without a mask.
fn tilted() -> Vec<u8> {
    let points = [0, 0, 30, 4, 5, 40];
    made(0x4F, &[&points, &[0, 0, 1, 1], &IDENTITY, &[0, 0, 140, 40, 180, 4], &[0; 7], &PIXEL])
}

/// EMR_STRETCHBLT without a source.
fn stretch_blit() -> Vec<u8> {
    made(0x4D, &[&[1, 2, 3, 4, 0x00F0_0021, 0, 0], &IDENTITY, &[0; 6], &[0, 0]])
}

/// EMR_TRANSPARENTBLT: all but red 255, green 0, blue 128.
fn transparent() -> Vec<u8> {
    made(0x74, &[&[1, 2, 3, 4, 0x0080_00FF, 0, 0], &IDENTITY, &[0, 0, 108, 40, 148, 4, 1, 1], &PIXEL])
}

/// EMR_SETDIBITSTODEVICE: one stored row.
fn set_bits() -> Vec<u8> {
    made(0x50, &[&[9, 8, 0, 0, 1, 1, 76, 40, 116, 4, 0, 0, 1], &PIXEL])
}

#[test]
fn played_records_are_told_in_full() {
    let folder = Folder::new("played_records_are_told_in_full");
    let records = [
        blend_record([3, 4, 20, 10], 0x8040_2010),
        other_record(),
        mask_record([0, 0, 33, 30]),
        brush_record([600, 29, -500, 500]),
    ];
    folder.put("a.emf", &emf(&records));
    let ended = folder.run("info a.emf").expect(0);
    let expected = "\
a.emf: 536 bytes
header: Bounds 0, 0, 4095, 4095; frame 40.95 by 40.95 mm; device 4096 by 4096 pixels, 1000 by 1000 mm
record 1 at offset 88: alpha blend (EMR_ALPHABLEND, 0x72), Size 152
  Bounds 0, 0, 4095, 4095; target 20 by 10 at 3, 4
  source 1 by 1 at 0, 0 of a picture 1 by 1, 32 bits, BI_RGB, 40-byte header
  operation: blend, constant alpha 255, alpha format 1
  status 0: can be played
record 2 at offset 252: mask blit (EMR_MASKBLT, 0x4E), Size 184
  Bounds 0, 0, 4095, 4095; target 33 by 30 at 0, 0
  no source picture
  mask from 0, 0 of a picture 8 by 2, 1 bit, BI_RGB, 40-byte header
  operation: foreground 0xF0 (PATCOPY) where the mask is 1, background 0xAA (DSTCOPY) where it is 0; uses the brush
  status 0: can be played
record 3 at offset 436: stretched DIB (EMR_STRETCHDIBITS, 0x51), Size 80
  Bounds 0, 0, 4095, 4095; target -500 by 500 at 600, 29
  no source picture
  operation: raster operation 0xF0 (PATCOPY); uses the brush
  status 0: can be played
3 bitmap records: 3 can be played, 0 would draw nothing, 0 would be refused, 0 of a type that is not played; 1 other record
";
    assert_eq!(ended.out, expected);
    assert_eq!(ended.err, "");
}

#[test]
fn types_that_are_not_played_are_listed() {
    let folder = Folder::new("types_that_are_not_played_are_listed");
    let records = [bit_blit(), tilted(), stretch_blit(), transparent(), set_bits(), brush_record([0, 0, 2, 2])];
    folder.put("a.emf", &emf(&records));
    let ended = folder.run("info a.emf").expect(2);
    let expected = "\
a.emf: 896 bytes
header: Bounds 0, 0, 4095, 4095; frame 40.95 by 40.95 mm; device 4096 by 4096 pixels, 1000 by 1000 mm
record 1 at offset 88: EMR_BITBLT (0x4C), Size 144
  Bounds 0, 1, 2, 3; target 5 by 6 at 10, 20
  source 5 by 6 at 7, 8 of a picture 1 by 1, 24 bits, BI_RGB, 40-byte header
  operation: raster operation 0x88 (SRCAND)
  not played: this tool plays EMR_ALPHABLEND, EMR_MASKBLT and EMR_STRETCHDIBITS
record 2 at offset 232: EMR_PLGBLT (0x4F), Size 184
  Bounds 0, 1, 2, 3; target a parallelogram with corners 0, 0; 30, 4; 5, 40
  source 1 by 1 at 0, 0 of a picture 1 by 1, 24 bits, BI_RGB, 40-byte header
  no mask picture
  operation: copy
  not played: this tool plays EMR_ALPHABLEND, EMR_MASKBLT and EMR_STRETCHDIBITS
record 3 at offset 416: EMR_STRETCHBLT (0x4D), Size 108
  Bounds 0, 1, 2, 3; target 3 by 4 at 1, 2
  no source picture
  operation: raster operation 0xF0 (PATCOPY); uses the brush
  not played: this tool plays EMR_ALPHABLEND, EMR_MASKBLT and EMR_STRETCHDIBITS
record 4 at offset 524: EMR_TRANSPARENTBLT (0x74), Size 152
  Bounds 0, 1, 2, 3; target 3 by 4 at 1, 2
  source 1 by 1 at 0, 0 of a picture 1 by 1, 24 bits, BI_RGB, 40-byte header
  operation: copy all but the transparent colour 255, 0, 128 (red, green, blue)
  not played: this tool plays EMR_ALPHABLEND, EMR_MASKBLT and EMR_STRETCHDIBITS
record 5 at offset 676: EMR_SETDIBITSTODEVICE (0x50), Size 120
  Bounds 0, 1, 2, 3; target 1 by 1 at 9, 8
  source 1 by 1 at 0, 0 of a picture 1 by 1, 24 bits, BI_RGB, 40-byte header
  operation: copy 1 stored row from row 0 on
  not played: this tool plays EMR_ALPHABLEND, EMR_MASKBLT and EMR_STRETCHDIBITS
record 6 at offset 796: stretched DIB (EMR_STRETCHDIBITS, 0x51), Size 80
";
    assert!(ended.out.starts_with(expected), "{}", ended.out);
    let summary =
        "6 bitmap records: 1 can be played, 0 would draw nothing, 0 would be refused, 5 of a type that is not played; 0 other records";
    assert_eq!(ended.out.lines().last(), Some(summary));
}

/// A blend of format 1 whose 40-byte header has BI_BITFIELDS.
fn no_alpha() -> Vec<u8> {
    let source = picture(1, 1, 32, &[], &[1, 2, 3, 4]).bitfields([0xFF_0000, 0xFF00, 0xFF, 0]);
    Record::new(ALPHABLEND, [0, 0, 5, 5], blend_field(255, 1)).from([0, 0, 1, 1], source).bytes()
}

#[test]
fn refused_records_are_told_with_the_reason() {
    let folder = Folder::new("refused_records_are_told_with_the_reason");
    let stretch = || stretch_record([0, 0, 4, 4], 0xCC);
    let records = [
        no_alpha(),
        with(&stretch(), 72, 6_772),
        with(&stretch(), 96, 1),
        with_byte(&blend_record([0, 0, 5, 5], 0), 40, 1),
        with(&stretch(), 56, 119),
        with(&blend_record([0, 0, 5, 5], 0), 52, 2f32.to_bits()),
        with(&stretch(), 64, 1),
        mask_record([5, 5, 3, 3]),
    ];
    folder.put("a.emf", &emf(&records));
    let ended = folder.run("info a.emf").expect(2);
    let statuses: Vec<&str> = ended.out.lines().map(str::trim).filter(|line| line.starts_with("status ")).collect();
    let expected = [
        "status 11: alpha format 1 needs an alpha; this header is 40 bytes, BI_BITFIELDS, and has no alpha mask",
        "status 12: cxDest 6772 is above 4096",
        "status 8: biCompression 1 (RLE8) is not played",
        "status 11: blend operation 1 is not 0 (source over target)",
        "status 21: offBmiSrc 80 with cbBmiSrc 40 and offBitsSrc 119 with cbBitsSrc 8 share byte 119",
        "status 7: XformSrc 2, 0, 0, 1, 0, 0 scales the source; only 1, 0, 0, 1, 0, 0 (as it is) is played",
        "status 7: UsageSrc 1 (DIB_PAL_COLORS) is not played: its colours are places in a palette outside the record; \
         only 0 (DIB_RGB_COLORS) is",
        "status 0: can be played",
    ];
    assert_eq!(statuses, expected);
    let lines = [
        "  source 1 by 1 at 0, 0 of a picture 1 by 1, 32 bits, BI_BITFIELDS, masks 0x00FF0000 0x0000FF00 0x000000FF, \
         40-byte header",
        "  Bounds 0, 0, 4095, 4095; target 6772 by 4 at 0, 0",
        "  source 2 by 1 at 0, 0 of a picture 2 by 1, 24 bits, BI_RLE8, 40-byte header",
        "  operation: blend operation 1, constant alpha 255, alpha format 1",
        "  XformSrc 2, 0, 0, 1, 0, 0",
        "  source 2 by 1 at 0, 0 of a picture 2 by 1, 24 bits, BI_RGB, 40-byte header, UsageSrc 1 (DIB_PAL_COLORS)",
        "8 bitmap records: 1 can be played, 0 would draw nothing, 7 would be refused, 0 of a type that is not played; 0 other records",
    ];
    for line in lines {
        assert!(ended.out.lines().any(|one| one == line), "{line} is not in {}", ended.out);
    }
}

#[test]
fn records_too_short_for_their_fields() {
    let folder = Folder::new("records_too_short_for_their_fields");
    let cut = |record: &[u8], length: usize| with(&record[..length], 4, length as u32);
    // Its picture's offset lies past the record's end.
    let headless = with(&stretch_record([0, 0, 4, 4], 0xCC), 48, 0xFFFF_FFF0);
    folder.put("a.emf", &emf(&[words(&[0x72, 8]), cut(&mask_record([0, 0, 3, 3]), 44), cut(&tilted(), 28), headless]));
    let expected = "\
a.emf: 316 bytes
header: Bounds 0, 0, 4095, 4095; frame 40.95 by 40.95 mm; device 4096 by 4096 pixels, 1000 by 1000 mm
record 1 at offset 88: alpha blend (EMR_ALPHABLEND, 0x72), Size 8
  cut off: 8 of the 108 bytes of its fixed part
  status 5: Size 8 is below 108, the fixed part of EMR_ALPHABLEND
record 2 at offset 96: mask blit (EMR_MASKBLT, 0x4E), Size 44
  Bounds 0, 0, 4095, 4095; target 3 by 3 at 0, 0
  cut off: 44 of the 128 bytes of its fixed part
  operation: foreground 0xF0 (PATCOPY) where the mask is 1, background 0xAA (DSTCOPY) where it is 0; uses the brush
  status 5: Size 44 is below 128, the fixed part of EMR_MASKBLT
record 3 at offset 140: EMR_PLGBLT (0x4F), Size 28
  Bounds 0, 1, 2, 3
  cut off: 28 of the 140 bytes of its fixed part
  operation: copy
  not played: this tool plays EMR_ALPHABLEND, EMR_MASKBLT and EMR_STRETCHDIBITS
record 4 at offset 168: stretched DIB (EMR_STRETCHDIBITS, 0x51), Size 128
  Bounds 0, 0, 4095, 4095; target 4 by 4 at 0, 0
  source 2 by 1 at 0, 0 of a picture whose header cannot be read
  operation: raster operation 0xCC (SRCCOPY)
  status 6: offBmiSrc 4294967280 and cbBmiSrc 40 end at 4294967320, past Size 128
4 bitmap records: 0 can be played, 0 would draw nothing, 3 would be refused, 1 of a type that is not played; 0 other records
";
    assert_eq!(folder.run("info a.emf").expect(2).out, expected);
    let records = &Json::parse(&folder.run("info a.emf --json").expect(2).out)["files"][0]["records"];
    for key in ["Bounds", "target", "source_rectangle", "XformSrc", "source", "mask_corner", "mask", "operation"] {
        assert_eq!(records[0][key], Json::Null, "{key}");
    }
    assert_eq!(records[2]["target"], Json::Null);
    assert_eq!(records[3]["source"]["header"], Json::Null);
}

#[test]
fn many_files_and_damaged_ones_among_them() {
    let folder = Folder::new("many_files_and_damaged_ones_among_them");
    folder.put("a.emf", &emf(&[brush_record([0, 0, 2, 2])]));
    folder.put("none.emf", &emf(&[other_record()]));
    let damaged = with(&emf(&[brush_record([0, 0, 2, 2]), bit_blit()]), 172, 6);
    folder.put("damaged.emf", &damaged);
    folder.put("empty.emf", b"");
    let ended = folder.run("info damaged.emf lost.emf a.emf empty.emf none.emf").expect(1);
    let block = "\
record 1 at offset 88: stretched DIB (EMR_STRETCHDIBITS, 0x51), Size 80
  Bounds 0, 0, 4095, 4095; target 2 by 2 at 0, 0
  no source picture
  operation: raster operation 0xF0 (PATCOPY); uses the brush
  status 0: can be played
";
    let counts = |playable| {
        format!("{playable} can be played, 0 would draw nothing, 0 would be refused, 0 of a type that is not played")
    };
    let (one, no) = (counts(1), counts(0));
    let expected = format!(
        "damaged.emf: 332 bytes\n{HEADER}{block}1 bitmap record before the damage: {one}; 0 other records\n\n\
         a.emf: 188 bytes\n{HEADER}{block}1 bitmap record: {one}; 0 other records\n\n\
         none.emf: 120 bytes\n{HEADER}warning: no bitmap record: nothing of this file is drawn\n\
         0 bitmap records: {no}; 1 other record\n"
    );
    assert_eq!(ended.out, expected);
    let told: Vec<&str> = ended.err.lines().collect();
    assert_eq!(told.len(), 3);
    assert_eq!(told[0], "lacrumont: damaged.emf is damaged: offset 168: the record's Size is 6; 8 is the least");
    assert!(told[1].starts_with("lacrumont: cannot read lost.emf: "));
    assert_eq!(told[2], "lacrumont: empty.emf: this is an empty file, not an EMF file");

    let ended = folder.run("info --json damaged.emf lost.emf a.emf empty.emf none.emf").expect(1);
    let files = &Json::parse(&ended.out)["files"];
    let errors: Vec<bool> = files.items().iter().map(|file| file["error"] != Json::Null).collect();
    assert_eq!(errors, [true, true, false, true, false]);
    let listed: Vec<usize> = files.items().iter().map(|file| file["records"].items().len()).collect();
    assert_eq!(listed, [1, 0, 1, 0, 0]);
    let words = "damaged.emf is damaged: offset 168: the record's Size is 6; 8 is the least";
    assert_eq!(files[0]["error"].text(), words);
    assert_eq!((&files[1]["bytes"], &files[3]["bytes"]), (&Json::Null, &Json::Null));
    assert_eq!((&files[1]["header"], &files[4]["header"]["Device"]["width"]), (&Json::Null, &Json::Number(4096.0)));
    assert_eq!(files[4]["summary"]["other_records"].number(), 1.0);
}

#[test]
fn exit_statuses() {
    let folder = Folder::new("exit_statuses");
    folder.put("fine.emf", &emf(&[brush_record([0, 0, 2, 2])]));
    folder.put("refused.emf", &emf(&[with(&brush_record([0, 0, 2, 2]), 72, 0)]));
    folder.put("other.emf", &emf(&[bit_blit()]));
    folder.put("nothing.emf", &emf(&[]));
    for flag in ["", " --json"] {
        folder.run(&format!("info fine.emf{flag}")).expect(0);
        folder.run(&format!("info fine.emf nothing.emf{flag}")).expect(3);
        folder.run(&format!("info nothing.emf other.emf{flag}")).expect(2);
        folder.run(&format!("info fine.emf refused.emf fine.emf{flag}")).expect(2);
        folder.run(&format!("info other.emf fine.emf{flag}")).expect(2);
        folder.run(&format!("info refused.emf lost.emf other.emf{flag}")).expect(1);
    }
    folder.run("info").fails("info needs one or more files");
    folder.run("info --json").fails("info needs one or more files");
    folder.run("info fine.emf --xml").fails("there is no option --xml");
    let help = folder.run("info --help").expect(0).out;
    for line in [
        "  1  an error of files or use",
        "  2  a bitmap record would be refused, or is of a type that is not played",
        "  3  there are warnings, or a record would draw nothing",
        "  0  every bitmap record can be played",
    ] {
        assert!(help.lines().any(|one| one == line), "{help}");
    }
}

#[test]
fn bytes_behind_the_end_are_told() {
    let folder = Folder::new("bytes_behind_the_end_are_told");
    let mut long = emf(&[brush_record([0, 0, 2, 2])]);
    long.extend([0; 5]);
    folder.put("long.emf", &long);
    let ended = folder.run("info long.emf --json").expect(3);
    let warnings = Json::parse(&ended.out)["files"][0]["warnings"].items().to_vec();
    assert_eq!(warnings.len(), 1);
    assert_eq!(warnings[0].text(), "5 bytes behind the EOF record not looked at");
}

#[test]
fn the_same_facts_as_json() {
    let folder = Folder::new("the_same_facts_as_json");
    let records = [blend_record([3, 4, 20, 10], 0x8040_2010), mask_record([0, 0, 33, 30]), no_alpha(), bit_blit()];
    folder.put("a.emf", &emf(&records));
    let text = folder.run("info a.emf --json").expect(2).out;
    let head = "{\"files\": [\n{\"file\": \"a.emf\", \"bytes\": 752, \
                \"header\": {\"Bounds\": {\"left\": 0, \"top\": 0, \"right\": 4095, \"bottom\": 4095}, \
                \"Frame\": {\"left\": 0, \"top\": 0, \"right\": 4095, \"bottom\": 4095}, \
                \"Device\": {\"width\": 4096, \"height\": 4096}, \"Millimeters\": {\"width\": 1000, \"height\": 1000}, \
                \"description\": []}, \"records\": [\n{\"number\": 1, \"offset\": 88, \
                \"type\": 114, \"type_name\": \"EMR_ALPHABLEND\", \"Size\": 152, \"fixed_part\": 108, \
                \"Bounds\": {\"left\": 0, \"top\": 0, \"right\": 4095, \"bottom\": 4095}, \
                \"target\": {\"x\": 3, \"y\": 4, \"cx\": 20, \"cy\": 10}, \
                \"source_rectangle\": {\"x\": 0, \"y\": 0, \"cx\": 1, \"cy\": 1}, \
                \"XformSrc\": [1, 0, 0, 1, 0, 0], \
                \"source\": {\"usage\": 0, \"usage_name\": \"DIB_RGB_COLORS\", \
                \"header_part\": {\"offset\": 108, \"size\": 40}, \"bits_part\": {\"offset\": 148, \"size\": 4}, \
                \"header\": {\"biSize\": 40, \"biWidth\": 1, \"biHeight\": 1, \"biPlanes\": 1, \"biBitCount\": 32, \
                \"biCompression\": 0, \"compression_name\": \"BI_RGB\", \"biClrUsed\": 0, \"masks\": null}}, \
                \"mask_corner\": null, \"mask\": null, \
                \"operation\": {\"kind\": \"blend\", \"operation\": 0, \"flags\": 119, \"constant_alpha\": 255, \
                \"format\": 1}, \"uses_brush\": false, \"verdict\": \"can be played\", \"status\": 0, \
                \"reason\": null},\n{\"number\": 2, ";
    assert!(text.starts_with(head), "{text}");
    let tail = "], \"summary\": {\"bitmap_records\": 4, \"can_be_played\": 2, \"would_draw_nothing\": 0, \
                \"would_be_refused\": 1, \"not_played\": 1, \"other_records\": 0}, \"warnings\": [], \"error\": null}\n]}\n";
    assert!(text.ends_with(tail), "{text}");

    let parsed = Json::parse(&text);
    let listed = parsed["files"][0]["records"].items();
    let [blend, mask, refused, blit] = listed else { panic!("{text}") };
    assert!(listed.iter().all(|record| record.keys() == blend.keys()));
    let numbers = |record: &Json, keys: [&str; 4]| keys.map(|key| record[key].number());
    let operation = &mask["operation"];
    assert_eq!((operation["kind"].text(), operation["field"].number()), ("ROP4", f64::from(0xAAF0_1234u32)));
    assert_eq!((operation["foreground"].number(), operation["foreground_name"].text()), (240.0, "PATCOPY"));
    assert_eq!((operation["background"].number(), operation["background_name"].text()), (170.0, "DSTCOPY"));
    let picture = &mask["mask"]["header"];
    assert_eq!(numbers(picture, ["biWidth", "biHeight", "biBitCount", "biSize"]), [8.0, 2.0, 1.0, 40.0]);
    assert_eq!((&mask["source"], &mask["uses_brush"]), (&Json::Null, &Json::Bool(true)));
    assert_eq!((refused["verdict"].text(), refused["status"].number()), ("would be refused", 11.0));
    let reason = "alpha format 1 needs an alpha; this header is 40 bytes, BI_BITFIELDS, and has no alpha mask";
    assert_eq!(refused["reason"].text(), reason);
    assert_eq!(refused["source"]["header"]["masks"]["red"].number(), f64::from(0xFF_0000));
    assert_eq!((blit["type_name"].text(), blit["verdict"].text()), ("EMR_BITBLT", "not played"));
    assert_eq!((blit["status"].number(), blit["operation"]["raster_name"].text()), (4.0, "SRCAND"));
    assert_eq!(numbers(&blit["source_rectangle"], ["x", "y", "cx", "cy"]), [7.0, 8.0, 5.0, 6.0]);
}

/// The program that made a file often says so in its header. No character of that acts on a terminal.
#[test]
fn the_header_tells_who_made_the_file() {
    let folder = Folder::new("the_header_tells_who_made_the_file");
    let text: Vec<u16> = "Snow\u{1B}[2J 3\0bands\0\0".encode_utf16().collect();
    let tail: Vec<u8> = text.iter().flat_map(|character| character.to_le_bytes()).collect();
    let plain = emf(&[brush_record([0, 0, 2, 2])]);
    let header = with(&with(&with(&plain[..88], 4, 88 + tail.len() as u32), 60, text.len() as u32), 64, 88);
    let header = with(&with(&header, 24, -1000i32 as u32), 84, 500);
    folder.put("a.emf", &[&header, &tail, &plain[88..]].concat());
    let ended = folder.run("info a.emf").expect(0);
    let line = "header: Bounds 0, 0, 4095, 4095; frame 50.95 by 40.95 mm; device 4096 by 4096 pixels, 1000 by 500 mm; \
                \"Snow\\u{1b}[2J 3\"; \"bands\"";
    assert_eq!(ended.out.lines().nth(1), Some(line));
    let parsed = Json::parse(&folder.run("info a.emf --json").expect(0).out);
    let header = &parsed["files"][0]["header"];
    let told: Vec<&str> = header["description"].items().iter().map(Json::text).collect();
    assert_eq!(told, ["Snow\u{1B}[2J 3", "bands"]);
    assert_eq!((header["Frame"]["left"].number(), header["Millimeters"]["height"].number()), (-1000.0, 500.0));
}

/// Floats that JSON has no number for, and every type at once.
#[test]
fn json_is_json_whatever_the_records_are() {
    let folder = Folder::new("json_is_json_whatever_the_records_are");
    let strange = [f32::NAN, f32::INFINITY, f32::MAX, f32::from_bits(1), -0.0];
    let mut records: Vec<Vec<u8>> =
        strange.iter().map(|number| with(&blend_record([0, 0, 5, 5], 0), 56, number.to_bits())).collect();
    records.extend([bit_blit(), tilted(), stretch_blit(), transparent(), set_bits()]);
    for kind in [0x4C, 0x4D, 0x4E, 0x4F, 0x50, 0x51, 0x72, 0x74] {
        for length in (8..=148).step_by(20) {
            let mut bytes = words(&[kind, length]);
            bytes.resize(length as usize, 0xFF);
            records.push(bytes);
        }
    }
    folder.put("a.emf", &emf(&records));
    let parsed = Json::parse(&folder.run("info --json a.emf").expect(2).out);
    let listed = parsed["files"][0]["records"].items();
    assert_eq!(listed.len(), records.len());
    let moved: Vec<&Json> = listed[..5].iter().map(|record| &record["XformSrc"][1]).collect();
    assert_eq!([moved[0].text(), moved[1].text()], ["NaN", "inf"]);
    assert_eq!([moved[2].number() as f32, moved[3].number() as f32], [f32::MAX, f32::from_bits(1)]);
    assert_eq!(moved[4].number(), 0.0);
    let numbers: Vec<f64> = listed.iter().map(|record| record["number"].number()).collect();
    assert!(numbers.iter().enumerate().all(|(place, number)| *number == place as f64 + 1.0));
    folder.run("info a.emf").expect(2);
}

#[cfg(unix)]
#[test]
fn names_that_json_cannot_write() {
    use std::ffi::OsStr;
    use std::os::unix::ffi::OsStrExt;
    use std::process::Command;

    let folder = Folder::new("names_that_json_cannot_write");
    let names = [&b"\xFF\xFEmap.emf"[..], b"a \"b\"\\\n.emf", "höhe.emf".as_bytes()].map(OsStr::from_bytes);
    let record = Record::new(STRETCHDIBITS, [0, 0, 2, 2], rop(0xF0)).bytes();
    for name in names {
        std::fs::write(folder.path(".").join(name), emf(std::slice::from_ref(&record))).unwrap();
    }
    let mut tool = Command::new(env!("CARGO_BIN_EXE_lacrumont"));
    let ended = tool.args(["info", "--json"]).args(names).current_dir(folder.path(".")).output().unwrap();
    assert_eq!(ended.status.code(), Some(0));
    let parsed = Json::parse(&String::from_utf8(ended.stdout).unwrap());
    let told: Vec<&str> = parsed["files"].items().iter().map(|file| file["file"].text()).collect();
    assert_eq!(told, ["\u{FFFD}\u{FFFD}map.emf", "a \"b\"\\\n.emf", "höhe.emf"]);
}
