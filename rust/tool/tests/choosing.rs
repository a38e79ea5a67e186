//! What is played: --only, --skip, --dry-run; and files that are mixed up.

mod common;

use common::*;

/// Four records: a brush, a blit that is not played, a mask and one that is refused.
fn prepared(name: &str) -> Folder {
    let folder = Folder::new(name);
    folder.put_sheet("sheet.png", &noisy_sheet(40, 30, true));
    folder.put_sheet("sheet.bmp", &noisy_sheet(40, 30, false));
    let (brush, mask) = (brush_record([2, 3, 10, 10]), mask_record([20, 0, 20, 30]));
    let mut refused = blend_record([0, 0, 5, 5], 0);
    refused[40] = 1;
    folder.put("all.emf", &emf(&[brush.clone(), bitblt_record(), mask.clone(), refused]));
    folder.put("brush.emf", &emf(&[brush]));
    folder.put("mask.emf", &emf(&[mask]));
    folder
}

#[test]
fn only_and_skip() {
    let folder = prepared("only_and_skip");
    let ended = folder.run("play sheet.png all.emf -o all.png").expect(2);
    assert!(ended.out.ends_with("2 played, 0 drew nothing, 1 refused, 1 skipped; wrote all.png\n"), "{ended:?}");
    let cases = [
        ("--only 1", 0, "1 played, 0 drew nothing, 0 refused, 0 skipped, 3 left out", "brush.emf"),
        ("--only 3", 0, "1 played, 0 drew nothing, 0 refused, 0 skipped, 3 left out", "mask.emf"),
        ("--skip 1,2,4", 0, "1 played, 0 drew nothing, 0 refused, 0 skipped, 3 left out", "mask.emf"),
        ("--skip 2,4", 0, "2 played, 0 drew nothing, 0 refused, 0 skipped, 2 left out", "brush.emf mask.emf"),
        ("--only 1,2", 2, "1 played, 0 drew nothing, 0 refused, 1 skipped, 2 left out", "brush.emf"),
        ("--only 1,4", 2, "1 played, 0 drew nothing, 1 refused, 0 skipped, 2 left out", "brush.emf"),
    ];
    for (option, code, summary, same) in cases {
        let ended = folder.run(&format!("play sheet.png all.emf -o some.png --force {option}")).expect(code);
        assert!(ended.out.ends_with(&format!("{summary}; wrote some.png\n")), "{ended:?}");
        folder.run(&format!("play sheet.png {same} -o same.png --force")).expect(0);
        assert!(folder.get("some.png") == folder.get("same.png"), "{option}");
    }
    // Leaving a bad record out by hand makes the rest whole.
    folder.run("play sheet.png all.emf -o strict.png --strict").expect(2);
    assert!(!folder.has("strict.png"));
    folder.run("play sheet.png all.emf -o strict.png --strict --skip 2,4").expect(0);
    folder
        .run("play sheet.png all.emf -o o.png --only 5")
        .fails("all.emf: there is no record 5: the file has 4 bitmap");
    folder.run("play sheet.png all.emf -o o.png --skip 0").fails("--skip needs numbers of records");
    folder.run("play sheet.png all.emf -o o.png --only 1 --skip 1").fails("--only and --skip leave no record to play");
    folder.run("play sheet.png mask.emf -o o.png --skip 2").fails("there is no record 2: the file has 1 bitmap record");
    folder.run("play sheet.png all.emf mask.emf -o o.png --only 1").fails("number the records of one EMF file");
    assert!(!folder.has("o.png"));
}

/// The journal records that a dry run asks for are those that the play then takes.
#[test]
fn a_dry_run_knows_the_room() {
    let folder = prepared("a_dry_run_knows_the_room");
    let before = folder.names();
    let ended = folder.run("play sheet.png brush.emf mask.emf --dry-run").expect(0);
    // 10 by 10 pixels, 20 by 30, and a closing record each.
    assert!(ended
        .out
        .contains("brush.emf: record 1 at offset 88: stretched DIB (EMR_STRETCHDIBITS, 0x51): 100 pixels\n"));
    assert!(ended.out.ends_with("skipped; 702 journal records needed; nothing was written\n"), "{ended:?}");
    assert_eq!(folder.names(), before);
    folder.run("play sheet.png brush.emf mask.emf -o out.png --journal j").expect(0);
    assert_eq!(folder.get("j").len(), 36 + 702 * 12);
    let ended = folder.run("play out.png mask.emf --dry-run --journal j -o more.png").expect(0);
    assert!(ended.out.ends_with("journal j has 19,999,298 records free\n"), "{ended:?}");
    // What a play would refuse to begin, a dry run does not pass either.
    folder.run("play sheet.png mask.emf --dry-run --journal j").fails("belongs to another sheet");
    folder.run("play out.png mask.emf --dry-run -o out.png").fails("--force");
    assert!(!folder.has("more.png"));
}

#[test]
fn a_dry_run_sees_a_full_journal() {
    let folder = Folder::new("a_dry_run_sees_a_full_journal");
    folder.put_sheet("sheet.bmp", &noisy_sheet(4096, 2600, false));
    folder.put("a.emf", &emf(&[brush_record([0, 0, 4096, 2600]), brush_record([0, 0, 4096, 2600])]));
    folder.run("play sheet.bmp a.emf --dry-run").expect(0);
    let ended = folder.run("play sheet.bmp a.emf --dry-run --journal j").expect(1);
    assert!(ended.out.contains("21,299,202 journal records needed"), "{ended:?}");
    assert!(ended.out.ends_with("journal j has 20,000,000 records free\n"), "{ended:?}");
    let words = "status 14: the journal has no room for these plays: it needs 21,299,202 records, and 20,000,000 of \
                 20,000,000 are free. Nothing was written. What helps: draw less with";
    assert!(ended.err.contains(words), "{ended:?}");
}

#[test]
fn mix_ups_are_told() {
    let folder = prepared("mix_ups_are_told");
    folder.put("photo.jpg", b"\xFF\xD8\xFF\xE0\0\x10JFIF");
    folder.put("photo.png", b"\xFF\xD8\xFF\xE0\0\x10JFIF");
    folder.put("packed.emf", b"\x1F\x8B\x08\0\0\0\0\0");
    folder.put("old.emf", b"\xD7\xCD\xC6\x9A\0\0");
    folder.put("empty.emf", b"");
    folder.put("renamed.bmp", &folder.get("sheet.png"));
    folder.put("renamed.png", &folder.get("sheet.bmp"));
    folder.put("bands.png", &folder.get("mask.emf"));
    let before = folder.names();
    folder.run("info sheet.png").fails("sheet.png: this is a PNG picture, not an EMF file");
    folder.run("info sheet.bmp").fails("sheet.bmp: this is a BMP picture, not an EMF file");
    folder
        .run("info packed.emf")
        .fails("this is a gzip file (an .emz file is a packed EMF file: unpack it first), not an EMF");
    folder.run("info old.emf").fails("old.emf: this is a WMF file, not an EMF file");
    folder.run("info empty.emf").fails("empty.emf: this is an empty file, not an EMF file");
    folder.run("play sheet.png sheet.bmp -o o.png").fails("sheet.bmp: this is a BMP picture, not an EMF file");
    folder
        .run("play mask.emf sheet.png -o o.png")
        .fails("mask.emf: this is an EMF file, not a sheet; the sheet comes first");
    folder.run("play bands.png mask.emf -o o.png").fails("bands.png: this is an EMF file, not a sheet");
    folder
        .run("play photo.jpg mask.emf -o o.png")
        .fails("photo.jpg: this is a JPEG picture; a sheet is a PNG or BMP picture");
    folder
        .run("play photo.png mask.emf -o o.png")
        .fails("photo.png: this is a JPEG picture; a sheet is a PNG or BMP picture");
    folder.run("play renamed.bmp mask.emf -o o.png").fails("renamed.bmp: this is a PNG picture under a .bmp name");
    folder.run("play renamed.png mask.emf -o o.png").fails("renamed.png: this is a BMP picture under a .png name");
    folder
        .run("play sheet.png mask.emf -o o.png --journal sheet.bmp")
        .fails("sheet.bmp: this is a BMP picture, not a journal");
    folder.run("undo sheet.png --journal mask.emf -o o.png").fails("mask.emf: this is an EMF file, not a journal");
    assert_eq!(folder.names(), before);
}
