//! The commands on whole files.

mod common;

use common::*;
use lacrumont_tool::sheet::Sheet;
use records::bytes::words;

/// A folder with sheet.png, sheet.bmp (24 bits), deep.bmp (32 bits) and some EMF files.
fn prepared(name: &str) -> Folder {
    let folder = Folder::new(name);
    folder.put_sheet("sheet.png", &noisy_sheet(40, 30, true));
    folder.put_sheet("sheet.bmp", &noisy_sheet(41, 30, false));
    folder.put_sheet("deep.bmp", &noisy_sheet(43, 31, true));
    folder
        .put("a.emf", &emf(&[blend_record([3, 4, 20, 10], 0x8040_2010), other_record(), mask_record([0, 0, 33, 30])]));
    folder.put("b.emf", &emf(&[stretch_record([10, 2, 25, 27], 0x88), brush_record([39, 29, 1, 1])]));
    let mut wrong = blend_record([0, 0, 5, 5], 0);
    wrong[40] = 1;
    folder.put("refused.emf", &emf(&[brush_record([0, 0, 2, 2]), wrong, mask_record([5, 5, 3, 3])]));
    folder
}

fn pixel(sheet: &Sheet, x: u32, y: u32) -> u32 {
    sheet.surface.pixels[(y * sheet.surface.width + x) as usize]
}

#[test]
fn help_and_version() {
    let folder = Folder::new("help_and_version");
    let version = folder.run("--version").expect(0).out;
    assert_eq!(version, format!("lacrumont {}\n", env!("CARGO_PKG_VERSION")));
    assert!(folder.run("--help").expect(0).out.contains("lacrumont play SHEET"));
    for command in ["info", "play", "undo", "journal"] {
        let help = folder.run(&format!("{command} --help")).expect(0).out;
        assert!(help.starts_with(&format!("lacrumont {command} ")) && help.contains("Exit status"));
        assert!(help.lines().all(|line| line.chars().count() <= 120));
    }
}

#[test]
fn wrong_use() {
    let folder = prepared("wrong_use");
    let before = folder.names();
    folder.run("").fails("no command is given");
    folder.run("draw").fails("there is no command draw");
    folder.run("info").fails("info needs one or more files");
    folder.run("play sheet.png -o out.png").fails("one or more EMF files");
    folder.run("play sheet.png a.emf").fails("-o OUT is missing");
    folder.run("play sheet.png a.emf -o out.jpg").fails(".png or .bmp");
    folder.run("play sheet.png a.emf -o out.png --clip 1,2,3").fails("--clip needs four whole numbers");
    folder.run("play sheet.png a.emf -o out.png --brush red").fails("--brush needs six hexadecimal digits");
    folder.run("play sheet.png a.emf -o out.png --quick").fails("there is no option --quick");
    folder.run("play none.png a.emf -o out.png").fails("cannot read none.png");
    folder.run("play sheet.png none.emf -o out.png").fails("cannot read none.emf");
    folder.run("play a.emf a.emf -o out.png").fails("this is an EMF file, not a sheet");
    folder.run("play sheet.png a.emf -o nowhere/out.png").fails("cannot write nowhere/out.png");
    folder.run("undo sheet.png -o out.png").fails("--journal FILE is missing");
    folder.run("undo sheet.png --journal j").fails("-o OUT is missing");
    folder.run("undo sheet.png --journal j -o out.png").fails("cannot read j");
    folder.run("undo sheet.png --journal j -o out.png --plays 0").fails("a number from 1 on");
    folder.run("undo sheet.png --journal j -o out.png --plays 1 --all").fails("cannot go together");
    folder.run("play sheet.png a.emf -o out.png --new-journal").fails("--new-journal needs --journal FILE");
    folder.run("journal sheet.png").fails("--journal FILE is missing");
    folder.run("journal --journal j").fails("journal needs one sheet");
    folder.run("journal sheet.png --journal j").fails("cannot read j");
    assert_eq!(folder.names(), before);
}

#[test]
fn damaged_files_are_errors() {
    let folder = prepared("damaged_files_are_errors");
    let damage = |at: usize, value: u32| {
        let mut file = emf(&[brush_record([0, 0, 2, 2]), brush_record([0, 0, 2, 2])]);
        file[at..at + 4].copy_from_slice(&value.to_le_bytes());
        file
    };
    let cut = |length: usize| emf(&[brush_record([0, 0, 2, 2])])[..length].to_vec();
    let cases = [
        (damage(172, 0), "offset 168: the record's Size is 0; 8 is the least"),
        (damage(172, 82), "offset 168: the record's Size is 82, not a multiple of 4"),
        (damage(172, 104), "offset 168: the record's Size is 104, but the file has 100 bytes left"),
        (damage(172, 0xFFFF_FFFC), "but the file has 100 bytes left"),
        (damage(0, 2), "the first record has type 2, not 1 (header)"),
        (damage(40, 0), "no \" EMF\" at byte 40"),
        (damage(248, 15), "the file ends at 268 without an EOF record (type 14)"),
        (cut(170), "offset 168: 2 bytes left, too few for a record"),
        (cut(7), "offset 0: 7 bytes left, too few for a record"),
        (cut(0), "this is an empty file, not an EMF file"),
    ];
    for (file, words) in cases {
        folder.put("damaged.emf", &file);
        folder.run("info damaged.emf").fails(words);
        // The file before it is whole, but nothing of it may be drawn either.
        folder.run("play sheet.png a.emf damaged.emf -o out.png --journal j").fails(words);
        assert!(!folder.has("out.png") && !folder.has("j"));
    }
}

#[test]
fn plays_draw_what_the_records_say() {
    let folder = prepared("plays_draw_what_the_records_say");
    let before = folder.get_sheet("sheet.png");
    folder.put("one.emf", &emf(&[brush_record([2, 3, 10, 10])]));
    let ended = folder.run("play sheet.png one.emf -o out.png --brush #3060C0 --clip=-9,5,6,7").expect(0);
    assert!(
        ended.out.contains("one.emf: record 1 at offset 88: stretched DIB (EMR_STRETCHDIBITS, 0x51): 8 pixels\n"),
        "{ended:?}"
    );
    assert!(ended.out.contains("1 played, 0 drew nothing, 0 refused, 0 skipped; wrote out.png"));
    assert!(ended.err.is_empty());
    let after = folder.get_sheet("out.png");
    for y in 0..30 {
        for x in 0..40 {
            let drawn = (2..6).contains(&x) && (5..7).contains(&y);
            let old = pixel(&before, x, y);
            assert_eq!(pixel(&after, x, y), if drawn { old & 0xFF00_0000 | 0x3060C0 } else { old });
        }
    }
    // Format 1 with a clear pixel keeps all; with a solid one it copies.
    folder.put("two.emf", &emf(&[blend_record([0, 0, 40, 30], 0), blend_record([1, 1, 1, 1], 0xFF12_3456)]));
    folder.run("play sheet.png two.emf -o two.png").expect(0);
    let after = folder.get_sheet("two.png");
    assert_eq!(pixel(&after, 1, 1), 0xFF12_3456);
    assert_eq!(pixel(&after, 2, 1), pixel(&before, 2, 1));
    // The mask's top row is 0xAA: the brush at columns 0, 2, 4, 6.
    folder.put("mask.emf", &emf(&[mask_record([0, 0, 40, 1])]));
    folder.run("play sheet.bmp mask.emf -o mask.bmp --brush 010203").expect(0);
    let (before, after) = (folder.get_sheet("sheet.bmp"), folder.get_sheet("mask.bmp"));
    for x in 0..40 {
        let new = if x % 2 == 0 { 0xFF01_0203 } else { pixel(&before, x, 0) };
        assert_eq!(pixel(&after, x, 0), new);
    }
}

/// Plays, then all taken back: the file is the one at the beginning, byte for byte.
#[test]
fn undo_gives_the_sheet_back() {
    let folder = prepared("undo_gives_the_sheet_back");
    for (sheet, ending) in [("sheet.png", "png"), ("sheet.bmp", "bmp"), ("deep.bmp", "bmp")] {
        let run = |text: &str| folder.run(&text.replace("EXT", ending));
        let ended = run(&format!("play {sheet} a.emf b.emf -o after.EXT --journal j --brush 905010")).expect(0);
        assert!(ended.out.contains("4 played, 0 drew nothing, 0 refused, 0 skipped"));
        assert!(ended.out.contains("journal j holds 4 plays"));
        assert_ne!(folder.get(&format!("after.{ending}")), folder.get(sheet));
        let ended = run("undo after.EXT --journal j -o undone.EXT --all").expect(0);
        assert!(ended.out.contains("4 plays taken back; wrote undone."));
        assert_eq!(folder.get(&format!("undone.{ending}")), folder.get(sheet));
        // The emptied journal belongs to the sheet and can be continued.
        assert_eq!(folder.get("j").len(), 36);
        run("undo undone.EXT --journal j -o none.EXT").fails("status 15: the journal holds no play");
        run("play undone.EXT b.emf -o after.EXT --journal j --force").expect(0);
        run("undo after.EXT --journal j -o undone.EXT --all --force").expect(0);
        assert_eq!(folder.get(&format!("undone.{ending}")), folder.get(sheet));
        for name in ["j".to_string(), format!("after.{ending}"), format!("undone.{ending}")] {
            std::fs::remove_file(folder.path(&name)).unwrap();
        }
    }
}

/// A journal goes on over several runs, also between the formats, and is taken back step by step.
#[test]
fn a_journal_is_continued() {
    let folder = prepared("a_journal_is_continued");
    folder.run("play sheet.png a.emf -o 1.bmp --journal j").expect(0);
    let ended = folder.run("play 1.bmp b.emf -o 2.png --journal j --brush 777777").expect(0);
    assert!(ended.out.contains("2 played, 0 drew nothing, 0 refused") && ended.out.contains("journal j holds 4 plays"));
    let journal = folder.get("j");
    folder.run("undo 2.png --journal j -o 3.png --plays 5").fails("j holds 4 plays, fewer than the 5 asked for");
    assert!(folder.get("j") == journal && !folder.has("3.png"));
    let ended = folder.run("undo 2.png --journal j -o 3.png").expect(0);
    assert!(ended.out.contains("play 4 taken back: 1 pixel\n"), "{ended:?}");
    folder.run("undo 3.png --journal j -o 4.bmp").expect(0);
    assert_eq!(folder.get_sheet("4.bmp").surface, folder.get_sheet("1.bmp").surface);
    assert!(folder.run("undo 4.bmp --journal j -o 5.png --plays 2").expect(0).out.contains("holds 0 plays"));
    assert_eq!(folder.get("5.png"), folder.get("sheet.png"));
    // A 24-bit BMP comes back as one, even by way of a PNG.
    folder.run("play sheet.bmp b.emf -o 6.png --journal k").expect(0);
    folder.run("undo 6.png --journal k -o 7.bmp --all").expect(0);
    assert_eq!(folder.get("7.bmp"), folder.get("sheet.bmp"));
}

#[test]
fn refused_records_are_skipped() {
    let folder = prepared("refused_records_are_skipped");
    let ended = folder.run("play sheet.png refused.emf b.emf -o out.png --journal j").expect(2);
    assert!(ended
        .err
        .contains("refused.emf: record 2 at offset 168: alpha blend (EMR_ALPHABLEND, 0x72): refused, status 11: "));
    assert!(ended.out.contains("4 played, 0 drew nothing, 1 refused, 0 skipped"));
    folder.run("undo out.png --journal j -o undone.png --all").expect(0);
    assert_eq!(folder.get("undone.png"), folder.get("sheet.png"));
    assert_eq!(folder.names().iter().filter(|name| name.contains("tmp")).count(), 0);
}

#[test]
fn nothing_is_overwritten_without_force() {
    let folder = prepared("nothing_is_overwritten_without_force");
    folder.put("out.png", b"mine");
    folder.run("play sheet.png a.emf -o out.png --journal j").fails("out.png is already there; --force");
    assert_eq!(folder.get("out.png"), b"mine");
    assert!(!folder.has("j"));
    folder.run("play sheet.png a.emf -o out.png --journal j --force").expect(0);
    folder.put("undone.png", b"mine");
    let journal = folder.get("j");
    folder.run("undo out.png --journal j -o undone.png").fails("undone.png is already there; --force");
    assert!(folder.get("undone.png") == b"mine" && folder.get("j") == journal);
    // The sheet itself, too, is only written over by --force.
    let sheet = folder.get("sheet.png");
    folder.run("play sheet.png a.emf -o sheet.png").fails("--force");
    assert_eq!(folder.get("sheet.png"), sheet);
    folder.run("play sheet.png a.emf -o sheet.png --force --journal k").expect(0);
    assert_ne!(folder.get("sheet.png"), sheet);
    folder.run("undo sheet.png -o sheet.png --force --journal k --all").expect(0);
    assert_eq!(folder.get("sheet.png"), sheet);
    // A journal is not even written over by --force, and a link to nothing is no place for a file.
    std::fs::rename(folder.path("j"), folder.path("journal.png")).unwrap();
    for command in ["play sheet.png a.emf", "undo out.png --journal k"] {
        let command = format!("{command} -o journal.png --force");
        folder.run(&command).fails("journal.png is a journal and is not written over");
    }
    std::os::unix::fs::symlink("nowhere.png", folder.path("link.png")).unwrap();
    folder.run("play sheet.png a.emf -o link.png --force").fails("link.png is a link to nothing");
    // A folder is no file to write.
    std::fs::create_dir(folder.path("dir.png")).unwrap();
    folder.run("play sheet.png a.emf -o dir.png --force").fails("dir.png is a folder");
    assert_eq!(folder.names().iter().filter(|name| name.contains("tmp")).count(), 0);
}

#[test]
fn one_file_has_one_part() {
    let folder = prepared("one_file_has_one_part");
    folder.put("bands.png", &folder.get("a.emf"));
    folder.run("play sheet.png bands.png -o ./bands.png --force").fails("an EMF file and OUT at once");
    folder.run("play sheet.png a.emf -o out.png --journal ./out.png").fails("the journal and OUT at once");
    folder.run("play sheet.png a.emf -o o.png --journal sheet.png --force").fails("the journal and the sheet at once");
    folder.run("play sheet.png a.emf -o o.png --journal a.emf --force").fails("the journal and an EMF file at once");
    folder.run("undo sheet.png --journal sheet.png -o out.png").fails("the journal and the sheet at once");
    folder.run("undo sheet.png --journal ./out.png -o out.png").fails("the journal and OUT at once");
    // Not a journal: kept, whatever is asked for.
    let both = "--force --new-journal";
    folder
        .run(&format!("play sheet.png a.emf -o o.png --journal b.emf {both}"))
        .fails("b.emf: this is an EMF file, not a journal");
    folder.run("undo sheet.png --journal b.emf -o o.png").fails("b.emf: this is an EMF file, not a journal");
    assert!(!folder.has("o.png") && !folder.has("out.png"));
}

#[test]
fn a_wrong_journal_changes_nothing() {
    let folder = prepared("a_wrong_journal_changes_nothing");
    folder.run("play sheet.png a.emf -o out.png --journal j").expect(0);
    let journal = folder.get("j");
    folder.run("undo sheet.png --journal j -o undone.png").fails("the journal belongs to another sheet");
    folder.run("undo sheet.bmp --journal j -o undone.png").fails("its surface is 40 by 30 pixels, this one 41 by 30");
    folder.run("play sheet.png b.emf -o more.png --journal j").fails("belongs to another sheet");
    folder.run("undo sheet.png --journal j -o undone.png --force").fails("Nothing was changed");
    assert!(!folder.has("undone.png") && !folder.has("more.png"));
    // A damaged journal.
    let mut damaged = journal.clone();
    damaged[60] ^= 1;
    folder.put("j", &damaged);
    folder.run("undo out.png --journal j -o undone.png").fails("the journal is damaged");
    folder.put("j", &journal[..journal.len() - 1]);
    folder.run("undo out.png --journal j -o undone.png").fails("length is not what its count in use says");
    folder.put("j", &journal);
    // Only --new-journal begins a journal anew, and it throws none away.
    folder.run("play sheet.png b.emf -o more.png --journal j --force").fails("--new-journal begins one and keeps");
    assert!(folder.get("j") == journal && !folder.has("more.png"));
    let ended = folder.run("play sheet.png b.emf -o more.png --journal j --new-journal").expect(0);
    assert!(ended.err.contains("is kept as j.1") && ended.out.contains("journal j holds 2 plays"), "{ended:?}");
    assert_eq!(folder.get("j.1"), journal);
    folder.run("undo more.png --journal j -o undone.png --all").expect(0);
    assert_eq!(folder.get("undone.png"), folder.get("sheet.png"));
}

/// Where standard output fails and the files are written, the exit status does not say that they are not.
#[test]
fn a_full_standard_output() {
    let folder = prepared("a_full_standard_output");
    folder.put("one.emf", &emf(&[stretch_record([0, 0, 4, 4], 0xCC)]));
    let full = |code: i32, arguments: &str| folder.run_after("exec >/dev/full", arguments).expect(code).err;
    let words = "cannot write to standard output: No space left on device (os error 28)\n";
    let warning = format!("lacrumont: warning: {words}");
    assert_eq!(full(3, "play sheet.png one.emf -o out.png --journal j"), warning);
    assert_eq!(full(3, "undo out.png -o undone.png --journal j"), warning);
    assert_eq!(folder.get_sheet("undone.png").surface, folder.get_sheet("sheet.png").surface);
    for listing in ["info one.emf", "journal undone.png --journal j"] {
        assert_eq!(full(1, listing), format!("lacrumont: {words}"));
    }
    assert!(full(2, "play sheet.png refused.emf -o refused.png --brush 000000").ends_with(&warning));
    // Where there was nothing to write, it is an error.
    for listing in ["play --help", "play sheet.png one.emf --dry-run"] {
        assert_eq!(full(1, listing), format!("lacrumont: {words}"));
    }
}

/// What a clip cuts off is meant to be; what the sheet's end cuts off is told, with a clip too.
#[test]
fn half_a_layer_is_told() {
    let folder = prepared("half_a_layer_is_told");
    folder.put("half.emf", &emf(&[stretch_record([30, 20, 20, 20], 0xCC), stretch_record([45, 25, -20, -20], 0xCC)]));
    let ended = folder.run("play sheet.png half.emf -o out.png").expect(3);
    let line = |number: u32, offset: u32, words: &str| {
        let name = "stretched DIB (EMR_STRETCHDIBITS, 0x51)";
        format!(
            "lacrumont: warning: half.emf: record {number} at offset {offset}: {name}: only {words} lie on the sheet\n"
        )
    };
    let whole = "of its target's 400 pixels";
    assert_eq!(ended.err, line(1, 88, &format!("100 {whole}")) + &line(2, 216, &format!("300 {whole}")));
    for clip in ["0,0,35,25", "0,0,40,30", "-9,-9,40,30"] {
        let ended = folder.run(&format!("play sheet.png half.emf -o out.png --force --clip {clip}")).expect(0);
        assert_eq!(ended.err, "", "{clip}");
    }
    let ended = folder.run("play sheet.png half.emf -o out.png --force --clip -9,-9,42,99").expect(3);
    let clipped = |drawn, all| format!("{drawn} of the clipped target's {all} pixels");
    assert_eq!(ended.err, line(1, 88, &clipped(100, 240)) + &line(2, 216, &clipped(300, 340)));
}

/// A name does not make two lines of one, and does not act on a terminal.
#[test]
fn names_stay_on_their_line() {
    let folder = prepared("names_stay_on_their_line");
    let name = "a\u{1B}[31m\nlacrumont: 9 played.emf";
    folder.put(name, &emf(&[bitblt_record()]));
    let run = |arguments: [&str; 5]| Ended::of(folder.command("").args(arguments).output().unwrap());
    let ended = run(["play", "sheet.png", name, "-o", "out.png"]);
    let shown = "a\\u{1b}[31m\\nlacrumont: 9 played.emf";
    assert_eq!(
        ended.err,
        format!("lacrumont: warning: {shown}: 1 record of type EMR_BITBLT (0x4C) not played: record 1\n")
    );
    let ended = run(["info", name, "a.emf", "b.emf", "refused.emf"]);
    assert!(ended.out.starts_with(&format!("{shown}: 208 bytes\n")), "{ended:?}");
    // A value behind = need not be Unicode.
    use std::os::unix::ffi::OsStrExt;
    let mut command = folder.command("play sheet.png b.emf -o journaled.png");
    let ended = command.arg(std::ffi::OsStr::from_bytes(b"--journal=j\xFF")).output().unwrap();
    assert_eq!(ended.status.code(), Some(0));
    assert!(folder.path("").join(std::ffi::OsStr::from_bytes(b"j\xFF")).exists());
}

/// However often a file saves its state, and whatever stands in it then.
#[test]
fn a_file_cannot_fill_the_memory() {
    let folder = Folder::new("a_file_cannot_fill_the_memory");
    let (clip, save) = (words(&[30, 24, 0, 0, 5, 5]), words(&[33, 8]));
    let mut records = [clip, save].concat().repeat(40_000);
    records.extend(stretch_record([0, 0, 4, 4], 0xCC).repeat(5_000));
    folder.put("a.emf", &emf(&[records]));
    let ended = folder.run_after("ulimit -v 1000000", "info a.emf").expect(3);
    let warning = "EMR_INTERSECTCLIPRECT, in force at records 1 to 5000: the file's clip is not honoured";
    assert!(ended.out.contains(warning));
    // The state saved first is found again, by its number or one by one; the one before it never was saved.
    let restore = |number: i32| words(&[34, 12, number as u32]);
    let saved = [words(&[33, 8]), [words(&[30, 24, 0, 0, 5, 5]), words(&[33, 8])].concat().repeat(20_000)].concat();
    let drawn = stretch_record([0, 0, 4, 4], 0xCC);
    for (back, code) in [(restore(1), 0), (restore(-20_001), 0), (restore(-1).repeat(20_001), 0), (restore(-1), 3)] {
        folder.put("saved.emf", &emf(&[saved.clone(), back, drawn.clone()]));
        folder.run("info saved.emf").expect(code);
    }
}

#[test]
fn a_failure_leaves_no_half_file() {
    let folder = prepared("a_failure_leaves_no_half_file");
    let before = folder.names();
    folder.run("play sheet.png a.emf -o out.png --journal nowhere/j").fails("cannot write nowhere/j");
    assert_eq!(folder.names(), before);
}

/// Two plays over a large surface are more than a journal holds; without a journal they are no trouble.
#[test]
fn a_full_journal_is_an_error() {
    let folder = Folder::new("a_full_journal_is_an_error");
    folder.put_sheet("sheet.bmp", &noisy_sheet(4096, 2600, false));
    folder.put("a.emf", &emf(&[brush_record([0, 0, 4096, 2600]), brush_record([0, 0, 4096, 2600])]));
    let ended = folder.run("play sheet.bmp a.emf -o out.bmp --journal j").expect(1);
    assert!(ended.err.contains("status 14: the journal has no room"), "{ended:?}");
    assert!(ended
        .err
        .contains("it needs 10,649,601 records, and 9,350,399 of 20,000,000 are free. Nothing was written"));
    // A new journal would have no more room.
    assert!(ended.err.ends_with("What helps: draw less with --clip, --only or --skip, or play without --journal\n"));
    assert_eq!(folder.names(), ["a.emf", "sheet.bmp"]);
    folder.run("play sheet.bmp a.emf -o out.bmp").expect(0);
    folder.run("play sheet.bmp a.emf -o once.bmp --journal j --only 1").expect(0);
    let ended = folder.run("play once.bmp a.emf -o twice.bmp --journal j --only 1").expect(1);
    assert!(ended
        .err
        .contains("What helps: take plays back with undo, begin another journal with --new-journal (this"));
    let ended = folder.run("play once.bmp a.emf --dry-run --journal j --only 1").expect(1);
    assert!(ended.err.contains("status 14: the journal has no room for these plays: it needs 10,649,601 records"));
}
