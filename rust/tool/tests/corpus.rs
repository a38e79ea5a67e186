//! Files as other people's programs write them (tests/corpus): what the tool says of each, and its exit status.

mod common;

use std::fs;
use std::path::Path;

use common::json::Json;
use common::*;

/// A file of the corpus: its exit status, what became of its records (played, drew nothing, refused, skipped), and the
/// lines on standard error, in order, each by words that stand in it.
struct Case(&'static str, i32, [u32; 4], &'static [&'static str]);

const CASES: &[Case] = &[
    Case("good", 0, [3, 0, 0, 0], &[]),
    Case(
        "inverted-bounds",
        3,
        [0, 2, 0, 0],
        &[
            "warning: inverted-bounds.emf: record 1 at offset 88: stretched DIB (EMR_STRETCHDIBITS, 0x51): accepted, but it \
             draws nothing: its Bounds 0, 0, -1, -1 are inverted, so they meet nothing",
            "record 2 at offset 216",
        ],
    ),
    Case("bounds-outside", 3, [1, 1, 0, 0], &["its Bounds 100, 100, 200, 200 lie outside the sheet of 40 by 30 pixels"]),
    Case(
        "target-outside",
        3,
        [0, 2, 0, 0],
        &[
            "record 1 at offset 88: stretched DIB (EMR_STRETCHDIBITS, 0x51): accepted, but it draws nothing: its target \
             (columns 100 to 119, rows 4 to 13) lies outside the sheet of 40 by 30 pixels",
            "its target (columns 3 to 22, rows -10 to -1) lies outside the sheet of 40 by 30 pixels",
        ],
    ),
    Case(
        "half-outside",
        3,
        [3, 0, 0, 0],
        &[
            "warning: half-outside.emf: record 1 at offset 88: stretched DIB (EMR_STRETCHDIBITS, 0x51): only 100 of its \
             target's 400 pixels lie on the sheet",
            "record 3 at offset 344: stretched DIB (EMR_STRETCHDIBITS, 0x51): only 300 of its target's 400 pixels lie on",
        ],
    ),
    Case(
        "window-mapping",
        3,
        [1, 0, 0, 0],
        &[
            "warning: window-mapping.emf: offset 100: EMR_SETWINDOWEXTEX, in force at record 1: a window of 800 by 600 on a \
             viewport of 40 by 30 (mapping mode MM_ANISOTROPIC) is not honoured; coordinates are taken as sheet pixels",
            "offset 116: EMR_SETVIEWPORTEXTEX, in force at record 1: a window of 800 by 600 on a viewport of 40 by 30",
            "only 1,200 of its target's 480,000 pixels lie on the sheet",
        ],
    ),
    Case(
        "window-changed",
        3,
        [2, 0, 0, 0],
        &[
            "offset 100: EMR_SETWINDOWEXTEX, in force at record 1: a window of 800 by 600 on a viewport of 40 by 30",
            "offset 100: EMR_SETWINDOWEXTEX, in force at record 2: a window of 800 by 600 on a viewport of 400 by 300",
            "offset 116: EMR_SETVIEWPORTEXTEX, in force at record 1: a window of 800 by 600 on a viewport of 40 by 30",
            "offset 260: EMR_SETVIEWPORTEXTEX, in force at record 2: a window of 800 by 600 on a viewport of 400 by 300",
        ],
    ),
    Case("window-extent-alone", 3, [1, 0, 0, 0], &["a window of 800 by 600 on a viewport of 1 by 1 (mapping mode MM_TEXT)"]),
    Case("window-same", 0, [1, 0, 0, 0], &[]),
    Case("window-origin", 3, [1, 0, 0, 0], &["the window's origin -7, 3 on the viewport's origin 0, 0 is not honoured"]),
    Case("viewport-origin", 3, [1, 0, 0, 0], &["the window's origin 0, 0 on the viewport's origin 0, 12 is not honoured"]),
    Case(
        "scaled-window",
        3,
        [1, 0, 0, 0],
        &["EMR_SETVIEWPORTEXTEX", "offset 132: EMR_SCALEWINDOWEXTEX, in force at record 1: a window of 80 by 90 on a viewport"],
    ),
    Case(
        "window-of-nothing",
        3,
        [1, 0, 0, 0],
        &[
            "offset 100: EMR_SETWINDOWEXTEX, in force at record 1: a window of 800 by 600 on a viewport of 40 by 30",
            "offset 116: EMR_SETVIEWPORTEXTEX, in force at record 1: a window of 800 by 600 on a viewport of 40 by 30",
        ],
    ),
    Case("metric-extents", 3, [1, 0, 0, 0], &["offset 132: EMR_SETMAPMODE, in force at record 1: mapping mode MM_ANISOTROPIC"]),
    Case("metric-viewport", 3, [1, 0, 0, 0], &["offset 100: EMR_SETMAPMODE, in force at record 1: mapping mode MM_ANISOTROPIC"]),
    Case("metric-before", 3, [1, 0, 0, 0], &["offset 144: EMR_SETMAPMODE, in force at record 1: mapping mode MM_ANISOTROPIC is not"]),
    Case("twips", 3, [1, 0, 0, 0], &["offset 88: EMR_SETMAPMODE, in force at record 1: mapping mode MM_TWIPS is not"]),
    Case("anisotropic", 3, [1, 0, 0, 0], &["mapping mode MM_ANISOTROPIC is not honoured"]),
    Case(
        "world-transform",
        3,
        [2, 0, 0, 0],
        &["offset 88: EMR_SETWORLDTRANSFORM, in force at records 1, 2: a world transform 2, 0, 0, 2, 0, 0 is not honoured"],
    ),
    Case("world-modified", 3, [1, 0, 0, 0], &["EMR_MODIFYWORLDTRANSFORM, in force at record 1: a world transform 1, 0, 0, -1, 0, 30"]),
    Case("world-no-mode", 3, [1, 0, 0, 0], &["EMR_SETWORLDTRANSFORM, in force at record 1: a world transform 2, 0, 0, 2, 0, 0"]),
    Case("world-and-back", 0, [1, 0, 0, 0], &[]),
    Case("restored", 0, [1, 0, 0, 0], &[]),
    Case("set-behind", 0, [1, 0, 0, 0], &[]),
    Case("mirrored-layout", 3, [1, 0, 0, 0], &["offset 88: EMR_SETLAYOUT, in force at record 1: a mirrored layout (0x1) is not"]),
    Case("other-layout", 3, [1, 0, 0, 0], &["a layout (0x8) is not honoured"]),
    Case(
        "clipped",
        3,
        [2, 0, 0, 0],
        &[
            "offset 88: EMR_INTERSECTCLIPRECT, in force at record 1: the file's clip is not honoured; only --clip is",
            "EMR_EXCLUDECLIPRECT, in force at record 2: the file's clip is not honoured",
        ],
    ),
    Case(
        "clip-lasting",
        3,
        [1, 0, 0, 0],
        &["offset 88: EMR_INTERSECTCLIPRECT, in force at record 1", "offset 120: EMR_INTERSECTCLIPRECT, in force at record 1"],
    ),
    Case(
        "colour-matching",
        3,
        [2, 0, 0, 0],
        &["EMR_SETICMMODE, in force at record 1: the matching of colours is not honoured"],
    ),
    Case(
        "colour-adjustment",
        3,
        [2, 0, 0, 0],
        &["EMR_SETCOLORADJUSTMENT, in force at record 1: the adjustment of colours is not honoured"],
    ),
    Case("clip-taken-away", 0, [1, 0, 0, 0], &[]),
    Case("clip-path", 3, [1, 0, 0, 0], &["EMR_SELECTCLIPPATH, in force at record 1: the file's clip is not honoured"]),
    Case(
        "brush",
        3,
        [2, 0, 0, 0],
        &["EMR_SELECTOBJECT, in force at record 1: the file's brush FF8000 is not used, but 000000; --brush FF8000 would use it"],
    ),
    Case("brush-hatched", 3, [1, 0, 0, 0], &["the file selects a hatched brush, but 000000 is used"]),
    Case("brush-of-palette", 3, [1, 0, 0, 0], &["the file selects a brush of a palette's colour, but 000000 is used"]),
    Case("brush-cut-off", 3, [1, 0, 0, 0], &["the file selects a brush whose record is cut off, but 000000 is used"]),
    Case(
        "no-brush",
        3,
        [3, 0, 0, 0],
        &["warning: no-brush.emf: the file selects no brush for records 1, 3, and without --brush 000000 is used"],
    ),
    Case("brush-stock", 3, [1, 0, 0, 0], &["the file's brush FFFFFF is not used, but 000000"]),
    Case("brush-unused", 0, [2, 0, 0, 0], &[]),
    Case("stretch-mode", 3, [2, 0, 0, 0], &["EMR_SETSTRETCHBLTMODE, in force at record 1: stretch mode 4 (HALFTONE) is not honoured"]),
    Case("bitblt-only", 2, [0, 0, 0, 2], &["warning: bitblt-only.emf: 2 records of type EMR_BITBLT (0x4C) not played: records 1, 2"]),
    Case(
        "every-bitmap-type",
        2,
        [3, 0, 0, 5],
        &[
            "1 record of type EMR_BITBLT (0x4C) not played: record 1",
            "1 record of type EMR_STRETCHBLT (0x4D) not played: record 2",
            "1 record of type EMR_PLGBLT (0x4F) not played: record 4",
            "1 record of type EMR_SETDIBITSTODEVICE (0x50) not played: record 5",
            "1 record of type EMR_TRANSPARENTBLT (0x74) not played: record 8",
        ],
    ),
    Case("no-bitmap", 3, [0; 4], &["warning: no-bitmap.emf: no bitmap record: nothing of this file is drawn"]),
    Case(
        "text-and-shapes",
        3,
        [1, 0, 0, 0],
        &["3 records with lines, shapes or text not played: EMR_EXTTEXTOUTW 1, EMR_POLYGON16 2"],
    ),
    Case(
        "drawn-in-a-path",
        3,
        [1, 0, 0, 0],
        &["2 records with lines, shapes or text not played: EMR_SETPIXELV 1, EMR_FILLRGN 1"],
    ),
    Case("path-restored", 3, [1, 0, 0, 0], &["1 record with lines, shapes or text not played: EMR_POLYGON16 1"]),
    Case("emf-plus", 3, [1, 0, 0, 0], &["2 EMF+ comments not played: what stands only there is not drawn"]),
    Case("unknown-type", 3, [1, 0, 0, 0], &["2 records of unknown types or out of place not played"]),
    Case("rle8", 2, [0, 0, 1, 0], &["refused, status 8: biCompression 1 (RLE8) is not played"]),
    Case("jpeg", 2, [0, 0, 1, 0], &["refused, status 8: "]),
    Case("too-wide", 2, [1, 0, 1, 0], &["refused, status 12: cxDest 6772 is above 4096"]),
    Case(
        "no-alpha-mask",
        2,
        [0, 0, 1, 0],
        &["refused, status 11: alpha format 1 needs an alpha; this header is 40 bytes, BI_BITFIELDS, and has no alpha mask"],
    ),
    Case("palette-usage", 2, [0, 0, 1, 0], &["refused, status 7: "]),
    Case("scaled-source", 2, [0, 0, 1, 0], &["refused, status 7: "]),
    Case("mask-without-a-mask", 2, [0, 0, 1, 0], &["refused, status 13: "]),
    Case(
        "mixed",
        2,
        [1, 1, 1, 1],
        &[
            "record 3 at offset 372: stretched DIB (EMR_STRETCHDIBITS, 0x51): refused, status 8: biCompression 1 (RLE8)",
            "1 record of type EMR_BITBLT (0x4C) not played: record 4",
            "offset 100: EMR_SETWINDOWEXTEX, in force at records 1, 2: a window of 400 by 300 on a viewport of 1 by 1",
            "record 2 at offset 244: stretched DIB (EMR_STRETCHDIBITS, 0x51): accepted, but it draws nothing",
        ],
    ),
];

fn corpus() -> &'static Path {
    Path::new(concat!(env!("CARGO_MANIFEST_DIR"), "/tests/corpus"))
}

/// A folder with the whole corpus and a sheet of 40 by 30 pixels.
fn prepared(name: &str) -> Folder {
    let folder = Folder::new(name);
    folder.put_sheet("sheet.png", &noisy_sheet(40, 30, true));
    for Case(name, ..) in CASES {
        let name = format!("{name}.emf");
        folder.put(&name, &fs::read(corpus().join(&name)).unwrap());
    }
    folder
}

/// Each file has a case, so that none is forgotten.
#[test]
fn all_files_are_tried() {
    let files = fs::read_dir(corpus()).unwrap().map(|entry| entry.unwrap().file_name().into_string().unwrap());
    let mut names: Vec<String> = files.filter_map(|name| name.strip_suffix(".emf").map(str::to_string)).collect();
    names.sort();
    let mut cases: Vec<&str> = CASES.iter().map(|case| case.0).collect();
    cases.sort();
    assert_eq!(names, cases);
}

#[test]
fn play_is_not_silent() {
    let folder = prepared("play_is_not_silent");
    for Case(name, code, [played, nothing, refused, skipped], lines) in CASES {
        let ended = folder.run_bare(&format!("play sheet.png {name}.emf -o {name}.png")).expect(*code);
        let told: Vec<&str> = ended.err.lines().collect();
        assert_eq!(told.len(), lines.len(), "{name}: {told:?}");
        for (line, words) in told.iter().zip(*lines) {
            assert!(line.starts_with("lacrumont: ") && line.contains(words), "{name}: {line:?} has no {words:?}");
        }
        let summary =
            format!("{played} played, {nothing} drew nothing, {refused} refused, {skipped} skipped; wrote {name}.png");
        assert_eq!(ended.out.lines().last(), Some(&*summary), "{name}");
        let drawn = folder.get_sheet("sheet.png").surface != folder.get_sheet(&format!("{name}.png")).surface;
        assert_eq!(drawn, *played > 0, "{name}");
    }
}

/// A dry run says the same and writes nothing.
#[test]
fn a_dry_run_writes_nothing() {
    let folder = prepared("a_dry_run_writes_nothing");
    let before = folder.names();
    for Case(name, code, [played, nothing, refused, skipped], lines) in CASES {
        let ended = folder.run_bare(&format!("play sheet.png {name}.emf --dry-run --journal j")).expect(*code);
        assert_eq!(ended.err.lines().count(), lines.len(), "{name}");
        let summary =
            format!("dry run: {played} played, {nothing} drew nothing, {refused} refused, {skipped} skipped; ");
        assert!(ended.out.contains(&summary), "{name}: {}", ended.out);
    }
    assert_eq!(folder.names(), before);
}

#[test]
fn strict_plays_a_file_whole_or_not_at_all() {
    let folder = prepared("strict_plays_a_file_whole_or_not_at_all");
    for Case(name, code, counts, _) in CASES {
        let command = format!("play sheet.png {name}.emf -o {name}.png --journal {name}.j --strict");
        let ended = folder.run_bare(&command).expect(*code);
        let whole = counts[2] + counts[3] == 0;
        assert_eq!(folder.has(&format!("{name}.png")), whole, "{name}");
        assert_eq!(folder.has(&format!("{name}.j")), whole, "{name}");
        assert_eq!(ended.out.contains("nothing was written (--strict)"), !whole, "{name}");
    }
    // One bad file among good ones holds all of them back.
    folder.run("play sheet.png good.emf rle8.emf -o both.png --strict").expect(2);
    assert!(!folder.has("both.png"));
}

/// A file says the same before anything is written, but for what only a sheet can tell.
#[test]
fn info_tells_it_before() {
    let folder = prepared("info_tells_it_before");
    let before = folder.names();
    for Case(name, code, [_, nothing, refused, skipped], lines) in CASES {
        let (code, told) = match *name {
            // Which sheet and which brush there will be, the file does not say.
            "bounds-outside" | "no-brush" => (0, 0),
            // Of its two targets every sheet cuts one.
            "half-outside" => (3, 1),
            // Of its two targets one lies on some sheets.
            "target-outside" => (3, 1),
            "window-mapping" => (3, 2),
            _ => (*code, lines.len() - *refused as usize),
        };
        let ended = folder.run(&format!("info {name}.emf")).expect(code);
        assert!(ended.err.is_empty(), "{name}: {}", ended.err);
        let count = |words: &str| ended.out.lines().filter(|line| line.trim_start().starts_with(words)).count();
        assert_eq!(count("not played: "), *skipped as usize, "{name}");
        if *skipped == 0 {
            assert_eq!(count("warning: "), told, "{name}");
        }
        let of_file = lines.iter().filter(|line| !line.contains("pixels lie on"));
        for line in of_file.filter(|_| *nothing + *skipped == 0).take(told + *refused as usize) {
            let words = line.strip_prefix("refused, ").unwrap_or(line);
            let words = words.split(".emf: ").last().unwrap();
            assert!(ended.out.contains(words), "{name}: {:?} has no {words:?}", ended.out);
        }
    }
    let out = folder.run("info inverted-bounds.emf").expect(3).out;
    let told =
        "  warning: it draws nothing on any sheet: its Bounds 0, 0, -1, -1 are inverted, so they meet nothing\n  \
                status 0: accepted, but it draws nothing\n";
    assert_eq!(out.matches(told).count(), 2);
    let counts = "2 bitmap records: 0 can be played, 2 would draw nothing, 0 would be refused, 0 of a type that is not";
    assert!(out.lines().last().unwrap().starts_with(counts), "{out}");
    let json = Json::parse(&folder.run("info inverted-bounds.emf --json").expect(3).out);
    let (record, summary) = (&json["files"][0]["records"][1], &json["files"][0]["summary"]);
    assert_eq!((record["verdict"].text(), record["status"].number()), ("would draw nothing", 0.0));
    assert_eq!(record["reason"].text(), "its Bounds 0, 0, -1, -1 are inverted, so they meet nothing");
    assert_eq!(summary["would_draw_nothing"].number(), 2.0);
    assert_eq!(folder.names(), before);
}

/// The file's own brush, given by hand, is no longer warned about.
#[test]
fn a_brush_that_is_used_is_no_warning() {
    let folder = prepared("a_brush_that_is_used_is_no_warning");
    let ended = folder.run("play sheet.png brush.emf -o out.png --brush FF8000 --only 1").expect(0);
    assert!(ended.err.is_empty(), "{ended:?}");
    assert_eq!(folder.get_sheet("out.png").surface.pixels[4 * 40 + 3] & 0xFF_FFFF, 0xFF_8000);
}
