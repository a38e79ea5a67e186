//! What a sheet's file says beside its pixels: colours, resolution, texts. What is kept, and what is told of that is not.

mod common;

use std::fs;
use std::path::Path;

use common::*;

/// A folder with the sheets that have everything, and a.emf, which draws on them.
fn prepared(name: &str) -> Folder {
    let folder = Folder::new(name);
    let fixtures = Path::new(concat!(env!("CARGO_MANIFEST_DIR"), "/tests/fixtures"));
    for name in ["metadata-srgb.png", "metadata-icc.png"] {
        folder.put(name, &fs::read(fixtures.join(name)).unwrap());
    }
    folder.put("a.emf", &emf(&[blend_record([3, 4, 20, 10], 0x8040_2010)]));
    folder
}

/// The chunks of a PNG file but for those that hold the pixels, in order.
fn chunks(file: &[u8]) -> Vec<(String, Vec<u8>)> {
    let (mut at, mut chunks) = (8, Vec::new());
    while at < file.len() {
        let length = u32::from_be_bytes(file[at..at + 4].try_into().unwrap()) as usize;
        let name = String::from_utf8(file[at + 4..at + 8].to_vec()).unwrap();
        if !["IHDR", "PLTE", "tRNS", "IDAT", "IEND"].contains(&&name[..]) {
            chunks.push((name, file[at + 8..at + 8 + length].to_vec()));
        }
        at += 12 + length;
    }
    chunks.sort();
    chunks
}

/// Of a BMP file: pixels per metre, across and down.
fn resolution(file: &[u8]) -> [u32; 2] {
    [38, 42].map(|at| u32::from_le_bytes(file[at..at + 4].try_into().unwrap()))
}

#[test]
fn a_png_keeps_it() {
    let folder = prepared("a_png_keeps_it");
    folder.run("play metadata-srgb.png a.emf -o out.png --journal j").expect(0);
    let mut kept = chunks(&folder.get("metadata-srgb.png"));
    kept.retain(|(name, _)| !["tIME", "sBIT", "bKGD"].contains(&&name[..]));
    let names: Vec<&str> = kept.iter().map(|(name, _)| &name[..]).collect();
    assert_eq!(names, ["cHRM", "cICP", "gAMA", "iTXt", "pHYs", "sRGB", "tEXt", "tEXt", "zTXt"]);
    assert_eq!(chunks(&folder.get("out.png")), kept);
    folder.run("undo out.png -o undone.png --journal j").expect(0);
    assert_eq!(chunks(&folder.get("undone.png")), kept);
    // What another program has put there, and may not be true of other pixels.
    let ended = folder.run("play metadata-icc.png a.emf -o icc.png").expect(3);
    assert_eq!(ended.err, "lacrumont: warning: icc.png: not kept of what the sheet's file says: chunk prVT\n");
    let mut kept = chunks(&folder.get("metadata-icc.png"));
    kept.retain(|(name, _)| name != "prVT");
    let names: Vec<&str> = kept.iter().map(|(name, _)| &name[..]).collect();
    assert_eq!(names, ["eXIf", "iCCP", "iTXt", "pHYs", "prVt", "tEXt", "zTXt"]);
    assert_eq!(chunks(&folder.get("icc.png")), kept);
}

#[test]
fn a_bmp_keeps_the_resolution() {
    let folder = prepared("a_bmp_keeps_the_resolution");
    let ended = folder.run("play metadata-srgb.png a.emf -o out.bmp --journal j").expect(3);
    let words = "the gamma (gAMA), the primaries (cHRM), the sRGB mark (sRGB), the colours' code points (cICP), \
                 texts (tEXt, zTXt, iTXt)";
    let warning = |out: &str| format!("lacrumont: warning: {out}: not kept of what the sheet's file says: {words}\n");
    assert_eq!(ended.err, warning("out.bmp"));
    assert_eq!(resolution(&folder.get("out.bmp")), [5000, 4000]);
    // A dry run says it, too.
    assert_eq!(folder.run("play metadata-srgb.png a.emf --dry-run -o dry.bmp").expect(3).err, warning("dry.bmp"));
    folder.run("play metadata-srgb.png a.emf --dry-run").expect(0);
    // From there on there is nothing more to lose; the resolution goes on to PNG files.
    folder.run("undo out.bmp -o undone.bmp --journal j").expect(0);
    assert_eq!(resolution(&folder.get("undone.bmp")), [5000, 4000]);
    folder.run("play undone.bmp a.emf -o again.png --journal j").expect(0);
    let metre = [&5000u32.to_be_bytes()[..], &4000u32.to_be_bytes(), &[1]].concat();
    assert_eq!(chunks(&folder.get("again.png")), [("pHYs".to_string(), metre)]);
    // An undo can lose it as well.
    folder.run("play metadata-srgb.png a.emf -o out.png --journal k").expect(0);
    assert_eq!(folder.run("undo out.png -o late.bmp --journal k").expect(3).err, warning("late.bmp"));
    assert_eq!(folder.get_sheet("late.bmp").surface, folder.get_sheet("metadata-srgb.png").surface);
}

/// A PNG file of grey pixels has a profile for grey ones; what is written has colours.
#[test]
fn a_profile_of_grey_pixels() {
    let folder = prepared("a_profile_of_grey_pixels");
    let grey = fs::read(concat!(env!("CARGO_MANIFEST_DIR"), "/tests/fixtures/grey-icc.png")).unwrap();
    folder.put("grey.png", &grey);
    let ended = folder.run("play grey.png a.emf -o out.png").expect(3);
    let words = "out.png: not kept of what the sheet's file says: the colour profile (iCCP)";
    assert_eq!(ended.err, format!("lacrumont: warning: {words}\n"));
    assert!(chunks(&grey).iter().any(|(name, _)| name == "iCCP"));
    assert_eq!(chunks(&folder.get("out.png")), []);
}

/// The fourth byte of a BMP file's pixels is no alpha without a mask. Where it seems to be one, it is told.
#[test]
fn a_fourth_byte_that_is_no_alpha() {
    let folder = prepared("a_fourth_byte_that_is_no_alpha");
    folder.put_sheet("deep.bmp", &noisy_sheet(30, 20, true));
    let deep = folder.get("deep.bmp");
    // The same pixels under a 40-byte header and BI_RGB.
    let plain = |fourth: &dyn Fn(u8) -> u8| {
        let mut file = [&deep[..54], &deep[122..]].concat();
        (file[10], file[14], file[30]) = (54, 40, 0);
        file[54..].chunks_exact_mut(4).for_each(|pixel| pixel[3] = fourth(pixel[3]));
        file
    };
    let cases: [(&dyn Fn(u8) -> u8, bool); 4] =
        [(&|_| 0, false), (&|_| 255, false), (&|_| 7, true), (&|alpha| alpha, true)];
    for (fourth, told) in cases {
        folder.put("sheet.bmp", &plain(fourth));
        let ended = folder.run("play sheet.bmp a.emf -o out.png --force").expect(if told { 3 } else { 0 });
        let words = "out.png: not kept of what the sheet's file says: the byte of its pixels that is no channel";
        assert_eq!(ended.err, if told { format!("lacrumont: warning: {words}\n") } else { String::new() });
        assert!(folder.get_sheet("out.png").surface.pixels.iter().all(|pixel| pixel >> 24 == 255));
    }
}

/// A BMP sheet's own colours are not kept by any file.
#[test]
fn a_bmp_with_colours_of_its_own() {
    let folder = prepared("a_bmp_with_colours_of_its_own");
    folder.put_sheet("plain.bmp", &noisy_sheet(30, 20, true));
    let plain = folder.get("plain.bmp");
    assert_eq!(plain[14], 108);
    let cases = [
        (*b"BGRs", None),
        (*b" niW", None),
        ([0; 4], Some("the calibrated colours of the header")),
        (*b"DEBM", Some("the colour profile")),
        (*b"KNIL", Some("the colour profile")),
    ];
    for (space, lost) in cases {
        let mut sheet = plain.clone();
        sheet[14 + 56..14 + 60].copy_from_slice(&space);
        folder.put("sheet.bmp", &sheet);
        for out in ["out.bmp", "out.png"] {
            let ended = folder.run(&format!("play sheet.bmp a.emf -o {out} --force")).expect(if lost.is_some() {
                3
            } else {
                0
            });
            let warning = |what| format!("lacrumont: warning: {out}: not kept of what the sheet's file says: {what}\n");
            assert_eq!(ended.err, lost.map_or(String::new(), warning));
        }
    }
}
