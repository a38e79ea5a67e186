//! A small file cannot fill the memory. The only test here, so that nothing else is in the process's peak.

mod common;

use common::{file, grey_header, packed_zeros};
use png_shim::Reader;

/// The most memory this process has had so far, in KB.
fn peak() -> u64 {
    let status = std::fs::read_to_string("/proc/self/status").unwrap();
    let line = status.lines().find_map(|line| line.strip_prefix("VmHWM:")).unwrap();
    line.trim().trim_end_matches(" kB").parse().unwrap()
}

#[test]
fn bombs() {
    // 64 MB each; some 420 KB as they are packed.
    let zeros = packed_zeros(260_000);
    let said = |front: &[u8]| [front, &zeros].concat();
    let (text, international, profile) = (said(b"a\0\0"), said(b"a\0\x01\0\0\0"), said(b"a\0\0"));
    let (small, large) = (grey_header(1, 1), grey_header(0x7FFF_FFFF, 0x7FFF_FFFF));
    let pixels = [0x78, 1, 1, 2, 0, 0xFD, 0xFF, 0, 9, 0, 0x0B, 0, 0x0A];
    let mut chunks = vec![(b"IHDR", &small[..]), (b"iCCP", &profile)];
    chunks.extend([
        (b"zTXt", &text[..]),
        (b"iTXt", &international),
        (b"sPLT", &text),
        (b"IDAT", &pixels),
        (b"IEND", &[]),
    ]);
    let texts = file(&chunks);
    let rows = file(&[(b"IHDR", &small), (b"IDAT", &zeros), (b"IEND", b"")]);
    let sides = file(&[(b"IHDR", &large), (b"IDAT", &zeros), (b"IEND", b"")]);
    let before = peak();
    let kept = Reader::open(&texts).unwrap().read(&mut [0], &mut |_, _| {}).unwrap();
    assert_eq!(kept.iter().map(|chunk| chunk.name).collect::<Vec<_>>(), [*b"iCCP", *b"zTXt", *b"iTXt", *b"sPLT"]);
    assert!(Reader::open(&rows).unwrap().read(&mut [0], &mut |_, _| {}).is_err());
    assert!(Reader::open(&sides).unwrap().read(&mut [0], &mut |_, _| {}).is_err());
    let rise = peak() - before;
    assert!(rise < 16_384, "{rise} KB");
}
