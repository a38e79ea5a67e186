//! The two programs, run one after the other, and scripts with faults.

use records::bytes::words;
use records::{Record, Script, STRETCHDIBITS};
use std::collections::BTreeMap;
use std::process::{Command, Stdio};

const JOURNAL: u32 = 3 * second::journal::RECORD as u32;

fn script() -> Vec<u8> {
    let out = Command::new(env!("CARGO_BIN_EXE_make_script")).output().expect("runs");
    assert!(out.status.success());
    out.stdout
}

fn run(bytes: &[u8]) -> String {
    let mut out = Vec::new();
    second::script::run(bytes, &mut out).expect("writes");
    String::from_utf8(out).expect("text")
}

/// A sheet of 2 by 1 and a journal of three records.
fn head() -> Vec<u8> {
    Script::new(0, [2, 1], &[0xFF00_0000, 0xFF00_00FF], JOURNAL, 0, 0).bytes
}

/// Document 01's whole play as a call.
fn whole_play() -> Vec<u8> {
    let record = Record::new(STRETCHDIBITS, [0, 0, 2, 1], 0x00F0_0021).bounded([0, 0, 1, 0]);
    let mut s = Script::default();
    s.play([0, 0, 2, 1], 0x112233, 0, &record.bytes());
    s.bytes
}

/// How many calls of each opcode a script has.
fn opcodes(b: &[u8]) -> BTreeMap<u32, u32> {
    let word = |at: usize| u32::from_le_bytes([b[at], b[at + 1], b[at + 2], b[at + 3]]);
    let mut at = 20 + 4 * word(16) as usize + 12;
    let mut seen = BTreeMap::new();
    while at < b.len() {
        let op = word(at);
        *seen.entry(op).or_insert(0) += 1;
        let data = |at: usize| 4 + (word(at) as usize).div_ceil(4) * 4;
        at += 4;
        at += match op {
            1 => 24 + data(at + 24),
            3 => 4 + data(at + 4),
            4 => 16,
            5 => 4,
            6 => 8,
            _ => 0,
        };
    }
    seen
}

#[test]
fn made_script() {
    let bytes = script();
    assert_eq!(bytes, script(), "always the same");
    assert!(bytes.len() <= 120 * 1024);
    let seen = opcodes(&bytes);
    let calls: u32 = seen.values().sum();
    assert!((250..=450).contains(&calls), "{calls}");
    for op in 0..=6 {
        assert!(seen.contains_key(&op), "opcode {op}");
    }

    // The program and the library print the same.
    let mut child = Command::new(env!("CARGO_BIN_EXE_second_replay"))
        .stdin(Stdio::piped())
        .stdout(Stdio::piped())
        .spawn()
        .expect("runs");
    let mut pipe = child.stdin.take().expect("piped");
    let feed = bytes.clone();
    let feeder = std::thread::spawn(move || std::io::Write::write_all(&mut pipe, &feed));
    let out = child.wait_with_output().expect("ends");
    feeder.join().expect("joins").expect("writes");
    let text = String::from_utf8(out.stdout).expect("text");
    assert_eq!(text, run(&bytes));
    assert!(!text.contains("bad script"));

    let mut statuses = BTreeMap::new();
    for line in text.lines() {
        if let Ok(n) = line.split(' ').next().expect("a word").parse::<u32>() {
            *statuses.entry(n).or_insert(0) += 1;
        }
    }
    println!("{seen:?} {statuses:?}");
    for n in (0..=16).chain([21]) {
        assert!(statuses.contains_key(&n), "status {n}");
    }
}

#[test]
fn good_small_script() {
    let mut b = head();
    b.extend(whole_play());
    b.extend(words(&[2, 0]));
    let wanted_sheet = second::script::sum_of_words(&[0xFF00_0000, 0xFF00_00FF]);
    let wanted_journal = second::script::sum_of_words(&[0, 0, 0xFF00_0000, 1, 0, 0xFF00_00FF, 0xFFFF_FFFF, 2, 0x51]);
    let wanted = format!("0 2 3\n0 2 0\nsheet {wanted_sheet}\njournal {wanted_journal}\n");
    assert_eq!(run(&b), wanted);
}

#[test]
fn empty_reading() {
    let mut b = head();
    b.extend(words(&[3, 0, 3, 0x0051_5151, 0]));
    let zero = second::script::sum(&[0; 1024]);
    let e = 14_695_981_039_346_656_037u64;
    let text = run(&b);
    let line = text.lines().next().expect("a line");
    assert_eq!(line, format!("3 0 {e} 0 {e} 0 0 1 0 0 0 0 0 0 {zero}"));
    // The same with a fault in the padding.
    let mut b = head();
    b.extend(words(&[3, 0, 3, 0x0151_5151, 0]));
    assert_eq!(run(&b), "bad script\n");
}

#[test]
fn faults() {
    let bad = "bad script\n";
    // Nothing, and every cut of a head.
    for k in 0..head().len() {
        assert_eq!(run(&head()[..k]), bad);
    }
    // Without opcode 0.
    assert_eq!(run(&head()), bad);
    // A wrong mark.
    let mut b = head();
    b[0] = 0;
    b.extend(words(&[0]));
    assert_eq!(run(&b), bad);
    // Too many pixels, too long a journal.
    assert_eq!(run(&words(&[0x3143_524F, 0, 1, 1, 262_145])), bad);
    assert_eq!(run(&words(&[0x3143_524F, 0, 1, 1, 0, 1_048_577, 0, 0, 0])), bad);
    // Each cut of a call; what was printed stays.
    let mut good = head();
    good.extend(whole_play());
    let start = good.len();
    good.extend(whole_play());
    for k in start..good.len() {
        assert_eq!(run(&good[..k]), "0 2 3\nbad script\n");
    }
    // Behind a whole call nothing: it was made, then the script is short.
    assert_eq!(run(&good), "0 2 3\n14 0 3\nbad script\n");
    // Opcodes that are not built, and unlisted ones.
    for op in (7..=18).chain([u32::MAX]) {
        let mut b = head();
        b.extend(words(&[op, 0, 0, 0, 0, 0, 0, 0]));
        assert_eq!(run(&b), bad);
    }
    // Arguments out of range, and bytes behind opcode 0.
    for call in [
        &[4, 2, 1, 3, JOURNAL, 0][..],
        &[4, 2, 1, 2, JOURNAL + 1, 0],
        &[6, JOURNAL - 3, 0, 0],
        &[6, 0xFFFF_FFFE, 0, 0],
        &[3, 2, 0, 0],
        &[3, 0, 131_073, 0],
        &[0, 0],
    ] {
        let mut b = head();
        b.extend(words(call));
        assert_eq!(run(&b), bad);
    }
    let mut b = head();
    b.extend(words(&[0]));
    b.push(0);
    assert_eq!(run(&b), bad);
    // The largest of each is no fault.
    let mut b = head();
    b.extend(words(&[6, JOURNAL - 4, 7, 4, 9, 9, 2, JOURNAL, 5, u32::MAX, 3, 1, 131_072]));
    b.extend(vec![0; 131_072]);
    b.extend(words(&[0]));
    assert!(run(&b).starts_with("4 0 "));
}
