//! Runs of lists that are worked out by hand, on document 01's sheet of two
//! pixels.

use records::bytes::words;
use second::{run, Ran};

const START: [u32; 2] = [0xFF00_0000, 0xFF00_00FF];
/// What stands in journal and answers before.
const FILL: u8 = 0xA5;
const OLD: u32 = 0xA5A5_A5A5;

/// Document 01's whole play: 0x51 of 80 bytes, Bounds 0 0 1 0, ROP 0x00F00021,
/// no source, target (0, 0) 2 by 1.
const RECORD: [u32; 20] = [0x51, 80, 0, 0, 1, 0, 0, 0, 0, 0, 0, 0, 0, 0, 0, 0, 0, 0x00F0_0021, 2, 1];

/// It as a call: kind, clip, brush, tag, length, record.
fn play(clip: [u32; 4], brush: u32) -> Vec<u8> {
    [words(&[1]), words(&clip), words(&[brush, 77, 80]), words(&RECORD)].concat()
}

/// On the whole sheet, with document 01's brush.
fn whole() -> Vec<u8> {
    play([0, 0, 2, 1], 0x112233)
}

fn undo() -> Vec<u8> {
    words(&[2])
}

fn list(count: u32, calls: &[Vec<u8>]) -> Vec<u8> {
    [words(&[count]), calls.concat()].concat()
}

/// What a run leaves: its answer, surface, journal as numbers, answers.
type Left = (Ran, [u32; 2], Vec<u32>, Vec<u32>);

/// A run on a journal of so many records, with room for so many answers.
fn left(list: &[u8], records: usize, room: usize) -> Left {
    let (mut surface, mut journal, mut answers) = (START, vec![FILL; 12 * records], vec![OLD; room]);
    let ran = run(&mut surface, 2, 1, &mut journal, list, &mut answers);
    let numbers = journal.chunks(4).map(|n| u32::from_le_bytes(n.try_into().expect("4 bytes"))).collect();
    (ran, surface, numbers, answers)
}

/// Nothing is written, and the counts are 0.
fn refused(status: u32, records: usize, room: usize) -> Left {
    (Ran { status, calls: 0, used: 0 }, START, vec![OLD; 3 * records], vec![OLD; room])
}

#[test]
fn a_play_and_an_undo() {
    // The undo leaves the journal's bytes; the fifth number and the fourth
    // record are nobody's.
    let journal = [0, 0, 0xFF00_0000, 1, 0, 0xFF00_00FF, u32::MAX, 2, 0x51, OLD, OLD, OLD];
    let ran = Ran { status: 0, calls: 2, used: 0 };
    let wanted = (ran, START, journal.to_vec(), vec![0, 2, 0, 2, OLD]);
    assert_eq!(left(&list(2, &[whole(), undo()]), 4, 5), wanted);
}

#[test]
fn two_plays_of_which_one_is_undone() {
    // The second draws column 1 over the first; the third, in column 0, takes
    // its place in the journal.
    let (right, left_column) = (play([1, 0, 9, 9], 0x445566), play([u32::MAX, 0, 1, 1], 0xFF77_8899));
    let calls = [whole(), right, undo(), left_column];
    let journal =
        [[0, 0, 0xFF00_0000], [1, 0, 0xFF00_00FF], [u32::MAX, 2, 0x51], [0, 0, 0xFF11_2233], [u32::MAX, 1, 0x51]];
    let ran = Ran { status: 0, calls: 4, used: 5 };
    let wanted = (ran, [0xFF77_8899, 0xFF11_2233], journal.concat(), vec![0, 2, 0, 1, 0, 1, 0, 1]);
    assert_eq!(left(&list(4, &calls), 5, 8), wanted);
}

#[test]
fn refused_calls_and_the_ones_behind_them() {
    // Nothing to undo; records of 7 and of 0 bytes, the first with a byte
    // behind it that is not looked at; no room for the second whole play.
    let seven = [words(&[1, 0, 0, 2, 1, 0, 0, 7]), vec![0x51, 0, 0, 0, 80, 0, 0, 0xEE]].concat();
    let none = words(&[1, 0, 0, 2, 1, 0, 0, 0]);
    let calls = [undo(), seven, none, whole(), whole()];
    let (ran, surface, journal, answers) = left(&list(5, &calls), 5, 10);
    assert_eq!(ran, Ran { status: 0, calls: 5, used: 3 });
    assert_eq!(surface, [0xFF11_2233; 2]);
    assert_eq!(journal[6..], [u32::MAX, 2, 0x51, OLD, OLD, OLD, OLD, OLD, OLD]);
    assert_eq!(answers, [15, 0, 3, 0, 3, 0, 0, 2, 14, 0]);
}

/// 0x51 of 124 bytes with a source of one pixel: header at 80 to 119, and four
/// bytes of bits at this offset.
fn copy(bits_at: u32) -> Vec<u8> {
    let fixed = [0x51, 124, 0, 0, 1, 0, 0, 0, 0, 0, 1, 1, 80, 40, bits_at, 4, 0, 0x00CC_0020, 1, 1];
    let header = [40, 1, 1, 1 | 24 << 16, 0, 0, 0, 0, 0, 0];
    [words(&[1, 0, 0, 2, 1, 0, 0, 124]), words(&fixed), words(&header), vec![3, 2, 1, 0]].concat()
}

#[test]
fn shared_parts_among_other_calls() {
    // 21 in its place among those ordered from 3 to 13 (A50): sheet and room
    // stay, and the next play draws.  From 120 on the bits stand by themselves.
    let calls = [copy(119), copy(120), copy(80), whole(), copy(119), undo(), undo(), copy(119), undo()];
    let (ran, surface, journal, answers) = left(&list(9, &calls), 5, 18);
    assert_eq!(ran, Ran { status: 0, calls: 9, used: 0 });
    assert_eq!(surface, START);
    assert_eq!(answers, [21, 0, 0, 1, 21, 0, 0, 2, 21, 0, 0, 2, 0, 1, 21, 0, 15, 0]);
    // Red 1, green 2, blue 3 was drawn on the first pixel, and journaled so.
    let wanted =
        [[0, 0, 0xFF00_0000], [u32::MAX, 1, 0x51], [0, 0, 0xFF01_0203], [1, 0, 0xFF00_00FF], [u32::MAX, 2, 0x51]];
    assert_eq!(journal, wanted.concat());
    // Three records are used up by the first play: 14, and 21 before it.
    let (_, _, _, answers) = left(&list(3, &[whole(), copy(120), copy(119)]), 3, 6);
    assert_eq!(answers, [0, 2, 14, 0, 21, 0]);
}

#[test]
fn no_calls() {
    let ran = Ran { status: 0, calls: 0, used: 0 };
    assert_eq!(left(&words(&[0]), 1, 1), (ran, START, vec![OLD; 3], vec![OLD]));
    assert_eq!(left(&words(&[0]), 0, 0), (ran, START, vec![], vec![]));
}

#[test]
fn malformed() {
    let sound = list(2, &[whole(), undo()]);
    let with = |at: usize, n: u32| records::bytes::with(&sound, at, n);
    let mut lists = vec![
        // Under 4 bytes.
        vec![],
        vec![0],
        vec![0, 0, 0],
        // Too few calls, and bytes left over.
        list(3, &[whole(), undo()]),
        list(u32::MAX, &[whole(), undo()]),
        list(1, &[whole(), undo()]),
        list(0, &[whole(), undo()]),
        [sound.clone(), vec![0]].concat(),
        [sound.clone(), undo()].concat(),
        // A kind that is neither 1 nor 2, of either call.
        with(4, 0),
        with(4, 3),
        with(4, 0x0100_0001),
        with(4 + 32 + 80, 0),
        with(4 + 32 + 80, 258),
        // A record's length that no record stands behind; padded, the last two
        // are 2^32.
        with(4 + 28, 76),
        with(4 + 28, 85),
        with(4 + 28, u32::MAX),
        with(4 + 28, u32::MAX - 2),
    ];
    // Torn: cut anywhere.
    lists.extend((0..sound.len()).map(|length| sound[..length].to_vec()));
    for list in lists {
        assert_eq!(left(&list, 3, 4), refused(29, 3, 4), "{list:x?}");
    }
    // The bytes behind a record belong to it.
    let torn = [words(&[1, 1, 0, 0, 2, 1, 0, 0, 7]), vec![0x51, 0, 0, 0, 80, 0, 0]].concat();
    assert_eq!(left(&torn, 3, 4), refused(29, 3, 4));
}

#[test]
fn too_few_answers() {
    let sound = list(2, &[whole(), undo()]);
    for room in 0..4 {
        assert_eq!(left(&sound, 3, room), refused(30, 3, room));
    }
    // 29 comes first.
    assert_eq!(left(&sound[..8], 3, 0), refused(29, 3, 0));
}

#[test]
fn surface_and_journal_come_first() {
    let bad_list = [9];
    let mut journal = [FILL; 35];
    for (width, height) in [(2, 2), (1, 1), (0, 0), (4_097, 1)] {
        let ran = run(&mut START.clone(), width, height, &mut journal, &bad_list, &mut []);
        assert_eq!(ran, Ran { status: 1, calls: 0, used: 0 });
    }
    let ran = run(&mut START.clone(), 2, 1, &mut journal, &bad_list, &mut []);
    assert_eq!(ran, Ran { status: 2, calls: 0, used: 0 });
}
