//! The calls on document 01's whole play and on one picture.

use face::constants::*;
use face::{palette, play, read, run, undo, Answer, Clip, Ran};
use records::{bytes::words, operation, Header, Picture, Record, STRETCHDIBITS};

const WHOLE: Clip = Clip { left: 0, top: 0, right: 2, bottom: 1 };
const START: [u32; 2] = [0xFF00_0000, 0xFF00_00FF];

fn brush_record() -> Vec<u8> {
    Record::new(STRETCHDIBITS, [0, 0, 2, 1], operation::rop(0xF0)).bytes()
}

fn refused(status: u32) -> Answer {
    Answer { status, pixels: 0 }
}

#[test]
fn the_whole_play_and_its_undo() {
    let (mut surface, mut journal, mut used) = (START, [0; 3 * JOURNAL_RECORD], 0);
    let done = Answer { status: OK, pixels: 2 };
    assert_eq!(play(&mut surface, 2, 1, &mut journal, &mut used, &brush_record(), WHOLE, 0x112233), done);
    assert_eq!((surface, used), ([0xFF11_2233; 2], 3));
    let numbers: Vec<u32> = journal.chunks(4).map(|n| u32::from_le_bytes(n.try_into().unwrap())).collect();
    assert_eq!(numbers, [0, 0, 0xFF00_0000, 1, 0, 0xFF00_00FF, u32::MAX, 2, STRETCHDIBITS]);
    assert_eq!(undo(&mut surface, 2, 1, &journal, &mut used), done);
    assert_eq!((surface, used), (START, 0));
}

#[test]
fn refusals() {
    let (mut surface, mut used) = (START, 0);
    let record = brush_record();
    for (length, status) in [(2 * JOURNAL_RECORD, NO_ROOM), (3 * JOURNAL_RECORD - 1, BAD_JOURNAL)] {
        let mut journal = vec![0; length];
        assert_eq!(play(&mut surface, 2, 1, &mut journal, &mut used, &record, WHOLE, 0), refused(status));
    }
    assert_eq!(play(&mut surface, 2, 1, &mut [], &mut used, &[], WHOLE, 0), refused(BAD_LENGTH));
    assert_eq!(undo(&mut surface, 2, 1, &[], &mut used), refused(NOTHING));
    assert_eq!(undo(&mut [], 0, 0, &[], &mut used), refused(BAD_SURFACE));
    assert_eq!((surface, used), (START, 0));
}

/// The whole play and two undos as a list.
fn list() -> Vec<u8> {
    let record = brush_record();
    let head = words(&[3, 1, 0, 0, 2, 1, 0x112233, 0, record.len() as u32]);
    [head, record, words(&[2, 2])].concat()
}

#[test]
fn a_run() {
    let (mut surface, mut journal, mut answers) = (START, [0; 3 * JOURNAL_RECORD], [7; 7]);
    let ran = Ran { status: OK, calls: 3, used: 0 };
    assert_eq!(run(&mut surface, 2, 1, &mut journal, &list(), &mut answers), ran);
    assert_eq!((surface, answers), (START, [OK, 2, OK, 2, NOTHING, 0, 7]));
    assert_eq!(journal[24..], words(&[u32::MAX, 2, STRETCHDIBITS]));
}

#[test]
fn refused_runs() {
    let list = list();
    let cut = &list[..list.len() - 1];
    let cases: [(u32, usize, &[u8], usize, u32); 5] = [
        (3, 36, &list, 6, BAD_SURFACE),
        (2, 35, &list, 6, BAD_JOURNAL),
        (2, 36, cut, 6, BAD_LIST),
        (2, 36, &[], 0, BAD_LIST),
        (2, 36, &list, 5, FEW_ANSWERS),
    ];
    for (width, length, list, room, status) in cases {
        let (mut surface, mut journal, mut answers) = (START, vec![0; length], vec![7; room]);
        let got = run(&mut surface, width, 1, &mut journal, list, &mut answers);
        assert_eq!(got, Ran { status, calls: 0, used: 0 });
        assert_eq!((surface, journal, answers), (START, vec![0; length], vec![7; room]));
    }
}

#[test]
fn readings() {
    let mut absent = [0; NUMBERS];
    absent[BITS] = 1;
    assert_eq!(read(&brush_record(), 0), (OK, absent));

    let header = Header { used: 1, ..Header::new(40, 2, 1, 8) };
    let picture = Picture { header, table: vec![0x0033_2211], pixels: vec![0; 4] };
    let mut record = Record::new(STRETCHDIBITS, [0, 0, 2, 1], operation::rop(0xCC)).from([0, 0, 2, 1], picture).bytes();
    let (status, numbers) = read(&record, 0);
    let named = [HEADER_AT, HEADER_LENGTH, VIEW_AT, VIEW_LENGTH, WIDTH, ROWS, BITS, COMPRESSION, TOP_DOWN];
    assert_eq!((status, named.map(|k| numbers[k])), (OK, [80, 44, 124, 4, 2, 1, 8, 0, 0]));
    assert_eq!(palette(&record, 0)[..2], [0x332211, 0]);
    assert_eq!(palette(&record, 1), [0; 256]);
    // The header part's 45th byte is the bits' first.
    record[52] = 45;
    assert_eq!(read(&record, 0), (SHARED_PARTS, absent));
    record.pop();
    assert_eq!(read(&record, 0), (BAD_SIZE, absent));
}
