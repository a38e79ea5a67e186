//! Sheets, journals and counts in use: statuses 1, 2 and 14 to 16.

use crate::pictures::picture;
use crate::random::Random;
use crate::script::{brushed, record, Script, HEIGHT, JOURNAL, ODD, RECORD, RECORDS, WHOLE, WIDEST, WIDTH};
use records::operation::blend_field;
use records::ALPHABLEND;

/// Statuses 1, 2, 14, 15 and lends of all sorts.
pub fn sheets_and_journals(s: &mut Script) {
    let two = brushed([0, 0, 2, 1], 0xF0).bytes();
    let over_all = brushed([0, 0, 4_096, 4_096], 0x5A).bounded([-9, -9, 5_000, 5_000]).bytes();

    s.play(WHOLE, 1, &two); // width 4,097: 1, before the count's 2
    s.undo(); // the same for a take-back: 1
    s.lend(4_096, 1, 4_096, JOURNAL); // the widest sheet
    s.play(WHOLE, 1, &two); // count above the records: 2
    s.count(RECORDS); // no record free
    s.play(WHOLE, 1, &two); // 14
    s.play([0, 0, 0, 0], 1, &two); // counts 0, but its closing record finds no room: 14
    s.play(WHOLE, 1, &two[..7]); // 3 comes before 14
    s.undo(); // the fill bytes are no closing record: 16
    s.count(0); // nothing in use
    s.undo(); // 15
    s.play([4_000, -5, 9_999, 7], 0x0F1E2D, &over_all); // the last 96 of 4,096 columns
    s.lend(1, 4_096, 4_096, JOURNAL); // the highest sheet, same pixels
    s.play([-1, 4_050, 1, 4_090], 0xFF33_5577, &over_all); // 40 rows; brush's high byte ignored
    s.undo(); // 40 restored
    s.undo(); // records at y 0 and x up to 4,095 are off this sheet: 16
    s.lend(4_096, 1, 4_096, JOURNAL); // back
    s.undo(); // 96 restored
    s.lend(1, 4_097, 4_097, JOURNAL); // one too high
    s.play(WIDEST, 1, &two); // 1
    s.lend(4_096, 1, 4_095, JOURNAL); // one pixel short
    s.undo(); // 1, before 15
    s.lend(0, 0, 0, ODD); // no sides, and a bad journal
    s.play(WIDEST, 1, &two); // 1, before 2
    s.lend(65_536, 65_536, 0, JOURNAL); // a product that looks like 0 in 32 bits
    s.play(WIDEST, 1, &two); // 1
    s.lend(WIDTH, HEIGHT, 480, ODD); // the working sheet, a byte short of whole records
    s.play(WHOLE, 1, &two[..7]); // 2, before the record's 3
    s.undo(); // 2, before 15
    s.lend(WIDTH, HEIGHT, 480, 0); // an empty journal is lawful
    s.undo(); // 15
    s.play(WHOLE, 1, &two); // 14
    s.lend(WIDTH, HEIGHT, 480, RECORD); // one record
    s.play([3, 3, 3, 9], 1, &two); // empty clip: counts 0, takes the one record
    s.play([3, 3, 3, 9], 1, &two); // the second finds no room: 14
    s.undo(); // 0 restored, count 0
    s.lend(2, 1, 2, 3 * RECORD); // document 01's whole play
    s.play([0, 0, 2, 1], 0x112233, &two); // three records take it
    s.undo(); // 2 restored
    s.lend(2, 1, 2, 2 * RECORD); // one record short
    s.play([0, 0, 2, 1], 0x112233, &two); // 14
    s.lend(2, 1, 2, ODD); // one byte short
    s.play([0, 0, 2, 1], 0x112233, &two); // 2
    s.lend(WIDTH, HEIGHT, 480, JOURNAL); // the working sheet from here on
}

/// Plays, then as many take-backs and one more.
pub fn take_backs(s: &mut Script, r: &mut Random) {
    s.count(0); // the first page again, written anew
    let p = picture(r, 40, 9, 7, 32, 0);
    for k in 0..5 {
        // Layers that overlap, one of them counting 0.
        let dest = [2 * k, k, 11, 9];
        let rec = record(ALPHABLEND, dest, blend_field(60 + 30 * k as u32, k as u32 % 2));
        let clip = if k == 3 { [5, 5, 5, 5] } else { WHOLE };
        s.play(clip, 0, &rec.from([0, 0, 9, 7], p.clone()).bytes());
    }
    s.undo(); // the fifth
    s.play(WHOLE, 0x0055_AA55, &brushed([0, 0, 24, 20], 0x5A).bytes()); // over all, in their room
    s.play(WHOLE, 0, &brushed([0, 0, 24, 0], 0x5A).bytes()); // refused, changes nothing: 12
    s.undo(); // the one over all
    s.undo(); // the fourth: 0 restored
    s.undo(); // the third
    s.undo(); // the second
    s.undo(); // the first
    s.undo(); // none left: 15
    s.play(WHOLE, 0x0001_0203, &brushed([19, 15, 5, 5], 0xA5).bytes()); // one that stays
    s.lend(20, 24, 480, JOURNAL); // as many pixels, other sides
    s.undo(); // its columns 20 to 23 are off this sheet: 16
    s.lend(WIDTH, HEIGHT, 480, 25 * RECORD); // a journal without its closing record
    s.undo(); // the count stands above it: 2
    s.lend(WIDTH, HEIGHT, 480, JOURNAL); // back
}

/// Journals no play wrote.
pub fn foreign_journals(s: &mut Script) {
    let k = 50_000;
    let mark = 0xFFFF_FFFF;
    s.poke_record(k, [3, 2, 0x1111_1111]); // a pixel
    s.poke_record(k + 1, [3, 2, 0x2222_2222]); // the same pixel again
    s.poke_record(k + 2, [23, 19, 0x3333_3333]); // the last pixel
    s.poke(k + 3, 0, mark); // a closing record; its type is a fill byte's
    s.poke(k + 3, 1, 3); // it names all three
    s.count(k + 4); // in use
    s.undo(); // 3 restored, from last to first: 0x11111111 stays
    s.poke(k + 2, 0, 24); // x at the width
    s.count(k + 4); // in use again
    s.undo(); // off the sheet: 16
    s.poke(k + 2, 0, 23); // x put right
    s.poke(k + 2, 1, 20); // y at the height
    s.undo(); // 16
    s.poke(k + 2, 0, mark); // a closing record among those named
    s.undo(); // off every sheet: 16
    s.poke(k + 3, 1, 0); // the closing record names none
    s.undo(); // 0 restored, count down by one
    s.undo(); // the next names 20, fill bytes among them: 16
    s.poke(k + 2, 1, 0xFFFF_FFFF); // it names the most there can be
    s.undo(); // more than stand before it: 16
    s.poke(k + 2, 1, 1); // it names one
    s.poke(k + 1, 0, 4); // and that is another pixel now
    s.undo(); // 1 restored
    s.undo(); // not a closing record: 16

    // A journal from its beginning.
    s.poke_record(0, [5, 5, 0x4444_4444]); // a pixel
    s.poke_record(1, [mark, 2, 0x51]); // names two, one stands before it
    s.count(2); // in use
    s.undo(); // 16
    s.poke(1, 1, 1); // names the one
    s.undo(); // 1 restored, count 0
    s.undo(); // 15
    s.count(0xFFFF_FFFF); // the highest count
    s.undo(); // 2
    s.poke(RECORDS - 1, 0, mark); // a closing record at the very end
    s.poke(RECORDS - 1, 1, 0); // it names none
    s.count(RECORDS); // all in use
    s.undo(); // 0 restored
}
