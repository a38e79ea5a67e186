//! The largest sizes there are, played and undone by both players.

use compare::judge::{same_all, same_reading};
use compare::makers::largest;
use compare::{arguments, calls, library, memory, random::Random};
use face::constants::{JOURNAL_RECORD, MOST_RECORD, MOST_SIDE as SIDE};
use face::UNWRITTEN;
use records::List;
use second::{Answer, Clip, Ran};
use std::process::ExitCode;
use std::time::Instant;

const HELP: &str = "\
largest [--seed S]

Plays the longest records (16,777,216 bytes, one of each type) onto the largest
surface (4,096 by 4,096) with the longest journal (20,000,000 records), undoes
them, and compares with the second player: answers, the whole surface, the whole
journal, readings. A list of two such records is run by both as well. A record of
4 bytes more, one with a byte in two parts, and a journal of one record more must
be refused. Takes about a quarter of a minute, nearly all of it the second
player's, and 1.2 GB of memory.

  --seed S   other bytes in records and surface (1 if not said)
";

const PIXELS: u64 = SIDE as u64 * SIDE as u64;
const ALL: Clip = Clip { left: i32::MIN, top: i32::MIN, right: i32::MAX, bottom: i32::MAX };

/// One player's surface, journal and count.
struct Held {
    surface: Vec<u32>,
    journal: Vec<u8>,
    used: u64,
}

struct Both {
    ours: Held,
    theirs: Held,
}

impl Both {
    fn play(&mut self, name: &str, record: &[u8], clip: Clip, wanted: Answer) -> Result<(), String> {
        let brush = 0xAB12_C3D4;
        let (o, t) = (&mut self.ours, &mut self.theirs);
        let start = Instant::now();
        let got = library::play(&mut o.surface, SIDE, SIDE, &mut o.journal, &mut o.used, record, clip, brush);
        let ours = start.elapsed();
        let start = Instant::now();
        let said = second::play(&mut t.surface, SIDE, SIDE, &mut t.journal, &mut t.used, record, clip, brush);
        self.compare(&format!("play of {name}"), got, said, wanted, ours, start.elapsed())
    }

    fn undo(&mut self, wanted: Answer) -> Result<(), String> {
        let (o, t) = (&mut self.ours, &mut self.theirs);
        let start = Instant::now();
        let got = library::undo(&mut o.surface, SIDE, SIDE, &o.journal, &mut o.used);
        let ours = start.elapsed();
        let start = Instant::now();
        let said = second::undo(&mut t.surface, SIDE, SIDE, &t.journal, &mut t.used);
        self.compare("undo", got, said, wanted, ours, start.elapsed())
    }

    /// A list, run by both; `answers` are the wanted ones.
    fn run(&mut self, name: &str, list: &[u8], wanted: Ran, answers: &[u32]) -> Result<(), String> {
        let (o, t) = (&mut self.ours, &mut self.theirs);
        let (mut got_answers, mut said_answers) = (vec![UNWRITTEN; answers.len()], vec![UNWRITTEN; answers.len()]);
        let start = Instant::now();
        let got = library::run(&mut o.surface, SIDE, SIDE, &mut o.journal, list, &mut got_answers);
        let ours = start.elapsed();
        let start = Instant::now();
        let said = second::run(&mut t.surface, SIDE, SIDE, &mut t.journal, list, &mut said_answers);
        println!(
            "{name}: status {}, {} calls, {} records in use; library {:.3} s, second player {:.2} s",
            got.status,
            got.calls,
            got.used,
            ours.as_secs_f64(),
            start.elapsed().as_secs_f64()
        );
        if got != wanted || said != wanted {
            return Err(format!("{name}: wanted {wanted:?}, library {got:?}, second player {said:?}"));
        }
        same_all("answers", &got_answers, answers)?;
        same_all("answers", &said_answers, answers)?;
        same_all("surface", &self.ours.surface, &self.theirs.surface)?;
        same_all("journal", &self.ours.journal, &self.theirs.journal)
    }

    fn count(&mut self, used: u64) {
        self.ours.used = used;
        self.theirs.used = used;
    }

    fn compare(
        &self,
        name: &str,
        got: Answer,
        said: Answer,
        wanted: Answer,
        ours: std::time::Duration,
        theirs: std::time::Duration,
    ) -> Result<(), String> {
        println!(
            "{name}: status {}, {} pixels, {} records in use; library {:.3} s, second player {:.2} s",
            got.status,
            got.pixels,
            self.ours.used,
            ours.as_secs_f64(),
            theirs.as_secs_f64()
        );
        if got != wanted || said != wanted {
            return Err(format!("{name}: wanted {wanted:?}, library {got:?}, second player {said:?}"));
        }
        if self.ours.used != self.theirs.used {
            return Err(format!("{name}: second player has {} records in use", self.theirs.used));
        }
        same_all("surface", &self.ours.surface, &self.theirs.surface)?;
        same_all("journal", &self.ours.journal, &self.theirs.journal)
    }
}

fn read(record: &[u8]) -> Result<(), String> {
    for mask in [0, 1] {
        let (status, numbers) = library::read(record, mask);
        same_reading(record, mask, status, &numbers, &library::palette(record, mask))?;
    }
    Ok(())
}

fn all(seed: u64) -> Result<(), String> {
    let mut r = Random::of(seed, 3);
    let start: Vec<u32> = (0..PIXELS).map(|_| r.word()).collect();
    let held = || Held { surface: start.clone(), journal: vec![0; calls::LONGEST_JOURNAL], used: 0 };
    let mut both = Both { ours: held(), theirs: held() };
    let full = Answer { status: 0, pixels: PIXELS };
    let refused = Answer::refused;
    let most = calls::MOST_RECORDS;

    // From an empty journal; then there is no room for another, but for a smaller one, which is undone first.
    let record = largest::stretch(seed);
    assert!(record.len() == MOST_RECORD);
    read(&record)?;
    both.play("0x51", &record, ALL, full)?;
    both.play("0x51 without room", &record, ALL, refused(14))?;
    let rows = (most - PIXELS - 2) / SIDE as u64;
    let clip = Clip { left: 0, top: SIDE as i32 - rows as i32, right: i32::MAX, bottom: i32::MAX };
    both.play("0x51 in the last rows", &record, clip, Answer { status: 0, pixels: rows * SIDE as u64 })?;
    both.undo(Answer { status: 0, pixels: rows * SIDE as u64 })?;
    both.undo(full)?;
    same_all("surface after all undos", &both.ours.surface, &start)?;
    both.undo(refused(15))?;

    // Four bytes more.
    let long = largest::too_long(record);
    read(&long)?;
    both.play("0x51, 4 bytes too long", &long, ALL, refused(3))?;
    drop(long);

    // The journal's last record is just enough, and one too few.
    let record = largest::blend(seed);
    assert!(record.len() == MOST_RECORD);
    read(&record)?;
    both.count(most - PIXELS);
    both.play("0x72 with one record too few", &record, ALL, refused(14))?;
    both.count(most - PIXELS - 1);
    both.play("0x72 up to the journal's end", &record, ALL, full)?;
    both.undo(full)?;
    same_all("surface after the undo", &both.ours.surface, &start)?;

    let record = largest::mask_blit(seed);
    assert!(record.len() == MOST_RECORD);
    read(&record)?;
    both.count(0);
    both.play("0x4E", &record, ALL, full)?;
    both.undo(full)?;
    same_all("surface after the undo", &both.ours.surface, &start)?;
    let shared = largest::shared(record.clone());
    read(&shared)?;
    both.play("0x4E with a byte in two parts", &shared, ALL, refused(21))?;
    drop(shared);

    // A list of two longest records: the first undone, and one undo too many; the second in the last rows.
    let mut list = List::default();
    let whole = [ALL.left, ALL.top, ALL.right, ALL.bottom];
    let low_rows = [clip.left, clip.top, clip.right, clip.bottom];
    list.play(whole, 7, 0, &record, 0);
    list.undo();
    list.undo();
    list.play(low_rows, 7, 0, &record, 0);
    let low = (rows * SIDE as u64) as u32;
    let ran = Ran { status: 0, calls: 4, used: low as u64 + 1 };
    both.run("run of 0x4E", &list.bytes, ran, &[0, PIXELS as u32, 0, PIXELS as u32, 15, 0, 0, low])?;

    // A journal of one record more than the most.
    for held in [&mut both.ours, &mut both.theirs] {
        held.journal.resize(calls::LONGEST_JOURNAL + JOURNAL_RECORD, 0);
    }
    both.play("0x4E, journal of 20,000,001 records", &record, ALL, refused(2))?;
    both.undo(refused(2))?;
    both.run("run, journal of 20,000,001 records", &list.bytes, Ran { status: 2, calls: 0, used: 0 }, &[UNWRITTEN; 8])
}

fn main() -> ExitCode {
    let [seed] = arguments::numbers(["--seed"], HELP);
    let seed = seed.unwrap_or(1);
    memory::watch();
    memory::now(seed, memory::LARGEST);
    let start = Instant::now();
    match all(seed) {
        Ok(()) => {
            println!("no difference, {:.0} seconds", start.elapsed().as_secs_f64());
            ExitCode::SUCCESS
        }
        Err(text) => {
            println!("DIFFERENCE: {text}");
            ExitCode::FAILURE
        }
    }
}
