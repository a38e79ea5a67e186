//! Memory faults: every lent buffer against a page that nobody may touch.

use compare::calls::{self, Case, Stage, Step};
use compare::judge::{same_all, same_reading};
use compare::makers::largest;
use compare::memory::{Fenced, Side};
use compare::runs::Run;
use compare::{arguments, memory};
use face::constants::{MOST_SIDE as SIDE, NUMBERS};
use face::{raw, UNWRITTEN};
use records::{List, ALPHABLEND, MASKBLT};
use second::{Answer, Clip, Ran};
use std::process::ExitCode;
use std::time::Instant;

const HELP: &str = "\
fences [--calls N] [--runs M] [--seed S]

Lends each buffer (surface, journal, count in use, record, pixels, numbers,
palette, list, answers, count of calls) so that it ends exactly at a page that
nobody may touch, and in a second round begins exactly behind one. Records and
lists are read-only; so is the journal of an undo. Every refused call is made
twice: the second time surface, journal and answers are read-only too, so that a
write of any byte would end the program. Answers and memory are compared with
the second player.

  --calls N   calls in each of the two rounds (20,000 if not said)
  --runs M    runs of lists in each of them (1,000 if not said)
  --seed S    another seed (1 if not said)

A touch outside ends the program with 139 and says in which case; otherwise it
runs to its end and says what it did.
";

#[derive(Default)]
struct Done {
    calls: u64,
    plays: [[u64; 2]; 3],
    undos: [u64; 2],
    readings: [u64; 2],
    palettes: u64,
    read_only: u64,
    /// Plays and undos with an empty surface, journal or record.
    empty: u64,
    runs: [u64; 2],
    /// The calls of accepted runs.
    in_runs: u64,
}

impl Done {
    fn print(&self) {
        println!("  {} calls:", self.calls);
        for (name, n) in ["0x72", "0x4E", "0x51"].iter().zip(self.plays) {
            println!("  plays of {name}: {} accepted, {} refused", n[0], n[1]);
        }
        println!("  undos: {} accepted, {} refused", self.undos[0], self.undos[1]);
        println!(
            "  readings: {} accepted, {} refused; palettes: {}",
            self.readings[0], self.readings[1], self.palettes
        );
        println!("  refused calls made again with surface and journal read-only: {}", self.read_only);
        println!("  calls with an empty surface, journal or record: {}", self.empty);
        println!(
            "  runs of lists: {} accepted with {} calls, {} refused, made again with surface, journal and answers read-only",
            self.runs[0], self.in_runs, self.runs[1]
        );
    }
}

/// The place of a record's type in `plays`; damaged types count as the last.
fn kind(record: &[u8]) -> usize {
    match record.first().map(|&byte| byte as u32) {
        Some(ALPHABLEND) => 0,
        Some(MASKBLT) => 1,
        _ => 2,
    }
}

fn number_bytes(numbers: &[u32]) -> Vec<u8> {
    numbers.iter().flat_map(|n| n.to_ne_bytes()).collect()
}

/// Where lent bytes stand, to be written or not.
fn at(lent: &Fenced, read_only: bool) -> *mut u8 {
    if read_only {
        lent.at_read_only()
    } else {
        lent.at()
    }
}

/// All that is lent, each between its own fences.
struct Bench {
    side: Side,
    surface: Fenced,
    journal: Fenced,
    used: Fenced,
    record: Fenced,
    pixels: Fenced,
    numbers: Fenced,
    palette: Fenced,
    list: Fenced,
    answers: Fenced,
    calls: Fenced,
    done: Done,
}

impl Bench {
    fn new(side: Side) -> Bench {
        let room = |bytes| Fenced::new(bytes, true);
        Bench {
            side,
            surface: room(40_000),
            journal: room(120_000),
            used: room(8),
            record: room(100_000),
            pixels: room(4),
            numbers: room(8 * NUMBERS),
            palette: room(1_024),
            list: room(100_000),
            answers: room(128),
            calls: room(4),
            done: Done::default(),
        }
    }

    fn used(&self) -> u64 {
        u64::from_ne_bytes(self.used.bytes().try_into().expect("8 bytes"))
    }

    /// The library's play or undo with what is lent now; `play` is clip and brush. With `read_only` a write to surface
    /// or journal ends the program; a write to the record always does, one to the journal in every undo.
    fn call(&mut self, width: u32, height: u32, play: Option<(Clip, u32)>, read_only: bool) -> Answer {
        self.pixels.lend(self.side, &UNWRITTEN.to_ne_bytes());
        let surface = at(&self.surface, read_only) as *mut u32;
        let surface_len = self.surface.len() / 4;
        let (journal, journal_len) = (at(&self.journal, read_only || play.is_none()), self.journal.len());
        let used = self.used.at() as *mut u64;
        let pixels = self.pixels.at() as *mut u32;
        // SAFETY: every pointer has the length that goes with it, and no two buffers meet.
        let status = unsafe {
            match play {
                Some((c, brush)) => raw::lacrumont_play(
                    surface,
                    surface_len,
                    width,
                    height,
                    journal,
                    journal_len,
                    used,
                    self.record.at_read_only(),
                    self.record.len(),
                    c.left,
                    c.top,
                    c.right,
                    c.bottom,
                    brush,
                    pixels,
                ),
                None => raw::lacrumont_undo(surface, surface_len, width, height, journal, journal_len, used, pixels),
            }
        };
        self.done.calls += 1;
        let pixels = u32::from_ne_bytes(self.pixels.bytes().try_into().expect("4 bytes"));
        Answer { status, pixels: pixels as u64 }
    }

    /// The library's run of the list with what is lent now. With `read_only` a write to surface, journal or answers
    /// ends the program; a write to the list always does.
    fn call_run(&mut self, width: u32, height: u32, read_only: bool) -> Ran {
        self.used.lend(self.side, &(UNWRITTEN as u64).to_ne_bytes());
        self.calls.lend(self.side, &UNWRITTEN.to_ne_bytes());
        // SAFETY: as in `call`.
        let status = unsafe {
            raw::lacrumont_run(
                at(&self.surface, read_only) as *mut u32,
                self.surface.len() / 4,
                width,
                height,
                at(&self.journal, read_only),
                self.journal.len(),
                self.list.at_read_only(),
                self.list.len(),
                at(&self.answers, read_only) as *mut u32,
                self.answers.len() / 4,
                self.used.at() as *mut u64,
                self.calls.at() as *mut u32,
            )
        };
        let calls = u32::from_ne_bytes(self.calls.bytes().try_into().expect("4 bytes"));
        Ran { status, calls, used: self.used() }
    }

    fn around_stays(&self) -> Result<(), String> {
        let all = [
            &self.surface,
            &self.journal,
            &self.used,
            &self.record,
            &self.pixels,
            &self.numbers,
            &self.palette,
            &self.list,
            &self.answers,
            &self.calls,
        ];
        if all.iter().all(|b| b.around_stays()) {
            Ok(())
        } else {
            Err("memory beside a lent buffer was written".to_string())
        }
    }

    fn list(&mut self, stage: &Stage, steps: &[Step]) -> Result<(), String> {
        let (w, h) = (stage.width, stage.height);
        let mut surface = stage.surface.clone();
        let mut journal = stage.journal.clone();
        let mut used = stage.used;
        self.surface.lend(self.side, &number_bytes(&surface));
        self.journal.lend(self.side, &journal);
        self.used.lend(self.side, &used.to_ne_bytes());
        for step in steps {
            let (wanted, play) = match step {
                Step::Play(p) => {
                    self.record.lend(self.side, &p.record);
                    let clip = (p.clip, p.brush);
                    let wanted = second::play(&mut surface, w, h, &mut journal, &mut used, &p.record, p.clip, p.brush);
                    (wanted, Some(clip))
                }
                Step::Undo => (second::undo(&mut surface, w, h, &journal, &mut used), None),
            };
            let refused = wanted.status != 0;
            for read_only in [false, true] {
                if read_only && !refused {
                    break;
                }
                let got = self.call(w, h, play, read_only);
                self.done.read_only += u64::from(read_only);
                if got != wanted || self.used() != used {
                    return Err(format!("library {got:?} {}, second player {wanted:?} {used}", self.used()));
                }
                same_all("surface", self.surface.bytes(), &number_bytes(&surface))?;
                same_all("journal", self.journal.bytes(), &journal)?;
                self.around_stays()?;
                match step {
                    Step::Play(p) => self.done.plays[kind(&p.record)][usize::from(refused)] += 1,
                    Step::Undo => self.done.undos[usize::from(refused)] += 1,
                }
                let no_record = matches!(step, Step::Play(p) if p.record.is_empty());
                self.done.empty += u64::from(surface.is_empty() || journal.is_empty() || no_record);
            }
        }
        Ok(())
    }

    fn read(&mut self, record: &[u8], mask: u32) -> Result<(), String> {
        self.record.lend(self.side, record);
        self.numbers.lend(self.side, &[0xA5; 8 * NUMBERS]);
        self.palette.lend(self.side, &[0xA5; 1_024]);
        // SAFETY: as in `call`.
        let status = unsafe {
            let status =
                raw::lacrumont_read(self.record.at_read_only(), record.len(), mask, self.numbers.at() as *mut u64);
            raw::lacrumont_palette(self.record.at_read_only(), record.len(), mask, self.palette.at() as *mut u32);
            status
        };
        let mut numbers = [0; NUMBERS];
        for (n, b) in numbers.iter_mut().zip(self.numbers.bytes().chunks_exact(8)) {
            *n = u64::from_ne_bytes(b.try_into().expect("8 bytes"));
        }
        let mut palette = [0; 256];
        for (n, b) in palette.iter_mut().zip(self.palette.bytes().chunks_exact(4)) {
            *n = u32::from_ne_bytes(b.try_into().expect("4 bytes"));
        }
        same_reading(record, mask, status, &numbers, &palette)?;
        self.around_stays()?;
        self.done.calls += 2;
        self.done.readings[usize::from(status != 0)] += 1;
        self.done.palettes += 1;
        Ok(())
    }

    fn run(&mut self, run: &Run) -> Result<(), String> {
        let (w, h) = (run.stage.width, run.stage.height);
        let mut surface = run.stage.surface.clone();
        let mut journal = run.stage.journal.clone();
        let mut answers = run.answers.clone();
        self.surface.lend(self.side, &number_bytes(&surface));
        self.journal.lend(self.side, &journal);
        self.answers.lend(self.side, &number_bytes(&answers));
        self.list.lend(self.side, &run.list);
        let wanted = second::run(&mut surface, w, h, &mut journal, &run.list, &mut answers);
        let refused = wanted.status != 0;
        for read_only in [false, true] {
            if read_only && !refused {
                break;
            }
            let got = self.call_run(w, h, read_only);
            if got != wanted {
                return Err(format!("run: library {got:?}, second player {wanted:?}"));
            }
            same_all("surface", self.surface.bytes(), &number_bytes(&surface))?;
            same_all("journal", self.journal.bytes(), &journal)?;
            same_all("answers", self.answers.bytes(), &number_bytes(&answers))?;
            self.around_stays()?;
        }
        self.done.runs[usize::from(refused)] += 1;
        self.done.in_runs += wanted.calls as u64;
        Ok(())
    }

    fn case(&mut self, case: &Case) -> Result<(), String> {
        match case {
            Case::List(stage, steps) | Case::Pile(stage, steps) => self.list(stage, steps),
            Case::Read(record, mask) => {
                self.read(record, 0)?;
                self.read(record, *mask)
            }
            // The long ones have a part of their own.
            Case::LongRecord(stage, play, _) => self.list(stage, &[Step::Play(play.clone())]),
            Case::LongJournal(..) => Ok(()),
            Case::Run(run) => self.run(run),
        }
    }

    /// The largest sizes, each at its fences: one full play of each type and its undo, and the refusals beside them;
    /// the last play and its undo as a list, too.
    fn largest(&mut self, seed: u64) -> Result<u64, String> {
        const PIXELS: u64 = SIDE as u64 * SIDE as u64;
        let all = Clip { left: 0, top: 0, right: SIDE as i32, bottom: SIDE as i32 };
        let before = self.done.calls;
        let (marked, side) = (false, self.side);
        self.surface = Fenced::new(4 * PIXELS as usize, marked);
        self.surface.place(side, 4 * PIXELS as usize);
        self.journal = Fenced::new(calls::LONGEST_JOURNAL, marked);
        self.journal.place(side, calls::LONGEST_JOURNAL);
        let expect = |name: &str, got: Answer, status: u32, pixels: u64| {
            if got == (Answer { status, pixels }) {
                Ok(())
            } else {
                Err(format!("{name}: {got:?} where {status} with {pixels} pixels is wanted"))
            }
        };
        let zero = |surface: &Fenced| match surface.bytes().iter().all(|&b| b == 0) {
            true => Ok(()),
            false => Err("the surface is not what it was before the play".to_string()),
        };
        for record in [largest::stretch(seed), largest::blend(seed), largest::mask_blit(seed)] {
            self.record.lend(side, &record);
            // Up to the journal's last byte.
            self.used.lend(side, &(calls::MOST_RECORDS - PIXELS - 1).to_ne_bytes());
            let got = self.call(SIDE, SIDE, Some((all, 7)), false);
            expect("full play", got, 0, PIXELS)?;
            let got = self.call(SIDE, SIDE, Some((all, 7)), true);
            expect("play without room", got, 14, 0)?;
            self.record.lend(side, &largest::too_long(record));
            let got = self.call(SIDE, SIDE, Some((all, 7)), true);
            expect("record too long", got, 3, 0)?;
            let got = self.call(SIDE, SIDE, None, false);
            expect("undo", got, 0, PIXELS)?;
            // It was all zero before.
            zero(&self.surface)?;
        }
        self.record.lend(side, &largest::shared(largest::mask_blit(seed)));
        let got = self.call(SIDE, SIDE, Some((all, 7)), true);
        expect("a byte in two parts", got, 21, 0)?;
        let mut list = List::default();
        list.play([0, 0, SIDE as i32, SIDE as i32], 7, 0, &largest::mask_blit(seed), 0);
        list.undo();
        list.undo();
        let answers = [0, PIXELS as u32, 0, PIXELS as u32, 15, 0];
        self.list.lend(side, &list.bytes);
        self.answers.lend(side, &number_bytes(&[UNWRITTEN; 6]));
        let got = self.call_run(SIDE, SIDE, false);
        if got != (Ran { status: 0, calls: 3, used: 0 }) {
            return Err(format!("full run: {got:?}"));
        }
        same_all("answers", self.answers.bytes(), &number_bytes(&answers))?;
        zero(&self.surface)?;
        Ok(self.done.calls - before + 1)
    }
}

fn one(bench: &mut Bench, seed: u64, number: u64) -> Result<(), String> {
    memory::now(seed, number);
    bench.case(&calls::case(seed, number)).map_err(|text| format!("seed {seed}, case {number}: {text}"))
}

fn round(side: Side, seed: u64, calls: u64, runs: u64) -> Result<(), String> {
    let mut bench = Bench::new(side);
    let mut number = 0;
    while bench.done.calls < calls {
        one(&mut bench, seed, number)?;
        number += 1;
    }
    for number in 0..runs {
        one(&mut bench, seed, calls::RUNS + number)?;
    }
    bench.done.print();
    memory::now(seed, memory::LARGEST);
    let calls = bench.largest(seed)?;
    println!("  largest sizes: {calls} calls");
    Ok(())
}

fn main() -> ExitCode {
    let [calls, runs, seed] = arguments::numbers(["--calls", "--runs", "--seed"], HELP);
    memory::watch();
    let start = Instant::now();
    for side in [Side::EndsAtFence, Side::BeginsBehindFence] {
        match side {
            Side::EndsAtFence => println!("each buffer ends at a fence:"),
            Side::BeginsBehindFence => println!("each buffer begins behind a fence:"),
        }
        if let Err(text) = round(side, seed.unwrap_or(1), calls.unwrap_or(20_000), runs.unwrap_or(1_000)) {
            println!("DIFFERENCE: {text}");
            return ExitCode::FAILURE;
        }
    }
    println!("no touch outside, {:.1} seconds", start.elapsed().as_secs_f64());
    ExitCode::SUCCESS
}
