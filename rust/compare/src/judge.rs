//! Runs a case on both players and says what differs.

use crate::calls::{Case, Play, Stage, Step, JOURNAL_BUFFER, MOST_RECORDS, RECORD_BUFFER};
use crate::library;
use crate::runs::Run;
use crate::tally::{Call, Tally};
use face::constants::{HEADER_AT, JOURNAL_RECORD, MOST_RECORD, NUMBERS, SHARED_PARTS, VIEW_AT};
use second::{Answer, Clip, Pile};
use std::fmt::Debug;
use std::ops::Range;

/// What stands around lent memory and must stay.
const AROUND: u8 = 0xB7;
const AROUND_PIXEL: u32 = 0xB7B7_B7B7;
const BEHIND: usize = 16;

/// How much of a long journal is compared on either side of what a call may write. The whole is, at the end.
const WINDOW: usize = 4_096;

fn same<T: PartialEq + Debug>(what: &str, library: T, second: T) -> Result<(), String> {
    if library == second {
        Ok(())
    } else {
        Err(format!("{what}: library {library:?}, second player {second:?}"))
    }
}

/// The first place where two runs of numbers differ.
pub fn same_all<T: PartialEq + Debug>(what: &str, library: &[T], second: &[T]) -> Result<(), String> {
    same(&format!("{what}, length"), library.len(), second.len())?;
    if library == second {
        return Ok(());
    }
    let k = library.iter().zip(second).position(|(a, b)| a != b).expect("they differ");
    Err(format!("{what}, place {k}: library {:x?}, second player {:x?}", library[k], second[k]))
}

/// The library's reading against the second player's: all numbers, both parts' bytes, the palette.
pub fn same_reading(
    record: &[u8],
    mask: u32,
    status: u32,
    numbers: &[u64; NUMBERS],
    palette: &[u32; 256],
) -> Result<(), String> {
    let wanted = second::reading(record, mask != 0);
    same("status", status, wanted.status)?;
    let list = [
        wanted.header.offset,
        wanted.header.length,
        wanted.view.offset,
        wanted.view.length,
        wanted.width as u64,
        wanted.rows as u64,
        wanted.bits as u64,
        wanted.compression as u64,
        wanted.top_down as u64,
        wanted.red as u64,
        wanted.green as u64,
        wanted.blue as u64,
        wanted.alpha as u64,
    ];
    same_all("numbers of the reading", &numbers[..], &list[..])?;
    for (what, k) in [("header part", HEADER_AT), ("view", VIEW_AT)] {
        let part = |at: u64, length: u64| {
            record.get(at as usize..(at as usize).checked_add(length as usize)?).map(|bytes| bytes.as_ptr_range())
        };
        let got = part(numbers[k], numbers[k + 1]).ok_or(format!("{what}: not in the record"))?;
        same(what, Some(got), part(list[k], list[k + 1]))?;
    }
    same_all("palette", &palette[..], &wanted.palette[..])
}

/// Numbers as the library is lent them: at any address, with others around that must stay.
struct Lent<T> {
    all: Vec<T>,
    at: Range<usize>,
    around: T,
}

impl<T: Copy + PartialEq> Lent<T> {
    fn new(numbers: &[T], lead: usize, around: T) -> Lent<T> {
        let mut all = vec![around; lead];
        all.extend_from_slice(numbers);
        all.resize(all.len() + BEHIND, around);
        Lent { all, at: lead..lead + numbers.len(), around }
    }

    fn get(&self) -> &[T] {
        &self.all[self.at.clone()]
    }

    fn get_mut(&mut self) -> &mut [T] {
        &mut self.all[self.at.clone()]
    }

    fn around_stays(&self, what: &str) -> Result<(), String> {
        if self.all[..self.at.start].iter().chain(&self.all[self.at.end..]).all(|n| *n == self.around) {
            Ok(())
        } else {
            Err(format!("memory beside the {what} was written"))
        }
    }
}

/// One call, with the record as it is lent.
#[derive(Clone, Copy)]
enum Move<'a> {
    Play(&'a [u8], Clip, u32),
    Undo,
}

/// What each player holds between the calls of a list.
struct Players {
    width: u32,
    height: u32,
    our_surface: Lent<u32>,
    our_journal: Lent<u8>,
    our_used: u64,
    their_surface: Vec<u32>,
    their_journal: Vec<u8>,
    their_used: u64,
}

impl Players {
    fn new(stage: &Stage) -> Players {
        Players {
            width: stage.width,
            height: stage.height,
            our_surface: Lent::new(&stage.surface, stage.lead[0], AROUND_PIXEL),
            our_journal: Lent::new(&stage.journal, stage.lead[1], AROUND),
            our_used: stage.used,
            their_surface: stage.surface.clone(),
            their_journal: stage.journal.clone(),
            their_used: stage.used,
        }
    }

    /// Both make the call; all but a long journal is compared. Gives the answer on which they agree.
    fn call(&mut self, one: Move, long: Option<&mut Long>, talk: bool) -> Result<Answer, String> {
        let (w, h) = (self.width, self.height);
        let (surface_before, used_before) = (self.their_surface.clone(), self.their_used);
        let journal_before = self.their_journal.clone();
        let is_long = long.is_some();
        let (ours, theirs) = match long {
            Some(long) => (&mut long.library[..long.lent], &mut long.second[..long.lent]),
            None => (self.our_journal.get_mut(), &mut self.their_journal[..]),
        };
        let surface = self.our_surface.get_mut();
        let (got, wanted) = match one {
            Move::Play(record, clip, brush) => (
                library::play(surface, w, h, ours, &mut self.our_used, record, clip, brush),
                second::play(&mut self.their_surface, w, h, theirs, &mut self.their_used, record, clip, brush),
            ),
            Move::Undo => (
                library::undo(surface, w, h, ours, &mut self.our_used),
                second::undo(&mut self.their_surface, w, h, theirs, &mut self.their_used),
            ),
        };
        if talk {
            println!(
                "{}: library {} with {} pixels, {} in use; second player {} with {}, {} in use",
                if matches!(one, Move::Undo) { "undo" } else { "play" },
                got.status,
                got.pixels,
                self.our_used,
                wanted.status,
                wanted.pixels,
                self.their_used
            );
        }
        same("answer", got, wanted)?;
        same("records in use", self.our_used, self.their_used)?;
        same_all("surface", self.our_surface.get(), &self.their_surface)?;
        self.our_surface.around_stays("surface")?;
        if !is_long {
            same_all("journal", self.our_journal.get(), &self.their_journal)?;
            self.our_journal.around_stays("journal")?;
        }
        if got.status != 0 {
            // Not only as the second player has it, but as it was.
            same("pixels of a refused call", got.pixels, 0)?;
            same("records in use after a refused call", self.our_used, used_before)?;
            same_all("surface after a refused call", self.our_surface.get(), &surface_before)?;
            if !is_long {
                same_all("journal after a refused call", self.our_journal.get(), &journal_before)?;
            }
        }
        Ok(got)
    }
}

/// Buffers for the longest lengths, made once and all zero between cases.
struct Long {
    record: Vec<u8>,
    library: Vec<u8>,
    second: Vec<u8>,
    /// How many of the journals' bytes are lent.
    lent: usize,
}

impl Long {
    fn new() -> Long {
        // Untouched zero pages cost no memory.
        let journal = || vec![0; JOURNAL_BUFFER];
        Long { record: vec![0; RECORD_BUFFER], library: journal(), second: journal(), lent: 0 }
    }
}

#[derive(Default)]
pub struct Judge {
    pub tally: Tally,
    /// Prints every call's answers.
    pub talk: bool,
    long: Option<Long>,
}

impl Judge {
    pub fn run(&mut self, case: &Case) -> Result<(), String> {
        self.tally.cases += 1;
        match case {
            Case::List(stage, steps) => self.list(stage, steps, None),
            Case::Pile(stage, steps) => {
                self.tally.piles += 1;
                let records = (stage.journal.len() / JOURNAL_RECORD) as u64;
                let pile = Pile::new(&stage.surface, records, stage.width, stage.height);
                self.list(stage, steps, Some(pile))
            }
            Case::Read(record, mask) => {
                let lent = Lent::new(record, record.len() % 5, AROUND);
                for mask in [0, *mask] {
                    self.read(lent.get(), mask)?;
                    same_all("record after a reading", lent.get(), record)?;
                }
                Ok(())
            }
            Case::LongRecord(stage, play, length) => self.long_record(stage, play, *length),
            Case::LongJournal(stage, steps, length) => self.long_journal(stage, steps, *length),
            Case::Run(run) => self.list_run(run),
        }
    }

    /// Counts a call on which both agreed.
    fn agreed(&mut self, step: &Step, got: Answer) {
        match step {
            Step::Undo => self.tally.count(Call::Undo, got.status),
            Step::Play(play) => {
                self.tally.count(Call::Play, got.status);
                if got.status == 0 {
                    let sound = second::check(&play.record).expect("just accepted");
                    self.tally.drawn(&play.record, &sound, got.pixels);
                }
                if got.status == SHARED_PARTS {
                    self.tally.shared(&play.record);
                }
            }
        }
    }

    fn list(&mut self, stage: &Stage, steps: &[Step], mut pile: Option<Pile>) -> Result<(), String> {
        let mut players = Players::new(stage);
        for (k, step) in steps.iter().enumerate() {
            let fault = |text: String| format!("call {k}: {text}");
            let got = match step {
                Step::Play(p) => {
                    let record = Lent::new(&p.record, stage.lead[2], AROUND);
                    let one = Move::Play(record.get(), p.clip, p.brush);
                    let got = players.call(one, None, self.talk).map_err(fault)?;
                    same_all("record after the call", record.get(), &p.record).map_err(fault)?;
                    got
                }
                Step::Undo => players.call(Move::Undo, None, self.talk).map_err(fault)?,
            };
            if let Some(pile) = &mut pile {
                let wanted = match step {
                    Step::Play(p) => pile.play(&p.record, p.clip, p.brush),
                    Step::Undo => pile.undo(),
                };
                same("answer, second is the pile's", got, wanted).map_err(fault)?;
                same("records in use, second is the pile's room", players.our_used, pile.room()).map_err(fault)?;
                same_all("surface, second is the pile's", players.our_surface.get(), &pile.surface()).map_err(fault)?;
            }
            self.agreed(step, got);
        }
        Ok(())
    }

    fn read(&mut self, record: &[u8], mask: u32) -> Result<(), String> {
        let (status, numbers) = library::read(record, mask);
        let palette = library::palette(record, mask);
        if self.talk {
            println!("reading {mask}: library {status} {numbers:?}");
            println!("second player {:?}", second::reading(record, mask != 0));
        }
        same_reading(record, mask, status, &numbers, &palette).map_err(|text| format!("reading {mask}: {text}"))?;
        self.tally.count(Call::Read, status);
        if status == SHARED_PARTS {
            self.tally.shared(record);
        }
        self.tally.long_records += u64::from(status == 3 && record.len() > MOST_RECORD);
        Ok(())
    }

    fn long_record(&mut self, stage: &Stage, play: &Play, length: usize) -> Result<(), String> {
        let mut long = self.long.take().unwrap_or_else(Long::new);
        let begin = 0..play.record.len();
        long.record[begin.clone()].copy_from_slice(&play.record);
        let record = &long.record[..length];
        let got = Players::new(stage).call(Move::Play(record, play.clip, play.brush), None, self.talk)?;
        self.tally.count(Call::Play, got.status);
        self.tally.long_records += u64::from(got.status == 3 && length > MOST_RECORD);
        self.read(record, 0)?;
        self.read(record, 1)?;
        same_all("record after the calls", &long.record[begin.clone()], &play.record)?;
        long.record[begin].fill(0);
        self.long = Some(long);
        Ok(())
    }

    fn long_journal(&mut self, stage: &Stage, steps: &[Step], length: usize) -> Result<(), String> {
        let mut long = self.long.take().unwrap_or_else(Long::new);
        long.lent = length;
        let mut players = Players::new(stage);
        let mut written = Vec::new();
        for (k, step) in steps.iter().enumerate() {
            let fault = |text: String| format!("call {k}: {text}");
            let before = players.our_used;
            let one = match step {
                Step::Play(p) => Move::Play(&p.record, p.clip, p.brush),
                Step::Undo => Move::Undo,
            };
            let got = players.call(one, Some(&mut long), self.talk).map_err(fault)?;
            // Where the call may have written, and both ends.
            let at = |used: u64| used.saturating_mul(JOURNAL_RECORD as u64).min(length as u64) as usize;
            let (low, high) = (at(before.min(players.our_used)), at(before.max(players.our_used)));
            let near = low.saturating_sub(WINDOW)..(high + WINDOW).min(JOURNAL_BUFFER);
            for part in [0..WINDOW, near, JOURNAL_BUFFER - WINDOW..JOURNAL_BUFFER] {
                same_all("journal", &long.library[part.clone()], &long.second[part.clone()])
                    .map_err(|text| fault(format!("from byte {}: {text}", part.start)))?;
            }
            if got.status == 0 && matches!(step, Step::Play(_)) {
                written.push(low..high);
            }
            // Is the number of records all that is wrong with the journal?
            let records = (length / JOURNAL_RECORD) as u64;
            let over = records > MOST_RECORDS && length % JOURNAL_RECORD == 0 && before <= records;
            self.tally.long_journals += u64::from(got.status == 2 && over);
            self.agreed(step, got);
        }
        for part in written {
            long.library[part.clone()].fill(0);
            long.second[part].fill(0);
        }
        self.long = Some(long);
        Ok(())
    }

    /// A list, run by the library and by the second player's pile.
    fn list_run(&mut self, run: &Run) -> Result<(), String> {
        let stage = &run.stage;
        let (w, h) = (stage.width, stage.height);
        let list = Lent::new(&run.list, stage.lead[2], AROUND);
        let mut surface = Lent::new(&stage.surface, stage.lead[0], AROUND_PIXEL);
        let mut journal = Lent::new(&stage.journal, stage.lead[1], AROUND);
        let mut answers = Lent::new(&run.answers, stage.lead[0], AROUND_PIXEL);
        let got = library::run(surface.get_mut(), w, h, journal.get_mut(), list.get(), answers.get_mut());

        let (mut surface_wanted, mut journal_wanted) = (stage.surface.clone(), stage.journal.clone());
        let mut answers_wanted = run.answers.clone();
        let wanted = second::run(&mut surface_wanted, w, h, &mut journal_wanted, &run.list, &mut answers_wanted);
        if self.talk {
            println!("run: library {got:?}, answers {:?}", answers.get());
            println!("second player {wanted:?}, answers {answers_wanted:?}");
        }
        same("status", got.status, wanted.status)?;
        same("calls", got.calls, wanted.calls)?;
        same("records in use", got.used, wanted.used)?;
        same_all("answers and what is behind them", answers.get(), &answers_wanted)?;
        same_all("surface", surface.get(), &surface_wanted)?;
        same_all("journal", journal.get(), &journal_wanted)?;
        same_all("list after the run", list.get(), &run.list)?;
        surface.around_stays("surface")?;
        journal.around_stays("journal")?;
        answers.around_stays("answers")?;
        if got.status != 0 {
            // Not only as the second player has it, but as it was.
            same("calls and records in use of a refused run", (got.calls, got.used), (0, 0))?;
            same_all("answers after a refused run", answers.get(), &run.answers)?;
            same_all("surface after a refused run", surface.get(), &stage.surface)?;
            same_all("journal after a refused run", journal.get(), &stage.journal)?;
        }
        let made = 2 * got.calls as usize;
        self.tally.ran(got.status, run.damage, &answers.get()[..made]);
        Ok(())
    }

    /// The end of a run: the long buffers were written nowhere else.
    pub fn finish(&self) -> Result<(), String> {
        if let Some(long) = &self.long {
            for (name, bytes) in [("record", &long.record), ("journal", &long.library)] {
                if let Some(k) = bytes.iter().position(|&b| b != 0) {
                    return Err(format!("the long {name} was written at byte {k}, outside every call's range"));
                }
            }
        }
        Ok(())
    }
}
