//! "The pile of condition 3"

use crate::answer::Answer;
use crate::journal::{sheet_passes, MOST_RECORDS};
use crate::play::{new_pixel, place_of, places};
use crate::refusals::check;
use crate::region::Clip;

/// "its plays, none at first, each with all that came with its call"
#[derive(Clone, Debug)]
struct Laid {
    record: Vec<u8>,
    clip: Clip,
    brush: u32,
}

/// "Its state is the starting sheet, the journal's number of records, and its
/// plays".  It never sees a call's sheet, journal, count or answer.
#[derive(Clone, Debug)]
pub struct Pile {
    start: Vec<u32>,
    records: u64,
    width: u32,
    height: u32,
    plays: Vec<Laid>,
}

impl Pile {
    /// "The list starts from any sheet and journal that refusals 1 and 2 let
    /// pass, any bytes in the journal, count in use 0."
    pub fn new(surface: &[u32], records: u64, width: u32, height: u32) -> Pile {
        assert!(
            sheet_passes(surface.len(), width, height) && records <= MOST_RECORDS,
            "a pile starts from a sheet and journal that 1 and 2 let pass"
        );
        Pile { start: surface.to_vec(), records, width, height, plays: Vec::new() }
    }

    /// "its count is the number of pixels of its clipped target"
    fn count(&self, laid: &Laid) -> u64 {
        let sound = check(&laid.record).expect("only accepted plays are laid");
        places(&sound, self.width, self.height, &laid.clip).len() as u64
    }

    /// "The pile's room is the sum of count + 1 over its plays."
    pub fn room(&self) -> u64 {
        self.plays.iter().map(|laid| self.count(laid) + 1).sum()
    }

    /// "Its sheet is the starting sheet with its plays drawn, lowest first."
    pub fn surface(&self) -> Vec<u32> {
        let mut sheet = self.start.clone();
        for laid in &self.plays {
            let sound = check(&laid.record).expect("only accepted plays are laid");
            for (x, y) in places(&sound, self.width, self.height, &laid.clip) {
                let k = place_of(x, y, self.width);
                sheet[k] = new_pixel(&laid.record, &sound, laid.brush, x as i64, y as i64, sheet[k]);
            }
        }
        sheet
    }

    pub fn play(&mut self, record: &[u8], clip: Clip, brush: u32) -> Answer {
        // "if a refusal ordered from 3 to 13 applies to its record, the answer
        // is the first of these and 0 pixels"; 21 is one of these (A50).
        if let Err(refusal) = check(record) {
            return Answer::refused(refusal);
        }
        let laid = Laid { record: record.to_vec(), clip, brush };
        let count = self.count(&laid);
        // "if its count + 1 exceeds the journal's records less the room, the
        // answer is 14 and 0 pixels"
        if count + 1 > self.records - self.room() {
            return Answer::refused(14);
        }
        // "Otherwise it goes on top, and the answer is 0 with its count."
        self.plays.push(laid);
        Answer { status: 0, pixels: count }
    }

    /// "with no plays the answer is 15 and 0 pixels. Otherwise the top play
    /// leaves, and the answer is 0 with its count."
    pub fn undo(&mut self) -> Answer {
        match self.plays.pop() {
            None => Answer::refused(15),
            Some(laid) => Answer { status: 0, pixels: self.count(&laid) },
        }
    }
}
