//! Records played one after the other, and what is said of each.

use std::path::Path;

use face::constants::{MOST_JOURNAL, NO_ROOM};
use face::Clip;

use super::output::Out;
use super::tally::Tally;
use crate::journal::Journal;
use crate::reach::Area;
use crate::sheet::Sheet;
use crate::survey::Listed;
use crate::words;

pub struct Playing<'a> {
    pub sheet: &'a mut Sheet,
    pub journal: Journal,
    /// Records that the journal had in use before.
    pub held: u64,
    /// For plays that are not kept; None where the journal keeps them.
    pub scratch: Option<Journal>,
    /// None for the whole sheet.
    pub clip: Option<Clip>,
    pub brush: u32,
    /// Journal records that the plays take.
    pub needed: u64,
    pub tally: Tally,
    pub out: &'a mut Out,
}

impl Playing<'_> {
    /// Plays a record that reading accepts, and says what it has drawn.
    pub fn play(&mut self, path: &Path, listed: &Listed) -> Result<(), String> {
        let (place, clip) = (format!("{}: {}", path.display(), listed.name()), self.clip());
        let journal = self.scratch.as_mut().unwrap_or(&mut self.journal);
        let answer = journal.play(&mut self.sheet.surface, listed.record.bytes, clip, self.brush);
        // These plays will not be taken back, so each may have the whole journal.
        if let Some(scratch) = &mut self.scratch {
            scratch.forget();
        }
        match answer {
            Ok(pixels) => {
                self.needed += u64::from(pixels) + 1;
                self.drawn(&place, listed, pixels);
                Ok(())
            }
            Err(NO_ROOM) => Err(self.full(&place, listed)),
            Err(status) => Err(format!("{place}: {}. Nothing was written", words::numbered(status))),
        }
    }

    fn drawn(&mut self, place: &str, listed: &Listed, pixels: u32) {
        self.out.line(&format!("{place}: {}", words::things(pixels.into(), "pixel")));
        if pixels > 0 {
            self.tally.played += 1;
            self.cut(place, listed, pixels);
            return;
        }
        self.tally.nothing += 1;
        let why = self.reach(listed).and_then(Result::err).unwrap_or_else(|| "no pixel is reached".to_string());
        self.tally.warn(&format!("{place}: accepted, but it draws nothing: {why}"));
    }

    /// Half a layer is told: what the clip leaves of the target, and the sheet does not.
    fn cut(&mut self, place: &str, listed: &Listed, pixels: u32) {
        let clipped = |target: Area| self.clip.map_or(target, |clip| target.meet(Area::clip(clip)));
        let wanted = listed.target().map_or(0, |target| clipped(target).pixels());
        if u64::from(pixels) < wanted {
            let of = if self.clip.is_some() { "the clipped target's" } else { "its target's" };
            let (pixels, wanted) = (words::count(pixels.into()), words::count(wanted));
            self.tally.warn(&format!("{place}: only {pixels} of {of} {wanted} pixels lie on the sheet"));
        }
    }

    fn reach(&self, listed: &Listed) -> Option<Result<u64, String>> {
        let (width, height) = (self.sheet.surface.width, self.sheet.surface.height);
        let clip = Area::cut(self.clip(), width, height);
        let called = match self.clip {
            Some(_) => format!("the clip {}, {}, {}, {}", clip.left, clip.top, clip.right, clip.bottom),
            None => format!("the sheet of {width} by {height} pixels"),
        };
        listed.reach(clip, &called)
    }

    fn clip(&self) -> Clip {
        let surface = &self.sheet.surface;
        let whole = Clip { left: 0, top: 0, right: surface.width as i32, bottom: surface.height as i32 };
        self.clip.unwrap_or(whole)
    }

    fn free(&self) -> u64 {
        MOST_JOURNAL as u64 - self.journal.used()
    }

    fn full(&self, place: &str, listed: &Listed) -> String {
        let wanted = self.reach(listed).and_then(Result::ok).unwrap_or(0) + 1;
        format!("{place}: {}", self.no_room("this play", wanted))
    }

    /// Status 14: what is wanted and free, and what to do.
    fn no_room(&self, what: &str, wanted: u64) -> String {
        let (wanted, free, all) = (words::count(wanted), words::count(self.free()), words::count(MOST_JOURNAL as u64));
        // In an empty journal there is nothing to take back, and another one has no more room.
        let others = match self.held {
            0 => "",
            _ => "take plays back with undo, begin another journal with --new-journal (this one is kept), ",
        };
        format!(
            "status {NO_ROOM}: the journal has no room for {what}: it needs {wanted} records, and {free} of {all} are free. \
             Nothing was written. What helps: {others}draw less with --clip, --only or --skip, or play without --journal"
        )
    }

    /// The end of a dry run: what a play would need.
    pub fn end_dry(self, journal: Option<&Path>) -> Result<u8, String> {
        let needed = words::things(self.needed, "journal record");
        self.out.line(&format!("dry run: {}; {needed} needed; nothing was written", self.tally.line()));
        let Some(path) = journal else {
            return Ok(self.tally.code());
        };
        let free = self.free();
        self.out.line(&format!("journal {} has {} free", path.display(), words::things(free, "record")));
        if self.needed > free {
            return Err(self.no_room("these plays", self.needed));
        }
        Ok(self.tally.code())
    }
}
