//! A list of plays and undos, as `lacrumont_run` takes it, in the making.

use crate::bytes::{self, words};

pub const PLAY: u32 = 1;
pub const UNDO: u32 = 2;
/// Where a play has its record's length, counted from the play.
pub const LENGTH: usize = 28;

pub struct List {
    pub bytes: Vec<u8>,
    /// Where the calls stand; the plays among them.
    pub calls: Vec<usize>,
    pub plays: Vec<usize>,
}

impl Default for List {
    fn default() -> List {
        List { bytes: words(&[0]), calls: Vec::new(), plays: Vec::new() }
    }
}

impl List {
    fn call(&mut self, numbers: &[u32]) {
        self.calls.push(self.bytes.len());
        self.bytes.extend(words(numbers));
        bytes::set(&mut self.bytes, 0, self.calls.len() as u32);
    }

    /// The clip is left, top, right, bottom. Behind the record stands `fill` up to the next multiple of 4.
    pub fn play(&mut self, clip: [i32; 4], brush: u32, tag: u32, record: &[u8], fill: u8) {
        self.plays.push(self.bytes.len());
        let [left, top, right, bottom] = clip.map(|n| n as u32);
        self.call(&[PLAY, left, top, right, bottom, brush, tag, record.len() as u32]);
        self.bytes.extend_from_slice(record);
        self.bytes.resize(self.bytes.len().div_ceil(4) * 4, fill);
    }

    pub fn undo(&mut self) {
        self.call(&[UNDO]);
    }
}
