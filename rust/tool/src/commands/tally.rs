//! What has become of the records, and the exit code that follows.

use super::output::{complain, FINE, REFUSED, WARNED};

/// Each bitmap record is counted once.
#[derive(Clone, Copy, Debug, Default, PartialEq, Eq)]
pub struct Tally {
    /// Accepted, and drew at least a pixel.
    pub played: u64,
    /// Accepted, and drew none.
    pub nothing: u64,
    pub refused: u64,
    /// Of a type that is not played.
    pub skipped: u64,
    /// Not wanted: --only or --skip.
    pub left_out: u64,
    pub warnings: u64,
}

impl Tally {
    /// A warning on standard error.
    pub fn warn(&mut self, words: &str) {
        self.warnings += 1;
        complain(&format!("warning: {words}"));
    }

    /// Whether a record that was wanted is not on the sheet by the library's or the tool's doing.
    pub fn is_short(&self) -> bool {
        self.refused + self.skipped > 0
    }

    pub fn line(&self) -> String {
        let Tally { played, nothing, refused, skipped, left_out, .. } = *self;
        let left_out = if left_out > 0 { format!(", {left_out} left out") } else { String::new() };
        format!("{played} played, {nothing} drew nothing, {refused} refused, {skipped} skipped{left_out}")
    }

    pub fn code(&self) -> u8 {
        if self.is_short() {
            REFUSED
        } else if self.warnings > 0 {
            WARNED
        } else {
            FINE
        }
    }
}
