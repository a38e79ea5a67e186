//! What a command says, and its exit codes.

use std::io::{self, ErrorKind, Write};

use crate::words::one_line;

pub const FINE: u8 = 0;
pub const ERROR: u8 = 1;
/// A record was refused or skipped.
pub const REFUSED: u8 = 2;
/// Nothing worse than warnings.
pub const WARNED: u8 = 3;

/// Standard output. The first failure is kept for the end: what was asked for is done all the same.
#[derive(Default)]
pub struct Out {
    failure: Option<io::Error>,
    /// Whether the command has written its files.
    pub files_written: bool,
}

impl Out {
    pub fn line(&mut self, line: &str) {
        self.text(&one_line(line));
    }

    pub fn text(&mut self, text: &str) {
        if self.failure.is_none() {
            self.failure = io::stdout().write_all(text.as_bytes()).and_then(|()| io::stdout().flush()).err();
        }
    }

    pub fn end(self) -> Result<(), String> {
        match self.failure {
            // Who closed the pipe has read enough.
            Some(error) if error.kind() != ErrorKind::BrokenPipe => {
                Err(format!("cannot write to standard output: {error}"))
            }
            _ => Ok(()),
        }
    }
}

/// A line on standard error.
pub fn complain(words: &str) {
    // A closed standard error leaves nobody to tell.
    let _ = io::stderr().write_all(one_line(&format!("lacrumont: {words}")).as_bytes());
}
