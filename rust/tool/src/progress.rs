//! Says on a terminal how far the work is, once it has taken a second and then about once a second.

use std::io::{self, IsTerminal, Write};
use std::time::{Duration, Instant};

use crate::words::one_line;

const PAUSE: Duration = Duration::from_secs(1);

pub struct Progress {
    last: Instant,
    quiet: bool,
}

impl Progress {
    pub fn new() -> Progress {
        Progress { last: Instant::now(), quiet: !io::stderr().is_terminal() }
    }

    /// One that never speaks, for work inside tests.
    pub fn quiet() -> Progress {
        Progress { last: Instant::now(), quiet: true }
    }

    /// `done` of `total` is finished of what is called `work`.
    pub fn tell(&mut self, work: &str, done: usize, total: usize) {
        if self.quiet || self.last.elapsed() < PAUSE {
            return;
        }
        self.last = Instant::now();
        let percent = done as u64 * 100 / total.max(1) as u64;
        // A closed standard error is no reason to stop.
        let _ = io::stderr().write_all(one_line(&format!("lacrumont: {work}: {percent} %")).as_bytes());
    }
}

impl Default for Progress {
    fn default() -> Progress {
        Progress::new()
    }
}
