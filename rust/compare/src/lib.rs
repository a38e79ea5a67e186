//! Differential tests: the C library against the second player, call by call.
//!
//! `makers` makes records, sound and damaged; `calls` and `runs` make whole cases around them; `judge` runs a case on both
//! players and says what differs. The programs are in `bin`.

pub mod arguments;
pub mod calls;
pub mod judge;
pub mod library;
pub mod makers;
pub mod memory;
pub mod random;
pub mod run;
pub mod runs;
pub mod scripts;
pub mod tally;
