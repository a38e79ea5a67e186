//! Runs of many cases.

use crate::calls;
use crate::judge::Judge;
use crate::memory;
use crate::tally::Tally;
use std::panic::{catch_unwind, AssertUnwindSafe};

/// Where the two players differ, and how to see it again.
pub struct Difference {
    pub seed: u64,
    pub case: u64,
    pub text: String,
}

impl std::fmt::Display for Difference {
    fn fmt(&self, f: &mut std::fmt::Formatter) -> std::fmt::Result {
        let (seed, case) = (self.seed, self.case);
        writeln!(f, "DIFFERENCE, seed {seed}, case {case}")?;
        writeln!(f, "{}", self.text)?;
        writeln!(f, "to see it whole: differ --seed {seed} --one {case}")
    }
}

/// One case; a panic of the second player counts as a difference.
pub fn one(judge: &mut Judge, seed: u64, case: u64) -> Result<(), Difference> {
    memory::now(seed, case);
    let difference = |text: String| Difference { seed, case, text };
    let made = catch_unwind(AssertUnwindSafe(|| judge.run(&calls::case(seed, case))));
    match made {
        Ok(result) => result.map_err(difference),
        Err(_) => Err(difference("the second player or the comparison stopped".to_string())),
    }
}

/// Cases 0, 1, 2, ... of a seed until at least so many calls are made, and so many runs of lists.
pub fn many(judge: &mut Judge, seed: u64, calls: u64, runs: u64) -> Result<Tally, Difference> {
    judge.tally = Tally::default();
    let mut case = 0;
    while judge.tally.calls < calls {
        one(judge, seed, case)?;
        case += 1;
    }
    for run in 0..runs {
        one(judge, seed, calls::RUNS + run)?;
    }
    judge.finish().map_err(|text| Difference { seed, case, text })?;
    Ok(std::mem::take(&mut judge.tally))
}
