//! Random calls to the library and to the second player, compared.

use compare::judge::Judge;
use compare::tally::Tally;
use compare::{arguments, calls, memory, run};
use std::process::ExitCode;
use std::time::Instant;

const HELP: &str = "\
differ [--calls N] [--runs M] [--seed S] [--one K]

Makes N random calls (200,000 if not said) to the library and to the second
player and compares all they leave: status, pixels, records in use, the whole
surface, the whole journal, readings and palettes. Refused calls must have
changed nothing. Lists of plays and undos are held against the pile as well. Of
journals around 20,000,000 records only the ends and what lies around a call's
own records are compared after each call, the whole at the end of the run.
Then M random lists (10,000 if not said), sound and malformed, are run by the
library and by the second player's pile, and all they leave is compared: status,
calls, records in use, answers and what is behind them, surface, journal.

  --calls N   make at least N calls
  --runs M    run M lists; their cases count from 1,000,000,000,000
  --seed S    another seed (1 if not said); the same seed makes the same calls
  --one K     only case number K of the seed, printed whole

At the end it prints how often each status was given. It ends with 1 at the
first difference, if a call gave a status that it cannot give, and if of 200,000
calls or more, or of 10,000 runs or more, a status came fewer than 500 times from
a call that can give it; 21 with a byte shared by one of the six pairs of parts,
fewer than 300 times; in runs, a status of their calls, or 29 by one kind of
damage, fewer than 100 times.
";

/// So many calls and runs must have seen each status so often.
const MANY_CALLS: u64 = 200_000;
const MANY_RUNS: u64 = 10_000;
const LEAST: u64 = 500;
/// The same for 21 with a byte shared by one pair of parts.
const LEAST_OF_A_PAIR: u64 = 300;
/// The same for the calls in runs.
const LEAST_INSIDE: u64 = 100;

/// What came too rarely.
fn rare(tally: &Tally) -> Vec<String> {
    let mut rare = Vec::new();
    if tally.calls >= MANY_CALLS {
        rare.extend(tally.rare(LEAST, LEAST_OF_A_PAIR));
    }
    if tally.runs >= MANY_RUNS {
        rare.extend(tally.rare_runs(LEAST, LEAST_INSIDE));
    }
    rare
}

fn main() -> ExitCode {
    let [calls, runs, seed, one] = arguments::numbers(["--calls", "--runs", "--seed", "--one"], HELP);
    let seed = seed.unwrap_or(1);
    let (calls, runs) = (calls.unwrap_or(MANY_CALLS), runs.unwrap_or(MANY_RUNS));
    memory::watch();
    let mut judge = Judge::default();
    if let Some(number) = one {
        println!("seed {seed}, case {number}: {}", calls::case(seed, number));
        judge.talk = true;
        return match run::one(&mut judge, seed, number) {
            Ok(()) => {
                println!("no difference");
                ExitCode::SUCCESS
            }
            Err(difference) => {
                print!("{difference}");
                ExitCode::FAILURE
            }
        };
    }
    let start = Instant::now();
    match run::many(&mut judge, seed, calls, runs) {
        Err(difference) => {
            print!("{difference}");
            ExitCode::FAILURE
        }
        Ok(tally) => {
            let seconds = start.elapsed().as_secs_f64();
            print!("{tally}");
            println!(
                "seed {seed}: {} calls and {} runs in {} cases, {seconds:.1} seconds, no difference",
                tally.calls, tally.runs, tally.cases
            );
            let rare = rare(&tally);
            for text in &rare {
                println!("TOO RARE: {text}");
            }
            // Those it cannot give stand in the table.
            if rare.is_empty() && tally.impossible().is_empty() {
                ExitCode::SUCCESS
            } else {
                ExitCode::FAILURE
            }
        }
    }
}
