//! `differ` with ever new seeds until the time is over.

use compare::judge::Judge;
use compare::tally::Tally;
use compare::{arguments, memory, run};
use std::process::ExitCode;
use std::time::{Duration, Instant, SystemTime, UNIX_EPOCH};

const HELP: &str = "\
soak [--minutes M] [--calls N] [--seed S]

Does what differ does, round after round, each with a new seed, until M minutes
are over (10 if not said). The round in hand is finished.

  --minutes M   how long
  --calls N     calls of a round (200,000 if not said), and N / 20 runs of lists
  --seed S      the first round's seed, the next ones count on from it (taken
                from the clock if not said)

Every round prints its seed, so that differ --seed S --one K can show a case
again. At the first difference it ends with 1, and at the end if a call gave a
status that it cannot give.
";

const CALLS_A_RUN: u64 = 20;

fn main() -> ExitCode {
    let [minutes, calls, seed] = arguments::numbers(["--minutes", "--calls", "--seed"], HELP);
    let time = Duration::from_secs(60 * minutes.unwrap_or(10));
    let calls = calls.unwrap_or(200_000);
    let clock = SystemTime::now().duration_since(UNIX_EPOCH).map_or(1, |since| since.as_secs() * 1_000_000);
    let mut seed = seed.unwrap_or(clock);
    memory::watch();
    let start = Instant::now();
    let mut judge = Judge::default();
    let mut all = Tally::default();
    let mut rounds = 0;
    while start.elapsed() < time {
        let begin = Instant::now();
        match run::many(&mut judge, seed, calls, calls / CALLS_A_RUN) {
            Ok(tally) => {
                println!("seed {seed}: {} calls, {:.1} seconds", tally.calls, begin.elapsed().as_secs_f64());
                all.add(&tally);
            }
            Err(difference) => {
                print!("{difference}");
                return ExitCode::FAILURE;
            }
        }
        rounds += 1;
        seed = seed.wrapping_add(1);
    }
    print!("{all}");
    println!(
        "{rounds} rounds, {} calls and {} runs in {} cases, {:.0} seconds, no difference",
        all.calls,
        all.runs,
        all.cases,
        start.elapsed().as_secs_f64()
    );
    // They stand in the table.
    if all.impossible().is_empty() {
        ExitCode::SUCCESS
    } else {
        ExitCode::FAILURE
    }
}
