//! Random scripts, run by a program and by the second player, compared.

use compare::scripts::script;
use std::io::{self, Write};
use std::process::{Command, ExitCode, Stdio};

const HELP: &str = "\
scripts [--count N] [--seed S] PROGRAM
scripts [--seed S] --one K

Makes N random scripts (300 if not said), one in four with a fault, gives each to
the program as standard input, and compares what it prints with what the second
player prints. With --one the script of that number is written to standard output.
";

/// What the program prints. It may stop before it has read all.
fn printed(program: &str, script: &[u8]) -> io::Result<Vec<u8>> {
    let mut child =
        Command::new(program).stdin(Stdio::piped()).stdout(Stdio::piped()).stderr(Stdio::piped()).spawn()?;
    let mut to = child.stdin.take().expect("piped");
    let output = std::thread::scope(|scope| {
        scope.spawn(move || match to.write_all(script) {
            Err(e) if e.kind() != io::ErrorKind::BrokenPipe => eprintln!("{e}"),
            _ => {}
        });
        child.wait_with_output()
    })?;
    if !output.status.success() {
        let said = String::from_utf8_lossy(&output.stderr).into_owned();
        return Err(io::Error::other(format!("{}: {said}", output.status)));
    }
    Ok(output.stdout)
}

fn compared(program: &str, seed: u64, count: u64) -> Result<(u64, u64), String> {
    let (mut lines, mut bad) = (0, 0);
    for number in 0..count {
        let bytes = script(seed, number);
        let mut wanted = Vec::new();
        let good = second::script::run(&bytes, &mut wanted).expect("a vector takes all");
        let got = printed(program, &bytes).map_err(|e| format!("script {number}: {e}"))?;
        if got != wanted {
            let line = got.split(|&b| b == b'\n').zip(wanted.split(|&b| b == b'\n')).position(|(a, b)| a != b);
            return Err(format!("script {number}, line {line:?}: to see it: scripts --seed {seed} --one {number}"));
        }
        lines += wanted.iter().filter(|&&b| b == b'\n').count() as u64;
        bad += u64::from(!good);
    }
    Ok((lines, bad))
}

fn main() -> ExitCode {
    let (mut count, mut seed, mut one, mut program) = (300, 1, None, None);
    let mut given = std::env::args().skip(1);
    while let Some(word) = given.next() {
        let mut number = || given.next().and_then(|n| n.parse().ok());
        let known = match word.as_str() {
            "--count" => number().map(|n| count = n),
            "--seed" => number().map(|n| seed = n),
            "--one" => number().map(|n| one = Some(n)),
            _ if word.starts_with('-') => None,
            _ => program.replace(word).map_or(Some(()), |_| None),
        };
        if known.is_none() {
            eprint!("{HELP}");
            return ExitCode::from(2);
        }
    }
    match (one, program) {
        (Some(number), None) => match io::stdout().write_all(&script(seed, number)) {
            Ok(()) => ExitCode::SUCCESS,
            Err(_) => ExitCode::FAILURE,
        },
        (None, Some(program)) => match compared(&program, seed, count) {
            Ok((lines, bad)) => {
                println!("{count} scripts, {bad} of them with a fault, {lines} lines, no difference");
                ExitCode::SUCCESS
            }
            Err(text) => {
                println!("DIFFERENCE, {text}");
                ExitCode::FAILURE
            }
        },
        _ => {
            eprint!("{HELP}");
            ExitCode::from(2)
        }
    }
}
