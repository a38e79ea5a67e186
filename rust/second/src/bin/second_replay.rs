//! Reads a script from standard input and prints what its calls answer.

use std::io::{self, Read, Write};

fn main() -> io::Result<()> {
    let mut script = Vec::new();
    io::stdin().lock().read_to_end(&mut script)?;
    let mut out = io::BufWriter::new(io::stdout().lock());
    second::script::run(&script, &mut out)?;
    out.flush()
}
