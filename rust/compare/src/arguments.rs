//! Arguments of the programs: `--name number` pairs and --help.

/// The numbers given for these names, in their order. Prints `help` and ends the program where it is asked for, or
/// where an argument is not understood.
pub fn numbers<const N: usize>(names: [&str; N], help: &str) -> [Option<u64>; N] {
    let mut found = [None; N];
    let mut given = std::env::args().skip(1);
    while let Some(word) = given.next() {
        if word == "--help" || word == "-h" {
            print!("{help}");
            std::process::exit(0);
        }
        let place = names.iter().position(|name| *name == word);
        let number = given.next().and_then(|n| n.replace(['_', ','], "").parse().ok());
        match (place, number) {
            (Some(k), Some(n)) => found[k] = Some(n),
            _ => {
                eprint!("not understood: {word}\n\n{help}");
                std::process::exit(2);
            }
        }
    }
    found
}
