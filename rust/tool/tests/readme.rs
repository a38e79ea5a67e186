//! The day that README.md shows is run as it stands there.

mod common;

use std::fs;
use std::path::Path;

use common::*;

/// A command with the exit status that stands behind it, and the lines that it says.
struct Shown {
    arguments: String,
    code: i32,
    lines: Vec<String>,
}

/// The indented lines of the section, command by command.
fn shown(readme: &str) -> Vec<Shown> {
    let section = readme.split_once("\n## A day with the tool\n").unwrap().1.split("\n## ").next().unwrap();
    let mut all: Vec<Shown> = Vec::new();
    for line in section.lines().filter_map(|line| line.strip_prefix("    ")) {
        match line.strip_prefix("$ lacrumont ") {
            Some(command) => {
                let (arguments, code) = command.split_once("# exit status ").unwrap_or((command, "0"));
                all.push(Shown { arguments: arguments.into(), code: code.parse().unwrap(), lines: Vec::new() });
            }
            None => all.last_mut().unwrap().lines.push(line.into()),
        }
    }
    all
}

/// Whether this was said; a line of three dots stands for any lines, and three dots in a line for any words.
fn fits(shown: &[String], said: &[&str]) -> bool {
    match (shown, said) {
        ([], []) => true,
        ([dots, rest @ ..], _) if dots == "..." => (0..=said.len()).any(|skipped| fits(rest, &said[skipped..])),
        ([line, rest @ ..], [now, later @ ..]) => line_fits(line, now) && fits(rest, later),
        _ => false,
    }
}

fn line_fits(shown: &str, said: &str) -> bool {
    match shown.split_once("...") {
        None => shown == said,
        Some((first, rest)) => said.strip_prefix(first).is_some_and(|said| {
            said.char_indices().map(|(at, _)| at).chain([said.len()]).any(|at| line_fits(rest, &said[at..]))
        }),
    }
}

#[test]
fn a_day_with_the_tool() {
    let top = Path::new(concat!(env!("CARGO_MANIFEST_DIR"), "/../.."));
    let folder = Folder::new("a_day_with_the_tool");
    for name in ["sheet.png", "bands-blend.emf", "bands-mask.emf", "bands-stretch.emf"] {
        folder.put(name, &fs::read(top.join("demo/example").join(name)).unwrap());
    }
    folder.put("mixed.emf", &fs::read(top.join("rust/tool/tests/corpus/mixed.emf")).unwrap());
    let day = shown(&fs::read_to_string(top.join("README.md")).unwrap());
    assert!(["info", "play", "undo", "journal"]
        .iter()
        .all(|name| day.iter().any(|one| one.arguments.starts_with(name))));
    for Shown { arguments, code, lines } in day {
        // Both outputs in the order in which a terminal shows them.
        let ended = folder.run_after("exec 2>&1", &arguments).expect(code);
        let said: Vec<&str> = ended.out.lines().collect();
        assert!(fits(&lines, &said), "{arguments}: {said:#?} is not {lines:#?}");
    }
    let pixels = |name: &str| folder.get_sheet(name).surface;
    assert!(pixels("evening.png") == pixels("sheet.png") && pixels("day.png") != pixels("sheet.png"));
}
