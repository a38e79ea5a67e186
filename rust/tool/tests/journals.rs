//! Journals: which one is continued, begun or kept, what they list, and one run at a time.

mod common;

use std::fs::{File, OpenOptions};
use std::io::{Read, Write};
use std::process::Stdio;

use common::*;

/// A folder with a.emf (one play) and b.emf (two), sheet.png and other.png.
fn prepared(name: &str) -> Folder {
    let folder = Folder::new(name);
    folder.put_sheet("sheet.png", &noisy_sheet(40, 30, true));
    folder.put_sheet("other.png", &noisy_sheet(30, 40, true));
    folder.put("a.emf", &emf(&[blend_record([3, 4, 20, 10], 0x8040_2010)]));
    folder.put("b.emf", &emf(&[mask_record([35, 1, 5, 2]), brush_record([30, 28, 5, 2])]));
    folder
}

#[test]
fn a_journal_is_listed() {
    let folder = prepared("a_journal_is_listed");
    folder.put("outside.emf", &emf(&[brush_record([50, 50, 5, 5])]));
    folder.run("play sheet.png a.emf b.emf outside.emf -o out.png --journal j").expect(3);
    let before = folder.all();
    let ended = folder.run("journal out.png --journal j").expect(0);
    let lines = [
        "play 1: alpha blend (EMR_ALPHABLEND, 0x72), 200 pixels, columns 3 to 22, rows 4 to 13, 201 records",
        "play 2: mask blit (EMR_MASKBLT, 0x4E), 10 pixels, columns 35 to 39, rows 1 to 2, 11 records",
        "play 3: stretched DIB (EMR_STRETCHDIBITS, 0x51), 10 pixels, columns 30 to 34, rows 28 to 29, 11 records",
        "play 4: stretched DIB (EMR_STRETCHDIBITS, 0x51), 0 pixels, nothing drawn, 1 record",
        "4 plays; 224 records in use, 19,999,776 free of 20,000,000",
    ];
    assert_eq!(ended.out, lines.join("\n") + "\n");
    assert_eq!(ended.err, "");
    folder.run("journal sheet.png --journal j").fails("j: the journal belongs to another sheet");
    folder.run("journal out.png --journal a.emf").fails("a.emf: this is an EMF file, not a journal");
    assert_eq!(folder.all(), before);
    folder.run("undo out.png --journal j -o undone.png --all").expect(0);
    let ended = folder.run("journal undone.png --journal j").expect(0);
    assert_eq!(ended.out, "0 plays; 0 records in use, 20,000,000 free of 20,000,000\n");
}

/// --force has nothing to do with journals, and no journal is thrown away.
#[test]
fn a_journal_that_is_there_is_kept() {
    let folder = prepared("a_journal_that_is_there_is_kept");
    folder.run("play other.png a.emf -o out.png --journal j").expect(0);
    let others = folder.get("j");
    let mut damaged = others.clone();
    damaged[50] ^= 1;
    let mut version = others.clone();
    version[8] = 2;
    let cut = others[..20].to_vec();
    let what_to_do = "; --new-journal begins one and keeps this one beside it\n";
    for (number, old) in [&others, &damaged, &version, &cut].into_iter().enumerate() {
        folder.put("j", old);
        for force in ["", "--force"] {
            let ended = folder.run(&format!("play sheet.png b.emf -o new{number}.png --journal j {force}")).expect(1);
            assert!(ended.err.ends_with(what_to_do), "{ended:?}");
        }
        assert!(folder.get("j") == *old && !folder.has(&format!("new{number}.png")));
        let ended = folder.run(&format!("play sheet.png b.emf -o new{number}.png --journal j --new-journal")).expect(0);
        let kept = format!("j.{}", number + 1);
        assert_eq!(ended.err, format!("lacrumont: the journal that was there is kept as {kept}\n"));
        assert!(ended.out.contains("\njournal j holds 2 plays\n"), "{ended:?}");
        assert_eq!(&folder.get(&kept), old);
    }
    // One that fits is kept as well, and is of use again later.
    folder.run("play new3.png a.emf -o after.png --journal j --new-journal").expect(0);
    folder.run("undo after.png --journal j -o back.png").expect(0);
    folder.run("undo back.png --journal j.5 -o first.png --all").expect(0);
    assert_eq!(folder.get("first.png"), folder.get("sheet.png"));
    // Where there is none, one is begun.
    let ended = folder.run("play sheet.png a.emf -o more.png --journal k --new-journal").expect(0);
    assert!(ended.err.is_empty() && !folder.has("k.1"));
}

/// A run that fails leaves no second name behind.
#[test]
fn nothing_is_kept_if_the_run_fails() {
    let folder = prepared("nothing_is_kept_if_the_run_fails");
    folder.run("play sheet.png a.emf -o out.png --journal j").expect(0);
    folder.put("damaged.emf", &folder.get("a.emf")[..100]);
    folder.put("j.1", b"mine");
    let before = folder.all();
    folder.run("play sheet.png damaged.emf -o new.png --journal j --new-journal").fails("damaged");
    folder.run("play sheet.png a.emf -o out.png --journal j --new-journal").fails("already there");
    assert_eq!(folder.all(), before);
    folder.run("play sheet.png a.emf -o out.png --journal j --new-journal --force").expect(0);
    assert!(folder.get("j.1") == b"mine" && folder.has("j.2"));
}

/// What a link points to is the journal; what is kept stays beside that.
#[test]
fn a_journal_behind_a_link() {
    let folder = prepared("a_journal_behind_a_link");
    std::fs::create_dir(folder.path("deep")).unwrap();
    folder.run("play sheet.png a.emf -o out.png --journal deep/j").expect(0);
    std::os::unix::fs::symlink("deep/j", folder.path("link")).unwrap();
    let lock = held_lock(&folder, "deep/j.lock");
    folder.run("play out.png b.emf -o more.png --journal link --no-wait").fails("another run (process 4711)");
    lock.unlock().unwrap();
    folder.run("play out.png b.emf -o more.png --journal link --new-journal").expect(0);
    assert!(folder.path("link").is_symlink() && folder.has("deep/j.1") && !folder.has("link.1"));
    folder.run("undo more.png --journal deep/j -o back.png --all").expect(0);
    assert_eq!(folder.get("back.png"), folder.get("out.png"));
}

/// A lock as a living run has it; process 4711 is said to.
fn held_lock(folder: &Folder, name: &str) -> File {
    let mut lock = OpenOptions::new().write(true).create_new(true).open(folder.path(name)).unwrap();
    lock.write_all(b"lacrumont lock 1\nprocess 4711\n").unwrap();
    lock.lock().unwrap();
    lock
}

#[test]
fn one_run_at_a_time() {
    let folder = prepared("one_run_at_a_time");
    folder.run("play sheet.png a.emf -o out.png --journal j").expect(0);
    let lock = held_lock(&folder, "j.lock");
    let before = folder.all();
    let commands = [
        "play out.png a.emf -o new.png --journal j",
        "undo out.png -o new.png --journal j",
        "journal out.png --journal j",
    ];
    for command in commands {
        folder.run(&format!("{command} --no-wait")).fails("another run (process 4711) has the journal j");
        assert_eq!(folder.all(), before);
    }
    let mut waiting = folder.command(commands[0]).stderr(Stdio::piped()).stdout(Stdio::null()).spawn().unwrap();
    let words = "lacrumont: waiting for another run (process 4711) that has the journal j\n";
    let mut said = vec![0; words.len()];
    waiting.stderr.as_mut().unwrap().read_exact(&mut said).unwrap();
    assert_eq!(String::from_utf8(said).unwrap(), words);
    assert!(waiting.try_wait().unwrap().is_none() && !folder.has("new.png"));
    // As a run does at its end.
    std::fs::remove_file(folder.path("j.lock")).unwrap();
    drop(lock);
    let ended = Ended::of(waiting.wait_with_output().unwrap()).expect(0);
    assert_eq!(ended.err, "");
    assert!(folder.has("new.png") && !folder.has("j.lock"));
}

/// A run that dies while another waits: the other sees it.
#[test]
fn a_dead_owner_is_seen() {
    let folder = prepared("a_dead_owner_is_seen");
    folder.run("play sheet.png a.emf -o out.png --journal j").expect(0);
    let mut lock = held_lock(&folder, "j.lock");
    lock.write_all(b"out new.png\n").unwrap();
    folder.put(".new.png.4711-0.tmp", b"half");
    let mut listing = folder.command("journal out.png --journal j");
    let waiting = listing.stdout(Stdio::null()).stderr(Stdio::piped()).spawn().unwrap();
    drop(lock);
    let ended = Ended::of(waiting.wait_with_output().unwrap()).expect(0);
    assert!(ended.err.contains("a run (process 4711) that had the journal j was cut short\n"), "{ended:?}");
    assert!(ended.err.contains("it had not written its results"));
    assert!(ended.err.ends_with("lacrumont: removed .new.png.4711-0.tmp, which a killed run had left\n"));
    assert_eq!(folder.names(), ["a.emf", "b.emf", "j", "other.png", "out.png", "sheet.png"]);
    // A file of the lock's name that is none is not touched.
    folder.put("j.lock", b"mine");
    folder.run("undo out.png --journal j -o new.png").fails("j.lock is in the way: it is no lock of this tool");
    assert_eq!(folder.get("j.lock"), b"mine");
}

/// Two at once that make one new OUT, each with its own journal: one of them does, and its journal fits.
#[test]
fn two_runs_and_one_new_file() {
    let folder = prepared("two_runs_and_one_new_file");
    for round in 0..25 {
        let out = format!("new{round}.png");
        let start = |emf: &str| {
            let command = format!("play sheet.png {emf}.emf -o {out} --journal {emf}{round}");
            folder.command(&command).stdout(Stdio::null()).stderr(Stdio::piped()).spawn().unwrap()
        };
        let ended = ["a", "b"].map(start).map(|run| Ended::of(run.wait_with_output().unwrap()));
        let (won, lost) = if ended[0].code == Some(0) { (0, 1) } else { (1, 0) };
        assert_eq!((ended[won].code, ended[lost].code), (Some(0), Some(1)), "{ended:?}");
        let words = ["is already there; --force writes over it", "has come into being meanwhile"];
        assert!(words.iter().any(|words| ended[lost].err.contains(words)), "{ended:?}");
        folder.run(&format!("undo {out} -o undone{round}.png --journal {}{round} --all", ["a", "b"][won])).expect(0);
        assert_eq!(folder.get_sheet(&format!("undone{round}.png")).surface, folder.get_sheet("sheet.png").surface);
        assert!(!folder.has(&format!("{}{round}", ["a", "b"][lost])));
    }
}

/// Two at once on one sheet in place without a journal: both are on it.
#[test]
fn two_runs_in_place() {
    let folder = prepared("two_runs_in_place");
    folder.run("play sheet.png a.emf b.emf -o both.png").expect(0);
    for round in 0..25 {
        folder.put("in_place.png", &folder.get("sheet.png"));
        let start = |emf: &str| {
            let command = format!("play in_place.png {emf}.emf -o in_place.png --force");
            folder.command(&command).stdout(Stdio::null()).stderr(Stdio::piped()).spawn().unwrap()
        };
        for run in ["a", "b"].map(start) {
            let ended = Ended::of(run.wait_with_output().unwrap()).expect(0);
            let waits = "lacrumont: waiting for another run that writes in_place.png\n";
            assert!(ended.err.is_empty() || ended.err == waits, "{ended:?}");
        }
        // They draw at different places, so their order does not matter.
        assert_eq!(folder.get("in_place.png"), folder.get("both.png"), "round {round}");
    }
    let held = File::open(folder.path("in_place.png")).unwrap();
    held.lock().unwrap();
    let command = "play in_place.png a.emf -o in_place.png --force --no-wait";
    folder.run(command).fails("another run writes in_place.png; without --no-wait this one would wait for it");
    drop(held);
    folder.run(command).expect(0);
}

/// Two at once on one sheet in place, each with its own journal: the later one sees that its journal no longer fits.
#[test]
fn two_journals_of_one_sheet() {
    let folder = prepared("two_journals_of_one_sheet");
    for round in 0..25 {
        folder.put("in_place.png", &folder.get("sheet.png"));
        for journal in ["j", "k"] {
            folder.run(&format!("play sheet.png a.emf -o x.png --force --journal {journal}{round}")).expect(0);
            folder.run(&format!("undo x.png -o x.png --force --journal {journal}{round}")).expect(0);
        }
        let start = |journal: &str| {
            let command = format!("play in_place.png a.emf -o in_place.png --force --journal {journal}{round}");
            folder.command(&command).stdout(Stdio::null()).stderr(Stdio::piped()).spawn().unwrap()
        };
        let ended = ["j", "k"].map(start).map(|run| Ended::of(run.wait_with_output().unwrap()));
        let (won, lost) = if ended[0].code == Some(0) { (0, 1) } else { (1, 0) };
        assert_eq!((ended[won].code, ended[lost].code), (Some(0), Some(1)), "{ended:?}");
        assert!(ended[lost].err.contains("the journal belongs to another sheet"), "{ended:?}");
        let journal = ["j", "k"][won];
        folder.run(&format!("undo in_place.png -o x.png --force --journal {journal}{round}")).expect(0);
        assert_eq!(folder.get_sheet("x.png").surface, folder.get_sheet("sheet.png").surface);
    }
}

/// Two at once on one sheet in place and one journal: none is lost.
#[test]
fn two_runs_at_once() {
    const ROUNDS: u64 = 25;
    let folder = prepared("two_runs_at_once");
    let first = folder.get("sheet.png");
    let play = |emf: &str| format!("play sheet.png {emf} -o sheet.png --force --journal j");
    for _ in 0..ROUNDS {
        let start = |emf| folder.command(&play(emf)).stdout(Stdio::null()).stderr(Stdio::piped()).spawn().unwrap();
        for run in ["a.emf", "b.emf"].map(start) {
            let ended = Ended::of(run.wait_with_output().unwrap()).expect(0);
            assert!(ended.err.lines().all(|line| line.starts_with("lacrumont: waiting for another run")), "{ended:?}");
        }
    }
    let listed = folder.run("journal sheet.png --journal j").expect(0).out;
    assert!(listed.contains(&format!("\n{} plays; ", 3 * ROUNDS)), "{listed}");
    assert_eq!(listed.matches(": alpha blend").count() as u64, ROUNDS);
    folder.run("undo sheet.png -o sheet.png --force --journal j --all").expect(0);
    assert_eq!(folder.get("sheet.png"), first);
    assert_eq!(folder.names(), ["a.emf", "b.emf", "j", "other.png", "sheet.png"]);
}
