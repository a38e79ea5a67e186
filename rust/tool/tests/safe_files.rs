//! Files are whole and in step whatever happens: killed runs, full disks, modes, owners, leftovers.

mod common;

use std::fs::{self, OpenOptions, Permissions};
use std::io::Write;
use std::os::unix::fs::{chown, symlink, MetadataExt, PermissionsExt};
use std::os::unix::process::CommandExt;
use std::process::{Child, Stdio};
use std::time::{Duration, Instant};

use common::*;

/// A folder with sheet.png and a.emf, each play of which changes 150 pixels.
fn prepared(name: &str) -> Folder {
    let folder = Folder::new(name);
    folder.put_sheet("sheet.png", &noisy_sheet(40, 30, true));
    folder.put("a.emf", &emf(&[blend_record([3, 4, 15, 10], 0x8040_2010)]));
    folder
}

fn mode(folder: &Folder, name: &str) -> u32 {
    folder.path(name).metadata().unwrap().mode() & 0o777
}

fn set_mode(folder: &Folder, name: &str, mode: u32) {
    fs::set_permissions(folder.path(name), Permissions::from_mode(mode)).unwrap();
}

/// Numbers without an order, the same in every run of the test.
struct Numbers(u64);

impl Numbers {
    fn below(&mut self, end: u64) -> u64 {
        self.0 = self.0.wrapping_mul(6_364_136_223_846_793_005).wrapping_add(1_442_695_040_888_963_407);
        (self.0 >> 33) % end
    }
}

/// When a run is killed.
enum Moment {
    After(Duration),
    /// As soon as its intent is on the disk, and then so many looks later.
    Intent(u64),
}

/// Kills the run at the moment, unless it is over before; true where it was killed.
fn kill(mut run: Child, folder: &Folder, moment: Moment) -> bool {
    match moment {
        Moment::After(pause) => std::thread::sleep(pause),
        Moment::Intent(looks) => {
            let whole = || fs::read(folder.path("j.lock")).is_ok_and(|text| text.ends_with(b"whole\n"));
            while !whole() && run.try_wait().unwrap().is_none() {}
            (0..looks).for_each(|_| assert!(folder.has("sheet.bmp")));
        }
    }
    let _ = run.kill();
    !run.wait().unwrap().success()
}

fn plays(folder: &Folder) -> u64 {
    let listed = folder.run("journal sheet.bmp --journal j").expect(0).out;
    listed.lines().last().unwrap().split_once(" play").unwrap().0.parse().unwrap()
}

/// Runs in place are killed at any moment. Each leaves what was before it or what is after it.
#[test]
fn killed_runs_lose_nothing() {
    let folder = Folder::new("killed_runs_lose_nothing");
    folder.put_sheet("sheet.bmp", &noisy_sheet(500, 400, true));
    folder.put("a.emf", &emf(&[stretch_record([30, 40, 90, 80], 0x5A)]));
    let first = folder.get("sheet.bmp");
    // Under exclusive or, every brush leads to another sheet.
    let play = |brush: u32| format!("play sheet.bmp a.emf -o sheet.bmp --force --journal j --brush {brush:06x}");
    let undo = "undo sheet.bmp -o sheet.bmp --force --journal j";
    folder.run(&play(0x10_0000)).expect(0);
    let begun = Instant::now();
    folder.run(&play(0x20_0000)).expect(0);
    let length = begun.elapsed().as_micros() as u64;
    let (mut held, mut kills, mut before, mut after, mut finished) = (2, 0, 0, 0, 0);
    let mut numbers = Numbers(7);
    for round in 0..200 {
        let back = held > 0 && round % 4 == 3;
        let command = if back { undo.to_string() } else { play(round + 1) };
        let run = folder.command(&command).stdout(Stdio::null()).stderr(Stdio::null()).spawn().unwrap();
        let moment = match round % 2 {
            0 => Moment::After(Duration::from_micros(numbers.below(length))),
            _ => Moment::Intent(numbers.below(400)),
        };
        if !kill(run, &folder, moment) {
            held = if back { held - 1 } else { held + 1 };
            continue;
        }
        kills += 1;
        let ended = folder.run("journal sheet.bmp --journal j").expect(0);
        finished += u64::from(ended.err.contains("its journal has been put in place now"));
        assert_eq!(folder.names(), ["a.emf", "j", "sheet.bmp"]);
        let now = plays(&folder);
        let done = if back { held - 1 } else { held + 1 };
        assert!(now == held || now == done, "{held} plays became {now}");
        before += u64::from(now == held);
        after += u64::from(now == done);
        held = now;
    }
    println!("{kills} kills in runs of {length} µs: {before} before, {after} after, {finished} between both names");
    assert!(kills >= 60 && before > 0 && after > 0, "{kills} kills: {before} before, {after} after");
    folder.run(&format!("{undo} --all")).expect(0);
    assert_eq!(folder.get("sheet.bmp"), first);
    assert_eq!(folder.names(), ["a.emf", "j", "sheet.bmp"]);
}

const LOCK: &str = "lacrumont lock 1\nprocess 4711\nout sheet.png\n";
const PICTURE: &str = ".sheet.png.4711-0.tmp";
const JOURNAL: &str = ".j.4711-0.tmp";

/// A folder as a killed run has left it, and what it must become.
struct Cut {
    folder: Folder,
    /// sheet.png and j before the killed play, and after it.
    old: [Vec<u8>; 2],
    new: [Vec<u8>; 2],
}

impl Cut {
    /// One play is in the journal; a second one was killed.
    fn new(name: &str) -> Cut {
        let folder = prepared(name);
        let play = "play sheet.png a.emf -o sheet.png --force --journal j";
        let both = |folder: &Folder| ["sheet.png", "j"].map(|name| folder.get(name));
        folder.run(play).expect(0);
        let old = both(&folder);
        folder.run(play).expect(0);
        let new = both(&folder);
        Cut { folder, old, new }
    }

    /// Puts the sheet, the journal, the temporary files and the lock; None is a file that is not there.
    fn put(&self, sheet: &[u8], journal: &[u8], temporary: [Option<&[u8]>; 2], lock: &str) {
        self.folder.put("sheet.png", sheet);
        self.folder.put("j", journal);
        for (name, bytes) in [PICTURE, JOURNAL].into_iter().zip(temporary) {
            if let Some(bytes) = bytes {
                self.folder.put(name, bytes);
            }
        }
        self.folder.put("j.lock", lock.as_bytes());
    }

    /// The next run sets right what is there; it says so, and leaves these names.
    #[track_caller]
    fn becomes(&self, both: &[Vec<u8>; 2], words: &str, more: &[&str]) {
        let ended = self.folder.run("journal sheet.png --journal j").expect(0);
        assert!(ended.err.contains("a run (process 4711) that had the journal j was cut short\n"), "{ended:?}");
        assert!(ended.err.contains(words), "{ended:?}");
        assert!(["sheet.png", "j"].map(|name| self.folder.get(name)) == *both);
        let names: Vec<&str> = ["a.emf", "j"].into_iter().chain(more.iter().copied()).chain(["sheet.png"]).collect();
        assert_eq!(self.folder.names(), names);
    }
}

fn intent(more: &str) -> String {
    format!("{LOCK}picture {PICTURE}\njournal {JOURNAL}\n{more}whole\n")
}

/// Every state that a kill can leave, made by hand.
#[test]
fn each_state_of_a_killed_run() {
    let cut = Cut::new("each_state_of_a_killed_run");
    let ([sheet0, journal0], [sheet1, journal1]) = (&cut.old, &cut.new);
    let not_written = "it had not written its results";
    let both = [Some(&sheet1[..]), Some(&journal1[..])];
    // Nothing written yet; half a picture; both whole, but no intent, or half of one.
    cut.put(sheet0, journal0, [None, None], LOCK);
    cut.becomes(&cut.old, not_written, &[]);
    cut.put(sheet0, journal0, [Some(&sheet1[..9]), None], LOCK);
    cut.becomes(&cut.old, &format!("removed {PICTURE}, which a killed run had left"), &[]);
    cut.put(sheet0, journal0, both, LOCK);
    cut.becomes(&cut.old, not_written, &[]);
    cut.put(sheet0, journal0, both, intent("").strip_suffix('\n').unwrap());
    cut.becomes(&cut.old, not_written, &[]);
    // The intent is whole and nothing is renamed; then also where the setting right was itself killed.
    cut.put(sheet0, journal0, both, &intent(""));
    cut.becomes(&cut.old, &format!("removed {JOURNAL}, which it had left"), &[]);
    cut.put(sheet0, journal0, [Some(sheet1), None], &intent(""));
    cut.becomes(&cut.old, not_written, &[]);
    // The picture is renamed, the journal is not.
    cut.put(sheet1, journal0, [None, Some(journal1)], &intent(""));
    cut.becomes(&cut.new, "it had written sheet.png; its journal has been put in place now", &[]);
    // Both are renamed.
    cut.put(sheet1, journal1, [None, None], &intent(""));
    cut.becomes(&cut.new, "it had written all its results", &[]);
    // A play goes on from there as from any other end.
    cut.put(sheet1, journal0, [None, Some(journal1)], &intent(""));
    cut.folder.run("undo sheet.png -o sheet.png --force --journal j").expect(0);
    assert_eq!(cut.folder.get("sheet.png"), *sheet0);
}

/// A picture that is new gets its name as a second one; a kill may leave both.
#[test]
fn a_killed_run_that_made_a_new_picture() {
    let folder = prepared("a_killed_run_that_made_a_new_picture");
    folder.run("play sheet.png a.emf -o out.png --journal j").expect(0);
    let (picture, journal) = (folder.get("out.png"), folder.get("j"));
    fs::hard_link(folder.path("out.png"), folder.path(".out.png.4711-0.tmp")).unwrap();
    fs::rename(folder.path("j"), folder.path(JOURNAL)).unwrap();
    let lock = intent("").replace("out sheet.png", "out out.png").replace(PICTURE, ".out.png.4711-0.tmp");
    folder.put("j.lock", lock.as_bytes());
    let ended = folder.run("journal out.png --journal j").expect(0);
    assert!(ended.err.contains("it had written out.png; its journal has been put in place now\n"), "{ended:?}");
    assert!(ended.err.ends_with("removed .out.png.4711-0.tmp, which a killed run had left\n"), "{ended:?}");
    assert!(folder.get("out.png") == picture && folder.get("j") == journal);
    assert_eq!(folder.names(), ["a.emf", "j", "out.png", "sheet.png"]);
}

/// The old journal's second name goes with the rest, or is there in the end.
#[test]
fn a_killed_run_that_began_a_journal() {
    let cut = Cut::new("a_killed_run_that_began_a_journal");
    let ([sheet0, journal0], [sheet1, journal1]) = (&cut.old, &cut.new);
    let lock = intent("kept j.1\n");
    cut.put(sheet0, journal0, [Some(sheet1), Some(journal1)], &lock);
    fs::hard_link(cut.folder.path("j"), cut.folder.path("j.1")).unwrap();
    cut.becomes(&cut.old, "it had not written its results", &[]);
    // Some other file of that name is not removed.
    cut.put(sheet0, journal0, [Some(sheet1), Some(journal1)], &lock);
    cut.folder.put("j.1", b"mine");
    cut.becomes(&cut.old, "it had not written its results", &["j.1"]);
    fs::remove_file(cut.folder.path("j.1")).unwrap();
    cut.put(sheet1, journal0, [None, Some(journal1)], &lock);
    cut.becomes(&cut.new, "its journal has been put in place now", &["j.1"]);
    assert_eq!(cut.folder.get("j.1"), *journal0);
}

/// Where somebody has touched the files since, nothing is written over.
#[test]
fn a_killed_run_and_files_changed_since() {
    let cut = Cut::new("a_killed_run_and_files_changed_since");
    let ([sheet0, journal0], [sheet1, journal1]) = (&cut.old, &cut.new);
    // The temporary picture was removed by hand, so the sheet is the old one.
    cut.put(sheet0, journal0, [None, Some(journal1)], &intent(""));
    cut.becomes(&cut.old, "sheet.png is not the picture of its journal, which is kept as j.1", &["j.1"]);
    assert_eq!(cut.folder.get("j.1"), *journal1);
    // A journal that is not whole follows no picture.
    cut.put(sheet1, journal0, [None, Some(&journal1[..60])], &intent(""));
    cut.folder.run("journal sheet.png --journal j").fails("is not the picture of its journal, which is kept as j.2");
    assert!(cut.folder.get("j") == *journal0 && cut.folder.get("sheet.png") == *sheet1);
    // A lock that names other files does not get them removed.
    cut.put(sheet0, journal0, [None, None], &intent("").replace(PICTURE, "a.emf"));
    cut.folder.run("journal sheet.png --journal j").fails("j.lock is damaged");
    assert!(cut.folder.has("a.emf") && cut.folder.has("j.lock"));
}

/// No room at any place: all files are as they were. The limit is in units of 1,024 bytes.
#[test]
fn a_full_disk_changes_nothing() {
    let folder = Folder::new("a_full_disk_changes_nothing");
    folder.put_sheet("sheet.bmp", &noisy_sheet(100, 100, true));
    folder.put("a.emf", &emf(&[brush_record([0, 0, 100, 100])]));
    folder.run("play sheet.bmp a.emf -o out.bmp --journal j --brush 102030").expect(0);
    let (picture, journal) = (folder.get("out.bmp").len() as u64 / 1024, folder.get("j").len() as u64 / 1024);
    assert!(picture + 20 < journal);
    let before = folder.all();
    let limits = [0, 1, picture / 2, picture, picture + 1, picture + 20, journal];
    for limit in limits {
        let first = format!("ulimit -f {limit}; trap '' XFSZ");
        let short = if limit == 0 {
            "j.lock"
        } else if limit <= picture {
            "out.bmp"
        } else {
            "j"
        };
        for out in ["out.bmp --force", "new.bmp", "new.bmp --new-journal"] {
            let short = if short == "out.bmp" { &out[..7] } else { short };
            folder
                .run_after(&first, &format!("play out.bmp a.emf -o {out} --journal j"))
                .fails(&format!("cannot write {short}: File too large"));
            assert!(folder.all() == before, "limit {limit}");
        }
        if limit <= picture {
            folder.run_after(&first, "undo out.bmp -o new.bmp --journal j").fails("cannot write");
            assert!(folder.all() == before, "limit {limit}");
        }
    }
    folder.run("undo out.bmp -o new.bmp --journal j").expect(0);
    assert_eq!(folder.get("new.bmp"), folder.get("sheet.bmp"));
}

/// If the journal cannot get its name after the picture has, it is not lost, and the next run tries again.
#[test]
fn a_journal_that_cannot_be_put_is_kept() {
    let cut = Cut::new("a_journal_that_cannot_be_put_is_kept");
    cut.put(&cut.new[0], &cut.old[1], [None, Some(&cut.new[1])], &intent(""));
    fs::rename(cut.folder.path("j"), cut.folder.path("aside")).unwrap();
    fs::create_dir(cut.folder.path("j")).unwrap();
    for _ in 0..2 {
        cut.folder.run("journal sheet.png --journal j").fails("j");
        assert!(cut.folder.has(JOURNAL) && cut.folder.has("j.lock"));
    }
    fs::remove_dir(cut.folder.path("j")).unwrap();
    fs::rename(cut.folder.path("aside"), cut.folder.path("j")).unwrap();
    cut.becomes(&cut.new, "its journal has been put in place now", &[]);
}

#[test]
fn modes_are_kept() {
    let folder = prepared("modes_are_kept");
    let out_modes = |first: &str, sheet: u32, name: &str| {
        set_mode(&folder, "sheet.png", sheet);
        let (out, journal) = (format!("{name}.png"), format!("{name}.j"));
        folder.run_after(first, &format!("play sheet.png a.emf -o {out} --journal {journal}")).expect(0);
        [mode(&folder, &out), mode(&folder, &journal)]
    };
    // New files: as the sheet, but for what the umask takes; their owner may write them.
    assert_eq!(out_modes("umask 022", 0o664, "1"), [0o644; 2]);
    assert_eq!(out_modes("umask 022", 0o600, "2"), [0o600; 2]);
    assert_eq!(out_modes("umask 077", 0o644, "3"), [0o600; 2]);
    assert_eq!(out_modes("umask 022", 0o444, "4"), [0o644; 2]);
    // Files that are replaced: as they were, whatever the umask.
    set_mode(&folder, "1.png", 0o662);
    set_mode(&folder, "1.j", 0o606);
    folder.run_after("umask 077", "play 1.png a.emf -o 1.png --force --journal 1.j").expect(0);
    assert_eq!((mode(&folder, "1.png"), mode(&folder, "1.j")), (0o662, 0o606));
    folder.run_after("umask 077", "undo 1.png -o 2.png --force --journal 1.j").expect(0);
    assert_eq!((mode(&folder, "2.png"), mode(&folder, "1.j")), (0o600, 0o606));
    // A new journal holds this sheet's pixels, so it is no more open than the sheet.
    set_mode(&folder, "2.j", 0o644);
    folder.run("play 2.png a.emf -o 5.png --journal 2.j --new-journal").expect(0);
    assert_eq!((mode(&folder, "2.j"), mode(&folder, "2.j.1")), (0o600, 0o644));
}

#[test]
fn read_only_files_are_not_replaced() {
    let folder = prepared("read_only_files_are_not_replaced");
    folder.run("play sheet.png a.emf -o out.png --journal j").expect(0);
    set_mode(&folder, "sheet.png", 0o444);
    let before = folder.all();
    folder.run("play sheet.png a.emf -o sheet.png --force").fails("sheet.png is read-only and is not replaced");
    folder.run("play out.png a.emf -o sheet.png --force --journal j").fails("sheet.png is read-only");
    folder.run("undo out.png --journal j -o sheet.png --force").fails("sheet.png is read-only and is not replaced");
    symlink("sheet.png", folder.path("link.png")).unwrap();
    folder.run("play out.png a.emf -o link.png --force").fails("link.png is read-only and is not replaced");
    fs::remove_file(folder.path("link.png")).unwrap();
    set_mode(&folder, "j", 0o400);
    folder.run("play out.png a.emf -o new.png --journal j").fails("j is read-only and is not replaced");
    folder.run("play sheet.png a.emf -o new.png --journal j --new-journal").fails("j is read-only");
    folder.run("undo out.png --journal j -o new.png").fails("j is read-only and is not replaced");
    assert_eq!(folder.all(), before);
    // It can still be read.
    folder.run("journal out.png --journal j").expect(0);
    folder.run("play sheet.png a.emf -o new.png").expect(0);
    // A socket is no file to write.
    let _socket = std::os::unix::net::UnixListener::bind(folder.path("socket.png")).unwrap();
    folder.run("play sheet.png a.emf -o socket.png --force").fails("socket.png is not a regular file");
}

/// What a link points to is replaced, not the link.
#[test]
fn links_are_followed() {
    let folder = prepared("links_are_followed");
    symlink("sheet.png", folder.path("link.png")).unwrap();
    let sheet = folder.get("sheet.png");
    folder.run("play link.png a.emf -o link.png --force --journal j").expect(0);
    assert!(folder.path("link.png").is_symlink() && folder.get("sheet.png") != sheet);
    folder.run("undo link.png -o link.png --force --journal j").expect(0);
    assert!(folder.path("link.png").is_symlink() && folder.get("sheet.png") == sheet);
}

/// As root only: nobody else may give files away.
#[test]
fn owners_are_kept() {
    let folder = prepared("owners_are_kept");
    if folder.path("a.emf").metadata().unwrap().uid() != 0 {
        return;
    }
    let owner = |name: &str| folder.path(name).metadata().map(|there| (there.uid(), there.gid())).unwrap();
    folder.run("play sheet.png a.emf -o out.png --journal j").expect(0);
    chown(folder.path("out.png"), Some(1234), Some(2345)).unwrap();
    chown(folder.path("j"), Some(3456), Some(4567)).unwrap();
    set_mode(&folder, "out.png", 0o640);
    let ended = folder.run("play out.png a.emf -o out.png --force --journal j").expect(0);
    assert!(ended.err.is_empty(), "{ended:?}");
    assert_eq!((owner("out.png"), owner("j"), mode(&folder, "out.png")), ((1234, 2345), (3456, 4567), 0o640));
    // Somebody who may write the files and their folder, but not give files away.
    set_mode(&folder, "", 0o777);
    set_mode(&folder, "sheet.png", 0o666);
    set_mode(&folder, "j", 0o644);
    let run = |arguments: &str| folder.command(arguments).uid(65_534).gid(65_534).output().map(Ended::of);
    let Ok(ended) = run("play sheet.png a.emf -o sheet.png --force") else {
        // The tool lies where only root may start it.
        return;
    };
    let told = "lacrumont: warning: sheet.png: its owner or group could not be kept\n";
    assert_eq!(ended.expect(3).err, told);
    assert_eq!(owner("sheet.png"), (65_534, 65_534));
    chown(folder.path("sheet.png"), Some(0), Some(0)).unwrap();
    set_mode(&folder, "sheet.png", 0o676);
    run("play sheet.png a.emf -o sheet.png --force").unwrap().expect(3);
    assert_eq!(mode(&folder, "sheet.png"), 0o666);
    set_mode(&folder, "out.png", 0o644);
    run("play sheet.png a.emf -o out.png --force").unwrap().fails("out.png is read-only and is not replaced");
    run("undo out.png -o new.png --journal j").unwrap().fails("j is read-only and is not replaced");
    // A lock that another user's run holds is no reason to complain of rights.
    let mut lock = OpenOptions::new().write(true).create_new(true).open(folder.path("j.lock")).unwrap();
    lock.write_all(b"lacrumont lock 1\nprocess 4711\n").unwrap();
    set_mode(&folder, "j.lock", 0o644);
    set_mode(&folder, "j", 0o666);
    lock.lock().unwrap();
    run("undo out.png -o new.png --journal j --no-wait").unwrap().fails("another run (process 4711) has the journal j");
    lock.unlock().unwrap();
    run("undo out.png -o new.png --journal j").unwrap().fails("cannot write j.lock: Permission denied");
    fs::remove_file(folder.path("j.lock")).unwrap();
    // Where everybody may replace only his own files, that is known before anything is written.
    chown(folder.path("sheet.png"), Some(65_534), Some(65_534)).unwrap();
    set_mode(&folder, "", 0o1777);
    let before = folder.all();
    for name in ["out.png", "sheet.png"] {
        let command = format!("play out.png a.emf -o {name} --force --journal j");
        let words =
            if name == "out.png" { "out.png is another user's" } else { "j is another user's, in a folder where" };
        set_mode(&folder, "out.png", 0o666);
        run(&command).unwrap().fails(words);
    }
    assert_eq!(folder.all(), before);
    // A journal can be listed where no lock can be made.
    set_mode(&folder, "", 0o755);
    assert!(run("journal out.png --journal j").unwrap().expect(0).out.contains("2 plays; "));
    run("undo out.png -o new.png --journal sheet.png").unwrap().fails("cannot write sheet.png.lock");
}

/// Only what a dead run has left is removed, and only beside the file that is written.
#[test]
fn leftovers_are_swept() {
    let folder = prepared("leftovers_are_swept");
    let dead = [".out.png.4711-0.tmp", ".out.png.4712-13.tmp"];
    let others = [".out.png.x-0.tmp", ".other.png.4711-0.tmp", ".out.png.4711-0.tmp2", "out.png.4711-0.tmp"];
    dead.iter().chain(&others).for_each(|name| folder.put(name, b"half"));
    symlink("a.emf", folder.path(".out.png.1-1.tmp")).unwrap();
    fs::create_dir(folder.path(".out.png.1-2.tmp")).unwrap();
    let living = OpenOptions::new().write(true).create_new(true).open(folder.path(".out.png.1-3.tmp")).unwrap();
    living.lock().unwrap();
    let ended = folder.run("play sheet.png a.emf -o out.png").expect(0);
    let line = |name: &str| format!("lacrumont: removed {name}, which a killed run had left\n");
    assert_eq!(ended.err, dead.map(line).concat());
    for name in others.into_iter().chain([".out.png.1-1.tmp", ".out.png.1-2.tmp", ".out.png.1-3.tmp"]) {
        assert!(folder.path(name).symlink_metadata().is_ok(), "{name}");
    }
    assert!(dead.iter().all(|name| !folder.has(name)));
    // The maker dies.
    drop(living);
    let ended = folder.run("play sheet.png a.emf -o out.png --force").expect(0);
    assert_eq!(ended.err, line(".out.png.1-3.tmp"));
    // A run was killed when its new file had both names.
    fs::hard_link(folder.path("out.png"), folder.path(".out.png.1-4.tmp")).unwrap();
    let ended = folder.run("play sheet.png a.emf -o out.png --force").expect(0);
    assert_eq!(ended.err, line(".out.png.1-4.tmp"));
}
