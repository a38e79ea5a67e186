//! EMF files and sheets for the tests, and the tool to run on them. No test file uses all of it.

#![allow(dead_code)]

pub mod json;

use std::fs;
use std::path::{Path, PathBuf};
use std::process::{Command, Output};

use lacrumont_tool::library::Surface;
use lacrumont_tool::progress::Progress;
use lacrumont_tool::sheet::Sheet;
use lacrumont_tool::sheet_files;
use records::bytes::words;
use records::operation::{blend_field, rop, rop4};
use records::{Header, Picture, Record, ALPHABLEND, MASKBLT, STRETCHDIBITS};

/// A folder of its own for one test, empty at first and removed at the end.
pub struct Folder(PathBuf);

impl Folder {
    pub fn new(name: &str) -> Folder {
        let folder = Path::new(env!("CARGO_TARGET_TMPDIR")).join(name);
        let _ = fs::remove_dir_all(&folder);
        fs::create_dir_all(&folder).unwrap();
        Folder(folder)
    }

    pub fn path(&self, name: &str) -> PathBuf {
        self.0.join(name)
    }

    pub fn put(&self, name: &str, bytes: &[u8]) {
        fs::write(self.path(name), bytes).unwrap();
    }

    pub fn get(&self, name: &str) -> Vec<u8> {
        fs::read(self.path(name)).unwrap()
    }

    pub fn has(&self, name: &str) -> bool {
        self.path(name).exists()
    }

    /// All names in it, sorted: to see that no temporary file is left.
    pub fn names(&self) -> Vec<String> {
        let name = |entry: std::io::Result<fs::DirEntry>| entry.unwrap().file_name().into_string().unwrap();
        let mut names: Vec<String> = fs::read_dir(&self.0).unwrap().map(name).collect();
        names.sort();
        names
    }

    pub fn put_sheet(&self, name: &str, sheet: &Sheet) {
        self.put(name, &sheet_files::packed(sheet, Path::new(name), &mut Progress::quiet()).unwrap());
    }

    pub fn get_sheet(&self, name: &str) -> Sheet {
        sheet_files::load(&self.path(name), &mut Progress::quiet()).unwrap()
    }

    /// Runs the tool inside the folder, as `command` has it.
    pub fn run(&self, arguments: &str) -> Ended {
        Ended::of(self.command(arguments).output().unwrap())
    }

    /// Runs the tool inside the folder with these arguments and no other.
    pub fn run_bare(&self, arguments: &str) -> Ended {
        Ended::of(self.bare_command(arguments).output().unwrap())
    }

    /// The tool inside the folder, not yet started. A play is told its brush, so that it does not warn that none is.
    pub fn command(&self, arguments: &str) -> Command {
        let mut command = self.bare_command(arguments);
        if arguments.starts_with("play ") && !arguments.contains("--brush") {
            command.args(["--brush", "000000"]);
        }
        command
    }

    fn bare_command(&self, arguments: &str) -> Command {
        let mut command = Command::new(env!("CARGO_BIN_EXE_lacrumont"));
        command.args(arguments.split_whitespace()).current_dir(&self.0);
        command
    }

    /// Runs the tool inside the folder from a shell that does something first.
    pub fn run_after(&self, first: &str, arguments: &str) -> Ended {
        let script = format!("{first}; exec {} {arguments}", env!("CARGO_BIN_EXE_lacrumont"));
        Ended::of(Command::new("bash").args(["-c", &script]).current_dir(&self.0).output().unwrap())
    }

    /// Every file with its bytes, to see that nothing has changed.
    pub fn all(&self) -> Vec<(String, Vec<u8>)> {
        self.names().into_iter().map(|name| (name.clone(), self.get(&name))).collect()
    }
}

impl Drop for Folder {
    fn drop(&mut self) {
        let _ = fs::remove_dir_all(&self.0);
    }
}

/// How a run of the tool ended.
#[derive(Debug)]
pub struct Ended {
    pub code: Option<i32>,
    pub out: String,
    pub err: String,
}

impl Ended {
    pub fn of(output: Output) -> Ended {
        Ended {
            code: output.status.code(),
            out: String::from_utf8(output.stdout).unwrap(),
            err: String::from_utf8(output.stderr).unwrap(),
        }
    }

    #[track_caller]
    pub fn expect(self, code: i32) -> Ended {
        assert_eq!(self.code, Some(code), "{self:?}");
        self
    }

    /// An error: code 1 and these words.
    #[track_caller]
    pub fn fails(self, words: &str) {
        assert!(self.code == Some(1) && self.err.contains(words), "{self:?}");
    }
}

/// A sheet of pixels without an order, solid ones unless it is deep.
pub fn noisy_sheet(width: u32, height: u32, deep: bool) -> Sheet {
    let solid = if deep { 0 } else { 0xFF00_0000 };
    let pixels = (0..width * height).map(|at| (at + 7).wrapping_mul(2_654_435_761) | solid).collect();
    Sheet::new(Surface { width, height, pixels }, deep)
}

/// A rectangle: left, top, width, height.
pub type Area = [i32; 4];

/// A picture under a 40-byte header; its table is whole.
pub fn picture(width: i32, height: i32, bits: u16, table: &[u32], pixels: &[u8]) -> Picture {
    Picture { header: Header::new(40, width, height, bits), table: table.to_vec(), pixels: pixels.to_vec() }
}

/// 0x51 without a source: the brush over the area.
pub fn brush_record(area: Area) -> Vec<u8> {
    Record::new(STRETCHDIBITS, area, rop(0xF0)).bytes()
}

/// 0x51: two pixels of 24 bits, blue-green and red-grey, stretched over the area under a raster operation.
pub fn stretch_record(area: Area, operation: u32) -> Vec<u8> {
    let source = picture(2, 1, 24, &[], &[200, 100, 0, 90, 90, 220, 0, 0]);
    Record::new(STRETCHDIBITS, area, rop(operation)).from([0, 0, 2, 1], source).bytes()
}

/// 0x72, format 1: one premultiplied pixel stretched over the area.
pub fn blend_record(area: Area, pixel: u32) -> Vec<u8> {
    let source = picture(1, 1, 32, &[], &pixel.to_le_bytes());
    Record::new(ALPHABLEND, area, blend_field(255, 1)).from([0, 0, 1, 1], source).bytes()
}

/// 0x4E: the brush where a mask of 8 by 2 squares is 1, what is there where it is 0.
pub fn mask_record(area: Area) -> Vec<u8> {
    let mask = picture(8, 2, 1, &[0, 0xFF_FFFF], &words(&[0x55, 0xAA]));
    Record::new(MASKBLT, area, rop4(0xF0, 0xAA)).masked([0, 0], mask).bytes()
}

/// A record that sets nothing new (EMR_SETMAPMODE, MM_TEXT).
pub fn other_record() -> Vec<u8> {
    words(&[17, 12, 1])
}

/// EMR_BITBLT without a source: the brush over the whole sheet, if it were played.
pub fn bitblt_record() -> Vec<u8> {
    let mut fields = vec![0x4C, 100, 0, 0, 4095, 4095, 0, 0, 4096, 4096, 0x00F0_0021];
    fields.resize(25, 0);
    words(&fields)
}

/// A whole file: header, these records, EOF.
pub fn emf(records: &[Vec<u8>]) -> Vec<u8> {
    let length = 88 + records.iter().map(Vec::len).sum::<usize>() + 20;
    let mut fields = vec![1, 88, 0, 0, 4095, 4095, 0, 0, 4095, 4095, 0x464D_4520, 0x0001_0000];
    fields.extend([length as u32, records.len() as u32 + 2, 1, 0, 0, 0, 4096, 4096, 1000, 1000]);
    let mut file = words(&fields);
    file.extend(records.concat());
    file.extend(words(&[14, 20, 0, 16, 20]));
    file
}
