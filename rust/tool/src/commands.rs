//! The commands. Each gives the exit status; an error in words becomes 1.

mod arguments;
mod choice;
mod emf_files;
mod info;
mod journal;
mod output;
mod play;
mod playing;
mod recovery;
mod results;
mod tally;
mod undo;

use std::ffi::OsString;

use output::{complain, Out, ERROR, FINE, WARNED};

const HELP: &str = "\
lacrumont plays the bitmap records of EMF files onto a sheet (an orthophoto), keeps a journal of every old pixel,
and takes plays back.

  lacrumont info FILE.emf [FILE.emf ..] [--json]
      lists the files' bitmap records, says of each whether it can be played, and what in a file is not honoured
  lacrumont play SHEET FILE.emf [FILE.emf ..] -o OUT [--clip L,T,R,B] [--brush RRGGBB] [--only N[,N]] [--skip N[,N]]
                 [--strict] [--dry-run] [--force] [--no-wait] [--journal FILE [--new-journal]]
      plays the files' bitmap records in order onto the sheet and writes OUT
  lacrumont undo SHEET --journal FILE -o OUT [--plays N | --all] [--force] [--no-wait]
      takes plays back and writes OUT
  lacrumont journal SHEET --journal FILE [--no-wait]
      lists the plays in a journal

  lacrumont COMMAND --help   more on a command
  lacrumont --version        the version

Sheets are .png (up to 8 bits a channel) or .bmp (24 or 32 bits, not compressed), sides 1 to 4,096.
A record is played if it is an alpha blend (0x72), a mask blit (0x4E) or a stretched DIB (0x51).

Exit status: 0  every wanted bitmap record was played (info: can be), and nothing was warned about
             1  an error of files or use: nothing was written
             2  a record was refused, or skipped because its type is not played
             3  nothing worse than warnings
";

/// Runs the command these arguments name, and gives the exit status.
pub fn run(arguments: Vec<OsString>) -> u8 {
    let mut out = Out::default();
    let ended = dispatch(&arguments, &mut out);
    let files_written = out.files_written;
    let ended = match (ended, out.end()) {
        // An error would say that they are not.
        (Ok(code), Err(words)) if files_written => {
            complain(&format!("warning: {words}"));
            Ok(if code == FINE { WARNED } else { code })
        }
        (ended, said) => ended.and_then(|code| said.map(|()| code)),
    };
    ended.unwrap_or_else(|words| {
        complain(&words);
        ERROR
    })
}

fn dispatch(arguments: &[OsString], out: &mut Out) -> Result<u8, String> {
    let Some((first, rest)) = arguments.split_first() else {
        return Err("no command is given: info, play, undo or journal; see lacrumont --help".to_string());
    };
    match first.to_str() {
        Some("info") => info::run(rest, out),
        Some("play") => play::run(rest, out),
        Some("undo") => undo::run(rest, out),
        Some("journal") => journal::run(rest, out),
        Some("--help" | "-h" | "help") => {
            out.text(HELP);
            Ok(FINE)
        }
        Some("--version" | "-V") => {
            out.line(&format!("lacrumont {}", env!("CARGO_PKG_VERSION")));
            Ok(FINE)
        }
        _ => Err(format!("there is no command {}; see lacrumont --help", first.to_string_lossy())),
    }
}
