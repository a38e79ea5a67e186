//! The script format: opcodes 0 to 6 read, run and printed.  Words in
//! quotation marks are the script format's.

use crate::answer::Answer;
use crate::dib::Part;
use crate::input::{Bad, Input};
use crate::play::play;
use crate::reading::reading;
use crate::region::Clip;
use crate::undo::undo;
use std::io::{self, Write};

/// "sheet pixels | 262,144 numbers"
const MOST_PIXELS: u32 = 262_144;
/// "journal | 1,048,576 bytes"
const MOST_JOURNAL: u32 = 1_048_576;
/// "record ... in one call (`data`) | 131,072 bytes"
const MOST_DATA: u32 = 131_072;

/// "0x3143524F | the file's mark"
const MARK: u32 = 0x3143_524F;

/// "SUM is FNV-1a of 64 bits: start with h = 14695981039346656037; for each
/// byte b: h = h xor b, then h = h · 1099511628211 mod 2^64."
pub fn sum(bytes: &[u8]) -> u64 {
    let mut h: u128 = 14_695_981_039_346_656_037;
    for &b in bytes {
        h ^= b as u128;
        h = h * 1_099_511_628_211 % 18_446_744_073_709_551_616;
    }
    h as u64
}

/// The sum over numbers of "four little-endian bytes each".
pub fn sum_of_words(words: &[u32]) -> u64 {
    let mut bytes = Vec::new();
    for w in words {
        bytes.extend_from_slice(&w.to_le_bytes());
    }
    sum(&bytes)
}

/// "journal byte k is `(((S + k) mod 2^32) * 2654435761 mod 2^32) / 2^24`,
/// rounded down"
pub fn fill(seed: u32, k: u32) -> u8 {
    let place = (seed as u128 + k as u128) % 4_294_967_296;
    (place * 2_654_435_761 % 4_294_967_296 / 16_777_216) as u8
}

impl<'a> Input<'a> {
    /// "Byte data is written as a word `L`, then `L` bytes, then zero bytes up
    /// to the next multiple of 4".  The text says zero bytes, so others are a
    /// fault.
    fn data(&mut self) -> Result<&'a [u8], Bad> {
        let length = self.word()?;
        if length > MOST_DATA {
            return Err(Bad);
        }
        let bytes = self.take(length as usize)?;
        let padding = self.take(((4 - length % 4) % 4) as usize)?;
        if padding.iter().any(|&b| b != 0) {
            return Err(Bad);
        }
        Ok(bytes)
    }
}

/// What the calls are made with.
struct State {
    pixels: Vec<u32>,
    journal: Vec<u8>,
    width: u32,
    height: u32,
    lent_pixels: usize,
    lent_journal: usize,
    used: u64,
}

fn head(input: &mut Input) -> Result<State, Bad> {
    if input.word()? != MARK {
        return Err(Bad);
    }
    // "items": "`replay` passes over it"
    input.word()?;
    let width = input.word()?;
    let height = input.word()?;
    let p = input.word()?;
    if p > MOST_PIXELS {
        return Err(Bad);
    }
    let mut pixels = Vec::new();
    for _ in 0..p {
        pixels.push(input.word()?);
    }
    let j = input.word()?;
    if j > MOST_JOURNAL {
        return Err(Bad);
    }
    let seed = input.word()?;
    let used = input.word()?;
    let mut journal = Vec::new();
    for k in 0..j {
        journal.push(fill(seed, k));
    }
    Ok(State {
        lent_pixels: pixels.len(),
        lent_journal: journal.len(),
        pixels,
        journal,
        width,
        height,
        used: used as u64,
    })
}

/// "Prints: `answer pixels count`"
fn print_answer(out: &mut dyn Write, a: Answer, used: u64) -> io::Result<()> {
    writeln!(out, "{} {} {}", a.status, a.pixels, used)
}

fn print_reading(out: &mut dyn Write, record: &[u8], mask: bool) -> io::Result<()> {
    let r = reading(record, mask);
    let part = |p: &Part| {
        let start = p.offset as usize;
        &record[start..start + p.length as usize]
    };
    // "answer headerlength headersum viewlength viewsum width rows bits
    // compression topdown red green blue alpha palettesum"
    writeln!(
        out,
        "{} {} {} {} {} {} {} {} {} {} {} {} {} {} {}",
        r.status,
        r.header.length,
        sum(part(&r.header)),
        r.view.length,
        sum(part(&r.view)),
        r.width,
        r.rows,
        r.bits,
        r.compression,
        if r.top_down { 1 } else { 0 },
        r.red,
        r.green,
        r.blue,
        r.alpha,
        sum_of_words(&r.palette),
    )
}

/// What a call has printed, unless the script has a fault.
type Called = Result<io::Result<()>, Bad>;

/// "Nothing follows opcode 0 in the input."  Judged before the sums are
/// printed.
fn end(input: &mut Input, s: &mut State, out: &mut dyn Write) -> Called {
    if !input.at_end() {
        return Err(Bad);
    }
    Ok(writeln!(out, "sheet {}", sum_of_words(&s.pixels)).and_then(|_| writeln!(out, "journal {}", sum(&s.journal))))
}

fn play_next(input: &mut Input, s: &mut State, out: &mut dyn Write) -> Called {
    let clip = Clip { left: input.signed()?, top: input.signed()?, right: input.signed()?, bottom: input.signed()? };
    let brush = input.word()?;
    // "`tag` is always there; without item 11 it is not looked at."
    input.word()?;
    let record = input.data()?;
    let answer = play(
        &mut s.pixels[..s.lent_pixels],
        s.width,
        s.height,
        &mut s.journal[..s.lent_journal],
        &mut s.used,
        record,
        clip,
        brush,
    );
    Ok(print_answer(out, answer, s.used))
}

fn undo_next(s: &mut State, out: &mut dyn Write) -> Called {
    let answer = undo(&mut s.pixels[..s.lent_pixels], s.width, s.height, &s.journal[..s.lent_journal], &mut s.used);
    Ok(print_answer(out, answer, s.used))
}

/// "which (0 source, 1 mask)"; another number is a fault.
fn read_next(input: &mut Input, out: &mut dyn Write) -> Called {
    let which = input.word()?;
    if which > 1 {
        return Err(Bad);
    }
    let record = input.data()?;
    Ok(print_reading(out, record, which == 1))
}

/// "P' is at most P, J' at most J"
fn lend(input: &mut Input, s: &mut State) -> Called {
    let width = input.word()?;
    let height = input.word()?;
    let p = input.word()? as usize;
    let j = input.word()? as usize;
    if p > s.pixels.len() || j > s.journal.len() {
        return Err(Bad);
    }
    s.width = width;
    s.height = height;
    s.lent_pixels = p;
    s.lent_journal = j;
    Ok(Ok(()))
}

fn count(input: &mut Input, s: &mut State) -> Called {
    s.used = input.word()? as u64;
    Ok(Ok(()))
}

/// "offset + 4 is at most J"
fn poke(input: &mut Input, s: &mut State) -> Called {
    let offset = input.word()?;
    let word = input.word()?;
    if offset as u64 + 4 > s.journal.len() as u64 {
        return Err(Bad);
    }
    let at = offset as usize;
    s.journal[at..at + 4].copy_from_slice(&word.to_le_bytes());
    Ok(Ok(()))
}

/// One call.  True after opcode 0.
fn call(input: &mut Input, s: &mut State, out: &mut dyn Write) -> Result<io::Result<bool>, Bad> {
    let opcode = input.word()?;
    let printed = match opcode {
        0 => end(input, s, out),
        1 => play_next(input, s, out),
        2 => undo_next(s, out),
        3 => read_next(input, out),
        4 => lend(input, s),
        5 => count(input, s),
        6 => poke(input, s),
        _ => Err(Bad),
    }?;
    Ok(printed.map(|_| opcode == 0))
}

/// Runs a whole script.  What was printed before a fault stays printed; then
/// comes the line `bad script`.  True for a good script.
pub fn run(bytes: &[u8], out: &mut dyn Write) -> io::Result<bool> {
    let mut input = Input::new(bytes);
    let mut state = match head(&mut input) {
        Ok(state) => state,
        Err(Bad) => {
            writeln!(out, "bad script")?;
            return Ok(false);
        }
    };
    loop {
        match call(&mut input, &mut state, out) {
            Err(Bad) => {
                writeln!(out, "bad script")?;
                return Ok(false);
            }
            Ok(printed) => {
                if printed? {
                    return Ok(true);
                }
            }
        }
    }
}
