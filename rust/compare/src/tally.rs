//! What a run has made: how often each status was given, and which shapes of record were drawn.

use crate::runs::{Damage, DAMAGES};
use records::{bytes, places::TYPE};
use second::record::{Fixed, Kind, Operation, Sound};
use std::collections::BTreeMap;
use std::fmt;

#[derive(Clone, Copy, Debug, PartialEq, Eq)]
pub enum Call {
    Play,
    Undo,
    Read,
}

/// How often each status was given, whichever it was.
type Given = BTreeMap<u32, u64>;

fn times(given: &Given, status: u32) -> u64 {
    given.get(&status).copied().unwrap_or(0)
}

/// The statuses that a call can give, in the papers' order.
fn statuses(call: Call) -> &'static [u32] {
    match call {
        Call::Play => &[0, 1, 2, 3, 4, 5, 6, 21, 7, 8, 9, 10, 11, 12, 13, 14],
        Call::Undo => &[0, 1, 2, 15, 16],
        Call::Read => &[0, 3, 4, 5, 6, 21, 7, 8, 9, 10, 11, 12, 13],
    }
}

const CALLS: [Call; 3] = [Call::Play, Call::Undo, Call::Read];
/// Those of all calls; those of a run, and of the calls in it.
const STATUSES: [u32; 18] = [0, 1, 2, 3, 4, 5, 6, 21, 7, 8, 9, 10, 11, 12, 13, 14, 15, 16];
const RUN_STATUSES: [u32; 5] = [0, 1, 2, 29, 30];
const INNER_STATUSES: [u32; 15] = [0, 3, 4, 5, 6, 21, 7, 8, 9, 10, 11, 12, 13, 14, 15];
/// Two parts of source and mask: header and bits.
const PAIRS: [(usize, usize, &str); 6] = [
    (0, 1, "source header and bits"),
    (2, 3, "mask header and bits"),
    (0, 2, "both headers"),
    (0, 3, "source header, mask bits"),
    (1, 2, "source bits, mask header"),
    (1, 3, "both bits"),
];
const DEPTHS: [i64; 6] = [1, 4, 8, 16, 24, 32];
const KINDS: [&str; 3] = ["0x72", "0x4E", "0x51"];

#[derive(Clone, Debug)]
pub struct Tally {
    pub calls: u64,
    pub cases: u64,
    /// Lists that the pile followed.
    pub piles: u64,
    pub pixels: u64,
    /// Accepted plays that count 0.
    pub empty: u64,
    /// Status 3 for a record over 16,777,216 bytes, 2 for a journal over 20,000,000 records.
    pub long_records: u64,
    pub long_journals: u64,
    given: [Given; 3],
    /// Records that gave 21, by the pairs of parts that have a byte in common in them.
    pairs: [u64; PAIRS.len()],
    /// Accepted plays by type, and by the source's depth; the last is no source.
    depths: [[u64; 7]; 3],
    /// Accepted plays by raster byte: 0x4E's foreground and background, 0x51's.
    rasters: [[u64; 256]; 3],
    /// Blends of format 0 and 1.
    formats: [u64; 2],
    /// Sources with masks, by a mask's channel and width.
    widths: [[u64; 9]; 4],
    /// Sources of 40 and 108 bytes of header; bottom-up and top-down.
    headers: [u64; 2],
    orders: [u64; 2],
    /// Plays that mirror columns, rows.
    mirrored: [u64; 2],
    /// Runs of lists, by status.
    pub runs: u64,
    ran: Given,
    /// The calls that they made, by status.
    inner: Given,
    /// Lists that were refused, by what was done to them.
    damaged: [u64; DAMAGES.len()],
}

impl Default for Tally {
    fn default() -> Tally {
        Tally {
            calls: 0,
            cases: 0,
            piles: 0,
            pixels: 0,
            empty: 0,
            long_records: 0,
            long_journals: 0,
            given: Default::default(),
            pairs: [0; PAIRS.len()],
            depths: [[0; 7]; 3],
            rasters: [[0; 256]; 3],
            formats: [0; 2],
            widths: [[0; 9]; 4],
            headers: [0; 2],
            orders: [0; 2],
            mirrored: [0; 2],
            runs: 0,
            ran: Given::new(),
            inner: Given::new(),
            damaged: [0; DAMAGES.len()],
        }
    }
}

impl Tally {
    pub fn count(&mut self, call: Call, status: u32) {
        self.calls += 1;
        *self.given[call as usize].entry(status).or_insert(0) += 1;
    }

    /// How often this call gave this status.
    pub fn given(&self, call: Call, status: u32) -> u64 {
        times(&self.given[call as usize], status)
    }

    /// A record that gave 21.
    pub fn shared(&mut self, record: &[u8]) {
        let kind = Kind::of(bytes::get(record, TYPE) as i64).expect("passes 4");
        let fixed = Fixed::read(record, kind);
        // An absent picture's parts are empty.
        let parts: Vec<_> = [fixed.source, fixed.mask]
            .into_iter()
            .flat_map(|picture| picture.map_or([0..0, 0..0], |named| named.parts()))
            .collect();
        for (n, (a, b, _)) in self.pairs.iter_mut().zip(PAIRS) {
            let common = parts[a].start.max(parts[b].start)..parts[a].end.min(parts[b].end);
            *n += u64::from(!common.is_empty());
        }
    }

    /// A run of a list, with the answers of its calls.
    pub fn ran(&mut self, status: u32, damage: Option<Damage>, answers: &[u32]) {
        self.runs += 1;
        *self.ran.entry(status).or_insert(0) += 1;
        for answer in answers.chunks_exact(2) {
            *self.inner.entry(answer[0]).or_insert(0) += 1;
        }
        if let (29, Some(damage)) = (status, damage) {
            self.damaged[damage as usize] += 1;
        }
    }

    /// An accepted play, for the list of shapes.
    pub fn drawn(&mut self, record: &[u8], sound: &Sound, pixels: u64) {
        self.pixels += pixels;
        if pixels == 0 {
            self.empty += 1;
            return;
        }
        let kind = match sound.fixed.operation {
            Operation::Blend { format, .. } => {
                self.formats[format as usize] += 1;
                0
            }
            Operation::Masked { foreground, background } => {
                self.rasters[0][foreground as usize] += 1;
                self.rasters[1][background as usize] += 1;
                1
            }
            Operation::Plain { raster } => {
                self.rasters[2][raster as usize] += 1;
                2
            }
        };
        let Some(dib) = &sound.source else {
            self.depths[kind][6] += 1;
            return;
        };
        let depth = DEPTHS.iter().position(|&d| d == dib.bits).expect("an accepted depth");
        self.depths[kind][depth] += 1;
        self.headers[usize::from(record[dib.header.offset as usize] == 108)] += 1;
        self.orders[usize::from(dib.top_down)] += 1;
        let fixed = &sound.fixed;
        self.mirrored[0] += u64::from((fixed.cx_src < 0) != (fixed.cx_dest < 0));
        self.mirrored[1] += u64::from((fixed.cy_src < 0) != (fixed.cy_dest < 0));
        if dib.compression == 3 {
            for (k, mask) in [dib.red, dib.green, dib.blue, dib.alpha].into_iter().enumerate() {
                self.widths[k][(mask as u64).count_ones() as usize] += 1;
            }
        }
    }

    pub fn add(&mut self, other: &Tally) {
        fn sum(a: &mut [u64], b: &[u64]) {
            for (x, y) in a.iter_mut().zip(b) {
                *x += y;
            }
        }
        fn sum_given(a: &mut Given, b: &Given) {
            for (&status, n) in b {
                *a.entry(status).or_insert(0) += n;
            }
        }
        self.calls += other.calls;
        self.cases += other.cases;
        self.piles += other.piles;
        self.pixels += other.pixels;
        self.empty += other.empty;
        self.long_records += other.long_records;
        self.long_journals += other.long_journals;
        for (mine, others) in self.given.iter_mut().zip(&other.given) {
            sum_given(mine, others);
        }
        sum(&mut self.pairs, &other.pairs);
        sum(self.depths.as_flattened_mut(), other.depths.as_flattened());
        sum(self.rasters.as_flattened_mut(), other.rasters.as_flattened());
        sum(&mut self.formats, &other.formats);
        sum(self.widths.as_flattened_mut(), other.widths.as_flattened());
        sum(&mut self.headers, &other.headers);
        sum(&mut self.orders, &other.orders);
        sum(&mut self.mirrored, &other.mirrored);
        self.runs += other.runs;
        sum_given(&mut self.ran, &other.ran);
        sum_given(&mut self.inner, &other.inner);
        sum(&mut self.damaged, &other.damaged);
    }

    /// Statuses that were given by a call, a run or a call of a run that cannot give them.
    pub fn impossible(&self) -> Vec<String> {
        let lists = CALLS.iter().map(|&call| (format!("{call:?}"), &self.given[call as usize], statuses(call)));
        let runs = [
            ("a run".to_string(), &self.ran, &RUN_STATUSES[..]),
            ("a call of a run".to_string(), &self.inner, &INNER_STATUSES[..]),
        ];
        let mut impossible = Vec::new();
        for (name, given, possible) in lists.chain(runs) {
            for (status, n) in given.iter().filter(|(status, _)| !possible.contains(status)) {
                impossible.push(format!("status {status} by {name} {n} times"));
            }
        }
        impossible
    }

    /// What was given fewer than `least` times: each status, by each call that can give it, and the two that need
    /// long buffers; and 21 with a byte shared by one pair of parts, fewer than `of_a_pair` times.
    pub fn rare(&self, least: u64, of_a_pair: u64) -> Vec<String> {
        let mut rare = Vec::new();
        for call in CALLS {
            for &status in statuses(call) {
                let n = self.given(call, status);
                if n < least {
                    rare.push(format!("status {status} by {call:?} only {n} times"));
                }
            }
        }
        for ((_, _, name), &n) in PAIRS.iter().zip(&self.pairs) {
            if n < of_a_pair {
                rare.push(format!("status 21 with a byte shared by {name} only {n} times"));
            }
        }
        if self.long_records < least {
            rare.push(format!("records over 16,777,216 bytes only {} times", self.long_records));
        }
        if self.long_journals < least {
            rare.push(format!("journals over 20,000,000 records only {} times", self.long_journals));
        }
        rare
    }

    /// The same of the runs; each status of a call in them, and each damage, is asked for `inner` times.
    pub fn rare_runs(&self, least: u64, inner: u64) -> Vec<String> {
        let mut rare = Vec::new();
        for status in RUN_STATUSES {
            let n = times(&self.ran, status);
            if n < least {
                rare.push(format!("status {status} by a run only {n} times"));
            }
        }
        for status in INNER_STATUSES {
            let n = times(&self.inner, status);
            if n < inner {
                rare.push(format!("status {status} by a call of a run only {n} times"));
            }
        }
        for (damage, &n) in DAMAGES.iter().zip(&self.damaged) {
            if n < inner {
                rare.push(format!("status 29 by {damage:?} only {n} times"));
            }
        }
        rare
    }
}

/// Numbers under their names.
fn named<N: fmt::Display>(row: impl Iterator<Item = (N, u64)>) -> String {
    row.map(|(name, n)| format!("{name}: {n}")).collect::<Vec<_>>().join(", ")
}

impl fmt::Display for Tally {
    fn fmt(&self, f: &mut fmt::Formatter) -> fmt::Result {
        writeln!(f, "status      play      undo      read")?;
        for status in STATUSES {
            write!(f, "{status:6}")?;
            for call in CALLS {
                if statuses(call).contains(&status) {
                    write!(f, "{:10}", self.given(call, status))?;
                } else {
                    write!(f, "{:>10}", "-")?;
                }
            }
            writeln!(f)?;
        }
        for text in self.impossible() {
            writeln!(f, "IMPOSSIBLE: {text}")?;
        }
        writeln!(f, "21 by what shares a byte  {}", named(PAIRS.iter().map(|pair| pair.2).zip(self.pairs)))?;
        writeln!(
            f,
            "{} of the 3s for records over 16,777,216 bytes, {} of the 2s for journals over 20,000,000 records",
            self.long_records, self.long_journals
        )?;
        writeln!(
            f,
            "{} lists followed by the pile; {} pixels drawn; {} plays of 0",
            self.piles, self.pixels, self.empty
        )?;
        writeln!(f, "plays that drew, by the source's depth:")?;
        writeln!(f, "             1        4        8       16       24       32     none")?;
        for (kind, row) in KINDS.iter().zip(&self.depths) {
            write!(f, "  {kind}")?;
            for n in row {
                write!(f, "{n:9}")?;
            }
            writeln!(f)?;
        }
        let seen = |k: usize| self.rasters[k].iter().filter(|&&n| n > 0).count();
        writeln!(f, "  format 0 {}, format 1 {}", self.formats[0], self.formats[1])?;
        writeln!(f, "  raster bytes of 256: foreground {}, background {}, plain {}", seen(0), seen(1), seen(2))?;
        writeln!(f, "  headers of 40 bytes {}, of 108 {}", self.headers[0], self.headers[1])?;
        writeln!(f, "  bottom-up {}, top-down {}", self.orders[0], self.orders[1])?;
        writeln!(f, "  mirrored columns {}, rows {}", self.mirrored[0], self.mirrored[1])?;
        for (name, row) in ["red", "green", "blue", "alpha"].iter().zip(&self.widths) {
            writeln!(f, "  {name} masks by width  {}", named(row.iter().copied().enumerate()))?;
        }
        writeln!(f, "runs by status  {}", named(RUN_STATUSES.into_iter().map(|s| (s, times(&self.ran, s)))))?;
        let inner = INNER_STATUSES.into_iter().map(|s| (s, times(&self.inner, s)));
        writeln!(f, "  their calls by status  {}", named(inner))?;
        let damages = DAMAGES.iter().map(|damage| format!("{damage:?}"));
        writeln!(f, "  29 by the list's damage  {}", named(damages.zip(self.damaged)))?;
        Ok(())
    }
}

#[cfg(test)]
mod tests {
    use super::*;

    #[test]
    fn no_status_is_booked_under_another() {
        let mut one = Tally::default();
        one.count(Call::Play, 21);
        one.count(Call::Undo, 16);
        one.count(Call::Undo, 21);
        one.ran(17, None, &[21, 0, 16, 0]);
        let mut tally = Tally::default();
        tally.add(&one);
        tally.add(&one);
        let given = [(Call::Play, 21), (Call::Play, 16), (Call::Undo, 16), (Call::Undo, 21)];
        assert_eq!(given.map(|(call, status)| tally.given(call, status)), [2, 0, 2, 2]);
        let impossible =
            ["status 21 by Undo 2 times", "status 17 by a run 2 times", "status 16 by a call of a run 2 times"];
        assert_eq!(tally.impossible(), impossible);
        assert!(impossible.iter().all(|text| tally.to_string().contains(text)));
        assert!(tally.rare(3, 0).contains(&"status 21 by Play only 2 times".to_string()));
    }
}
