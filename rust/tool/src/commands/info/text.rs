//! The listing for people.

use std::path::Path;

use super::{Entry, Listing, Summary, Verdict, PLAYED_TYPES};
use crate::commands::output::Out;
use crate::emf_header::EmfHeader;
use crate::facts::{names, Facts, Header, Operation, Picture, Rectangle, Target};
use crate::{record_types, words};

#[derive(Default)]
pub struct Text {
    files: u64,
}

impl Listing for Text {
    fn begin(&mut self, _: &mut Out) {}

    /// Standard error has been told.
    fn unreadable(&mut self, _: &Path, _: &str, _: &mut Out) {}

    fn file(&mut self, path: &Path, bytes: usize, header: Option<&EmfHeader>, out: &mut Out) {
        if self.files > 0 {
            out.line("");
        }
        self.files += 1;
        out.line(&format!("{}: {}", path.display(), words::things(bytes as u64, "byte")));
        if let Some(header) = header {
            out.line(&format!("header: {}", whole_picture(header)));
        }
    }

    fn record(&mut self, entry: &Entry, out: &mut Out) {
        let Entry { number, offset, facts, .. } = entry;
        let named = record_types::named(facts.kind.unwrap_or(0));
        let size = facts.size.unwrap_or(0);
        out.line(&format!("record {number} at offset {offset}: {named}, Size {size}"));
        for line in lines(facts) {
            out.line(&format!("  {line}"));
        }
        let status = entry.status;
        match &entry.verdict {
            Verdict::Nothing(why) => out.line(&format!("  warning: it draws nothing on any sheet: {why}")),
            Verdict::Playable(Some(cut)) => out.line(&format!("  warning: {cut}")),
            _ => {}
        }
        out.line(&match &entry.verdict {
            Verdict::Playable(_) => format!("  {}", words::numbered(status)),
            Verdict::Nothing(_) => format!("  status {status}: accepted, but it draws nothing"),
            Verdict::Refused(reason) => format!("  status {status}: {reason}"),
            Verdict::NotPlayed => format!("  not played: {PLAYED_TYPES}"),
        });
    }

    fn file_end(&mut self, summary: &Summary, out: &mut Out) {
        for warning in &summary.warnings {
            out.line(&format!("warning: {warning}"));
        }
        let Summary { playable, nothing, refused, not_played, .. } = summary;
        let bitmaps = words::things(summary.bitmaps(), "bitmap record");
        let others = words::things(summary.others, "other record");
        let damaged = if summary.error.is_some() { " before the damage" } else { "" };
        let counts = [playable, nothing, refused, not_played].map(|number| words::count(*number));
        let [playable, nothing, refused, not_played] = counts;
        out.line(&format!(
            "{bitmaps}{damaged}: {playable} can be played, {nothing} would draw nothing, {refused} would be refused, \
             {not_played} of a type that is not played; {others}"
        ));
    }

    fn end(&mut self, _: &mut Out) {}
}

fn whole_picture(header: &EmfHeader) -> String {
    let [left, top, right, bottom] = header.bounds;
    let ([width, height], [across, down]) = (header.device, header.millimetres);
    let millimetres = |from: usize| f64::from(header.frame[from + 2]) / 100.0 - f64::from(header.frame[from]) / 100.0;
    // Quoted, so that no character in it acts on a terminal.
    let described: String = header.description.iter().map(|part| format!("; {part:?}")).collect();
    format!(
        "Bounds {left}, {top}, {right}, {bottom}; frame {:.2} by {:.2} mm; device {width} by {height} pixels, {across} by \
         {down} mm{described}",
        millimetres(0),
        millimetres(1)
    )
}

/// The record's facts, a line for each subject; what is absent is left out.
fn lines(facts: &Facts) -> Vec<String> {
    let mut lines = Vec::new();
    let places: Vec<String> = [bounds(facts), target(facts)].into_iter().flatten().collect();
    if !places.is_empty() {
        lines.push(places.join("; "));
    }
    if let Some(end) = facts.fixed_end().filter(|end| facts.length < *end) {
        lines.push(format!("cut off: {} of the {end} bytes of its fixed part", facts.length));
    } else {
        lines.push(source(facts));
        lines.extend(mask(facts));
    }
    lines.extend(transform(facts));
    lines.extend(facts.operation.map(|is| format!("operation: {}{}", operation(is), brush(facts))));
    lines
}

fn bounds(facts: &Facts) -> Option<String> {
    let [left, top, right, bottom] = facts.bounds?;
    Some(format!("Bounds {left}, {top}, {right}, {bottom}"))
}

fn target(facts: &Facts) -> Option<String> {
    Some(match facts.target? {
        Target::Rectangle(target) => format!("target {}", rectangle(target)),
        Target::Points(points) => {
            let points = points.map(|[x, y]| format!("{x}, {y}"));
            format!("target a parallelogram with corners {}", points.join("; "))
        }
    })
}

fn rectangle(Rectangle { x, y, cx, cy }: Rectangle) -> String {
    format!("{cx} by {cy} at {x}, {y}")
}

fn source(facts: &Facts) -> String {
    match (&facts.source, facts.source_rectangle) {
        (Some(source), Some(from)) => format!("source {} of {}", rectangle(from), picture(source)),
        _ => "no source picture".to_string(),
    }
}

fn mask(facts: &Facts) -> Option<String> {
    match (&facts.mask, facts.mask_corner) {
        (Some(mask), Some([x, y])) => Some(format!("mask from {x}, {y} of {}", picture(mask))),
        _ => facts.has_mask().then(|| "no mask picture".to_string()),
    }
}

fn picture(picture: &Picture) -> String {
    let usage = match picture.usage {
        0 => String::new(),
        usage => format!(", Usage{} {}", picture.role.ending(), names::with(usage, names::usage(usage))),
    };
    match &picture.header {
        Some(header) => format!("a picture {}{usage}", header_words(header)),
        None => format!("a picture whose header cannot be read{usage}"),
    }
}

/// Sides, bits, compression and header; a field that is cut off is left out.
fn header_words(header: &Header) -> String {
    let sides = |(width, height): (i32, i32)| {
        let order = if height < 0 { " (top-down)" } else { "" };
        format!("{width} by {}{order}", height.unsigned_abs())
    };
    let bits = |bits: u16| format!("{bits} {}", if bits == 1 { "bit" } else { "bits" });
    let compression = |number| names::compression(number).map_or(format!("compression {number}"), str::to_string);
    let masks = header.masks.map(|masks| {
        let all = [Some(masks.red), Some(masks.green), Some(masks.blue), masks.alpha];
        let all: Vec<String> = all.into_iter().flatten().map(|mask| format!("0x{mask:08X}")).collect();
        format!("masks {}", all.join(" "))
    });
    let words = [
        header.width.zip(header.height).map(sides),
        header.bits.map(bits),
        header.compression.map(compression),
        masks,
        Some(format!("{}-byte header", header.size)),
    ];
    words.into_iter().flatten().collect::<Vec<_>>().join(", ")
}

/// XformSrc, where it changes anything.
fn transform(facts: &Facts) -> Option<String> {
    let numbers = facts.transform.filter(|numbers| *numbers != [1.0, 0.0, 0.0, 1.0, 0.0, 0.0])?;
    Some(format!("XformSrc {}", numbers.map(words::float).join(", ")))
}

fn operation(operation: Operation) -> String {
    let raster = |raster: u8| names::with(format!("0x{raster:02X}"), names::raster(raster));
    match operation {
        Operation::Blend { operation: code, constant_alpha, format, .. } => {
            let code = if code == 0 { String::new() } else { format!(" operation {code}") };
            format!("blend{code}, constant alpha {constant_alpha}, alpha format {format}")
        }
        Operation::Rop4 { foreground, background, .. } => {
            format!(
                "foreground {} where the mask is 1, background {} where it is 0",
                raster(foreground),
                raster(background)
            )
        }
        Operation::Rop { raster: byte, .. } => format!("raster operation {}", raster(byte)),
        Operation::Transparent { colour: [red, green, blue] } => {
            format!("copy all but the transparent colour {red}, {green}, {blue} (red, green, blue)")
        }
        Operation::Scans { start, count } => {
            format!("copy {} from row {start} on", words::things(count.into(), "stored row"))
        }
        Operation::Copy => "copy".to_string(),
    }
}

fn brush(facts: &Facts) -> &'static str {
    if facts.uses_brush() {
        "; uses the brush"
    } else {
        ""
    }
}
