//! The listing for programs: one JSON document, a record a line.

use std::path::Path;

use super::{Entry, Listing, Summary, Verdict, PLAYED_TYPES};
use crate::commands::output::Out;
use crate::emf_header::EmfHeader;
use crate::facts::{names, Header, Masks, Operation, Part, Picture, Rectangle, Target};
use crate::json::{members, Value};
use crate::record_types;

#[derive(Default)]
pub struct Json {
    files: u64,
    /// Records of the file under way.
    records: u64,
}

impl Listing for Json {
    fn begin(&mut self, out: &mut Out) {
        out.text("{\"files\": [");
    }

    fn unreadable(&mut self, path: &Path, error: &str, out: &mut Out) {
        self.file_begin(path, Value::Null, None, out);
        self.file_end(&Summary { error: Some(error.to_string()), ..Summary::default() }, out);
    }

    fn file(&mut self, path: &Path, bytes: usize, header: Option<&EmfHeader>, out: &mut Out) {
        self.file_begin(path, number(bytes as u64), header, out);
    }

    fn record(&mut self, entry: &Entry, out: &mut Out) {
        let comma = if self.records > 0 { "," } else { "" };
        self.records += 1;
        out.text(&format!("{comma}\n{}", record(entry)));
    }

    fn file_end(&mut self, summary: &Summary, out: &mut Out) {
        let counts = object([
            ("bitmap_records", number(summary.bitmaps())),
            ("can_be_played", number(summary.playable)),
            ("would_draw_nothing", number(summary.nothing)),
            ("would_be_refused", number(summary.refused)),
            ("not_played", number(summary.not_played)),
            ("other_records", number(summary.others)),
        ]);
        let end = members(&[
            ("summary", counts),
            ("warnings", summary.warnings[..].into()),
            ("error", summary.error.clone().into()),
        ]);
        out.text(&format!("], {end}}}"));
    }

    fn end(&mut self, out: &mut Out) {
        out.text("\n]}\n");
    }
}

impl Json {
    fn file_begin(&mut self, path: &Path, bytes: Value, header: Option<&EmfHeader>, out: &mut Out) {
        let comma = if self.files > 0 { "," } else { "" };
        self.files += 1;
        self.records = 0;
        // A name need not be Unicode, but JSON is: what is not is shown by U+FFFD.
        let file = path.to_string_lossy().into_owned();
        let begin = members(&[("file", file.into()), ("bytes", bytes), ("header", header.map(emf_header).into())]);
        out.text(&format!("{comma}\n{{{begin}, \"records\": ["));
    }
}

/// All counts are far below 2^63.
fn number(count: u64) -> Value {
    Value::Number(count as i64)
}

fn object<const N: usize>(members: [(&'static str, Value); N]) -> Value {
    Value::Object(members.into())
}

fn record(entry: &Entry) -> Value {
    let facts = &entry.facts;
    let (verdict, reason) = match &entry.verdict {
        Verdict::Playable(cut) => ("can be played", cut.as_deref()),
        Verdict::Nothing(why) => ("would draw nothing", Some(&why[..])),
        Verdict::Refused(reason) => ("would be refused", Some(&reason[..])),
        Verdict::NotPlayed => ("not played", Some(PLAYED_TYPES)),
    };
    object([
        ("number", number(entry.number as u64)),
        ("offset", number(entry.offset as u64)),
        ("type", facts.kind.into()),
        ("type_name", facts.kind.map(|kind| record_types::name(kind).into_owned()).into()),
        ("Size", facts.size.into()),
        ("fixed_part", facts.fixed_end().map(|end| number(end as u64)).into()),
        ("Bounds", facts.bounds.map(corners).into()),
        ("target", facts.target.map(target).into()),
        ("source_rectangle", facts.source_rectangle.map(rectangle).into()),
        ("XformSrc", facts.transform.into()),
        ("source", facts.source.map(picture).into()),
        ("mask_corner", facts.mask_corner.map(point).into()),
        ("mask", facts.mask.map(picture).into()),
        ("operation", facts.operation.map(operation).into()),
        ("uses_brush", facts.uses_brush().into()),
        ("verdict", verdict.into()),
        ("status", entry.status.into()),
        ("reason", reason.into()),
    ])
}

fn emf_header(header: &EmfHeader) -> Value {
    let size = |[width, height]: [i32; 2]| object([("width", width.into()), ("height", height.into())]);
    object([
        ("Bounds", corners(header.bounds)),
        ("Frame", corners(header.frame)),
        ("Device", size(header.device)),
        ("Millimeters", size(header.millimetres)),
        ("description", header.description[..].into()),
    ])
}

fn corners([left, top, right, bottom]: [i32; 4]) -> Value {
    object([("left", left.into()), ("top", top.into()), ("right", right.into()), ("bottom", bottom.into())])
}

fn target(target: Target) -> Value {
    match target {
        Target::Rectangle(target) => rectangle(target),
        Target::Points(points) => object([("points", points.map(point).into())]),
    }
}

fn rectangle(Rectangle { x, y, cx, cy }: Rectangle) -> Value {
    object([("x", x.into()), ("y", y.into()), ("cx", cx.into()), ("cy", cy.into())])
}

fn point([x, y]: [i32; 2]) -> Value {
    object([("x", x.into()), ("y", y.into())])
}

fn picture(picture: Picture) -> Value {
    let part = |Part { offset, size }: Part| object([("offset", offset.into()), ("size", size.into())]);
    object([
        ("usage", picture.usage.into()),
        ("usage_name", names::usage(picture.usage).into()),
        ("header_part", part(picture.header_part)),
        ("bits_part", part(picture.bits_part)),
        ("header", picture.header.map(header).into()),
    ])
}

fn header(header: Header) -> Value {
    let masks = |Masks { red, green, blue, alpha }: Masks| {
        object([("red", red.into()), ("green", green.into()), ("blue", blue.into()), ("alpha", alpha.into())])
    };
    object([
        ("biSize", header.size.into()),
        ("biWidth", header.width.into()),
        ("biHeight", header.height.into()),
        ("biPlanes", header.planes.into()),
        ("biBitCount", header.bits.into()),
        ("biCompression", header.compression.into()),
        ("compression_name", header.compression.and_then(names::compression).into()),
        ("biClrUsed", header.used.into()),
        ("masks", header.masks.map(masks).into()),
    ])
}

fn operation(operation: Operation) -> Value {
    match operation {
        Operation::Blend { operation, flags, constant_alpha, format } => object([
            ("kind", "blend".into()),
            ("operation", operation.into()),
            ("flags", flags.into()),
            ("constant_alpha", constant_alpha.into()),
            ("format", format.into()),
        ]),
        Operation::Rop4 { field, foreground, background } => object([
            ("kind", "ROP4".into()),
            ("field", field.into()),
            ("foreground", foreground.into()),
            ("foreground_name", names::raster(foreground).into()),
            ("background", background.into()),
            ("background_name", names::raster(background).into()),
        ]),
        Operation::Rop { field, raster } => object([
            ("kind", "ROP".into()),
            ("field", field.into()),
            ("raster", raster.into()),
            ("raster_name", names::raster(raster).into()),
        ]),
        Operation::Transparent { colour: [red, green, blue] } => object([
            ("kind", "transparent colour".into()),
            ("red", red.into()),
            ("green", green.into()),
            ("blue", blue.into()),
        ]),
        Operation::Scans { start, count } => {
            object([("kind", "stored rows".into()), ("start", start.into()), ("count", count.into())])
        }
        Operation::Copy => object([("kind", "copy".into())]),
    }
}
