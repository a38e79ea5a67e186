//! What the records of an EMF file set for those behind them: mapping, clip, stretch mode, colours, brush and whether a
//! path is under way (MS-EMF, 2.3).
//!
//! None of it is honoured: the library takes logical coordinates as sheet pixels, and clip and brush come with a play.
//! It is followed so that the tool can say where it matters.

use std::collections::HashMap;

use crate::bytes::{f32_at, i32_at, u32_at};
use crate::emf::Record;
use crate::words;

const SETWINDOWEXTEX: u32 = 9;
const SETWINDOWORGEX: u32 = 10;
const SETVIEWPORTEXTEX: u32 = 11;
const SETVIEWPORTORGEX: u32 = 12;
const SETMAPMODE: u32 = 17;
const SETSTRETCHBLTMODE: u32 = 21;
const SETCOLORADJUSTMENT: u32 = 23;
const OFFSETCLIPRGN: u32 = 26;
const SETMETARGN: u32 = 28;
const EXCLUDECLIPRECT: u32 = 29;
const INTERSECTCLIPRECT: u32 = 30;
const SCALEVIEWPORTEXTEX: u32 = 31;
const SCALEWINDOWEXTEX: u32 = 32;
const SAVEDC: u32 = 33;
const RESTOREDC: u32 = 34;
const SETWORLDTRANSFORM: u32 = 35;
const MODIFYWORLDTRANSFORM: u32 = 36;
const SELECTOBJECT: u32 = 37;
const CREATEPEN: u32 = 38;
const CREATEBRUSHINDIRECT: u32 = 39;
const DELETEOBJECT: u32 = 40;
const CREATEPALETTE: u32 = 49;
const BEGINPATH: u32 = 59;
const ENDPATH: u32 = 60;
const SELECTCLIPPATH: u32 = 67;
const ABORTPATH: u32 = 68;
const EXTSELECTCLIPRGN: u32 = 75;
const EXTCREATEFONTINDIRECTW: u32 = 82;
const CREATEMONOBRUSH: u32 = 93;
const CREATEDIBPATTERNBRUSHPT: u32 = 94;
const EXTCREATEPEN: u32 = 95;
const SETICMMODE: u32 = 98;
const SETLAYOUT: u32 = 115;

const MM_TEXT: u32 = 1;
const MM_ISOTROPIC: u32 = 7;
const MM_ANISOTROPIC: u32 = 8;
const COLORONCOLOR: u32 = 3;
const ICM_OFF: u32 = 1;
const ICM_ON: u32 = 2;
/// A region operation that puts the new region in the old one's place.
const RGN_COPY: u32 = 5;
/// Handles from here on are the system's own objects.
const STOCK: u32 = 0x8000_0000;
/// States that are kept; no real file saves as many, and each takes memory.
const MOST_SAVED: usize = 10_000;

/// A record that has set something: where it stands, and its type.
#[derive(Clone, Copy, Debug, PartialEq, Eq, Hash, PartialOrd, Ord)]
pub struct At {
    pub offset: usize,
    pub kind: u32,
}

/// A value, and the record that has set it; None for the value at the beginning.
#[derive(Clone, Copy, Debug)]
struct Setting<T> {
    value: T,
    by: Option<At>,
}

impl<T> Setting<T> {
    fn first(value: T) -> Setting<T> {
        Setting { value, by: None }
    }

    fn set(&mut self, value: Option<T>, at: At) {
        // A record too short for its fields sets nothing.
        if let Some(value) = value {
            *self = Setting { value, by: Some(at) };
        }
    }
}

/// A brush as a file selects it.
#[derive(Clone, Debug, PartialEq, Eq)]
pub enum Brush {
    /// red << 16 | green << 8 | blue.
    Solid(u32),
    /// One that is no single colour, in words.
    Other(&'static str),
}

/// eM11, eM12, eM21, eM22, eDx, eDy.
type Transform = [f32; 6];

const IDENTITY: Transform = [1.0, 0.0, 0.0, 1.0, 0.0, 0.0];

/// What is in force at one place of the file.
#[derive(Clone, Debug)]
struct State {
    mode: Setting<u32>,
    window_origin: Setting<[i32; 2]>,
    /// None for those of a metric mapping mode.
    window_extent: Setting<Option<[i32; 2]>>,
    viewport_origin: Setting<[i32; 2]>,
    viewport_extent: Setting<Option<[i32; 2]>>,
    world: Setting<Transform>,
    layout: Setting<u32>,
    stretch: Setting<u32>,
    /// The last record that has cut the clip.
    clip: Option<At>,
    /// The last one whose clip EMR_SETMETARGN has made lasting.
    meta_clip: Option<At>,
    /// The record that has had colours matched to the device.
    matching: Option<At>,
    /// The record that has had colours adjusted where a picture is stretched.
    adjustment: Option<At>,
    brush: Option<(At, Brush)>,
    in_path: bool,
}

/// A device context, as the records so far have left it.
pub struct Device {
    state: State,
    saved: Vec<State>,
    /// How many states were saved beyond those that are kept.
    not_kept: u64,
    brushes: HashMap<u32, Brush>,
}

impl Device {
    pub fn new() -> Device {
        let state = State {
            mode: Setting::first(MM_TEXT),
            window_origin: Setting::first([0, 0]),
            window_extent: Setting::first(Some([1, 1])),
            viewport_origin: Setting::first([0, 0]),
            viewport_extent: Setting::first(Some([1, 1])),
            world: Setting::first(IDENTITY),
            layout: Setting::first(0),
            stretch: Setting::first(COLORONCOLOR),
            clip: None,
            meta_clip: None,
            matching: None,
            adjustment: None,
            brush: None,
            in_path: false,
        };
        Device { state, saved: Vec::new(), not_kept: 0, brushes: HashMap::new() }
    }

    /// The next record of the file.
    pub fn take(&mut self, record: &Record) {
        let at = At { offset: record.offset, kind: record.kind };
        match record.kind {
            SAVEDC if self.saved.len() < MOST_SAVED => self.saved.push(self.state.clone()),
            SAVEDC => self.not_kept += 1,
            RESTOREDC => self.restore(i32_at(record.bytes, 8)),
            CREATEPEN..=DELETEOBJECT | CREATEPALETTE | EXTCREATEFONTINDIRECTW | CREATEMONOBRUSH..=EXTCREATEPEN => {
                self.create(record)
            }
            SELECTOBJECT => self.select(u32_at(record.bytes, 8), at),
            _ => self.state.take(record.bytes, at),
        }
    }

    /// Negative numbers count from the state saved last, positive ones from the first.
    fn restore(&mut self, number: Option<i32>) {
        let kept = self.saved.len() as i64;
        let saved = kept + self.not_kept as i64;
        let place = match number {
            Some(number) if number < 0 => saved + i64::from(number),
            Some(number) => i64::from(number) - 1,
            None => -1,
        };
        if (0..kept).contains(&place) {
            self.state = self.saved.swap_remove(place as usize);
            self.saved.truncate(place as usize);
            self.not_kept = 0;
        } else if (kept..saved).contains(&place) {
            self.not_kept = (place - kept) as u64;
        }
    }

    /// A handle gets a brush, or another object, or none.
    fn create(&mut self, record: &Record) {
        let Some(handle) = u32_at(record.bytes, 8) else { return };
        let brush = match record.kind {
            CREATEBRUSHINDIRECT => match (u32_at(record.bytes, 12), u32_at(record.bytes, 16)) {
                // The high byte says whether the others are the colour itself.
                (Some(0), Some(colour)) if colour >> 24 == 1 => Some(Brush::Other("a brush of a palette's colour")),
                (Some(0), Some(colour)) => Some(Brush::Solid(colour.swap_bytes() >> 8)),
                (Some(1), _) => Some(Brush::Other("a brush that draws nothing")),
                (Some(2), _) => Some(Brush::Other("a hatched brush")),
                (Some(_), Some(_)) => Some(Brush::Other("a pattern brush")),
                _ => Some(Brush::Other("a brush whose record is cut off")),
            },
            CREATEMONOBRUSH | CREATEDIBPATTERNBRUSHPT => Some(Brush::Other("a pattern brush")),
            _ => None,
        };
        match brush {
            Some(brush) => self.brushes.insert(handle, brush),
            None => self.brushes.remove(&handle),
        };
    }

    fn select(&mut self, handle: Option<u32>, at: At) {
        let Some(handle) = handle else { return };
        let brush = match handle.checked_sub(STOCK) {
            Some(0) => Some(Brush::Solid(0xFF_FFFF)),
            Some(1) => Some(Brush::Solid(0xC0_C0C0)),
            Some(2) => Some(Brush::Solid(0x80_8080)),
            Some(3) => Some(Brush::Solid(0x40_4040)),
            Some(4) => Some(Brush::Solid(0)),
            Some(5) => Some(Brush::Other("a brush that draws nothing")),
            Some(18) => Some(Brush::Other("the device context's own brush")),
            _ => self.brushes.get(&handle).cloned(),
        };
        // Pens, fonts and palettes are selected by the same record.
        if let Some(brush) = brush {
            self.state.brush = Some((at, brush));
        }
    }

    /// The brush that the file has selected, and the record that selects it.
    pub fn brush(&self) -> Option<(At, Brush)> {
        self.state.brush.clone()
    }

    /// The stretch mode in force, where it is another than the library's one, which leaves pixels out or repeats them.
    pub fn stretch(&self) -> Option<(At, String)> {
        let stretch = self.state.stretch;
        let name = ["BLACKONWHITE", "WHITEONBLACK", "COLORONCOLOR", "HALFTONE"];
        let name = (stretch.value as usize).checked_sub(1).and_then(|at| name.get(at)).unwrap_or(&"unknown");
        let words = format!("stretch mode {} ({name})", stretch.value);
        stretch.by.filter(|_| stretch.value != COLORONCOLOR).map(|at| (at, words))
    }

    /// The parts of the mapping that are not the identity, each with the record that has set it.
    pub fn mapping(&self) -> Vec<(At, String)> {
        self.state.mapping()
    }

    /// The last records whose clip is in force: one that lasts, one that does not.
    pub fn clips(&self) -> impl Iterator<Item = At> {
        self.state.meta_clip.into_iter().chain(self.state.clip)
    }

    /// The record that has had colours matched to the device.
    pub fn matching(&self) -> Option<At> {
        self.state.matching
    }

    /// The record that has had colours adjusted where a picture is stretched.
    pub fn adjustment(&self) -> Option<At> {
        self.state.adjustment
    }

    /// Whether shapes and text are only gathered, not drawn.
    pub fn in_path(&self) -> bool {
        self.state.in_path
    }
}

impl Default for Device {
    fn default() -> Device {
        Device::new()
    }
}

impl State {
    fn take(&mut self, bytes: &[u8], at: At) {
        let pair = || Some([i32_at(bytes, 8)?, i32_at(bytes, 12)?]);
        // An extent of 0 is refused, and the old one stays; in a metric mode every one is.
        let metric = is_metric(self.mode.value);
        let extent = || pair().filter(|pair| !metric && !pair.contains(&0)).map(Some);
        let rescaled = |old: Option<[i32; 2]>| old.filter(|_| !metric).and_then(|old| scaled(old, bytes)).map(Some);
        match at.kind {
            SETMAPMODE => self.set_mode(u32_at(bytes, 8), at),
            SETWINDOWEXTEX => self.window_extent.set(extent(), at),
            SETWINDOWORGEX => self.window_origin.set(pair(), at),
            SETVIEWPORTEXTEX => self.viewport_extent.set(extent(), at),
            SETVIEWPORTORGEX => self.viewport_origin.set(pair(), at),
            SCALEWINDOWEXTEX => self.window_extent.set(rescaled(self.window_extent.value), at),
            SCALEVIEWPORTEXTEX => self.viewport_extent.set(rescaled(self.viewport_extent.value), at),
            SETWORLDTRANSFORM => self.world.set(transform(bytes), at),
            MODIFYWORLDTRANSFORM => self.world.set(modified(self.world.value, bytes), at),
            SETLAYOUT => self.layout.set(u32_at(bytes, 8), at),
            SETSTRETCHBLTMODE => self.stretch.set(u32_at(bytes, 8), at),
            SETCOLORADJUSTMENT => self.adjustment = Some(at),
            SETICMMODE => match u32_at(bytes, 8) {
                Some(ICM_ON) => self.matching = Some(at),
                Some(ICM_OFF) => self.matching = None,
                _ => {}
            },
            BEGINPATH => self.in_path = true,
            ENDPATH | ABORTPATH => self.in_path = false,
            SETMETARGN => self.meta_clip = self.clip.take().or(self.meta_clip),
            // Moving no clip does nothing.
            OFFSETCLIPRGN if self.clip.is_none() => {}
            OFFSETCLIPRGN | EXCLUDECLIPRECT | INTERSECTCLIPRECT => self.clip = Some(at),
            SELECTCLIPPATH => self.select_clip(u32_at(bytes, 8), false, at),
            EXTSELECTCLIPRGN => self.select_clip(u32_at(bytes, 12), u32_at(bytes, 8) == Some(0), at),
            _ => {}
        }
    }

    /// A region joined to the clip or put in its place; an empty one in its place takes the clip away.
    fn select_clip(&mut self, mode: Option<u32>, empty: bool, at: At) {
        self.clip = if mode == Some(RGN_COPY) && empty { None } else { Some(at) };
    }

    /// The metric modes have extents of their own, which stay when another mode follows.
    fn set_mode(&mut self, mode: Option<u32>, at: At) {
        let mode = mode.filter(|mode| (MM_TEXT..=MM_ANISOTROPIC).contains(mode));
        self.mode.set(mode, at);
        if mode.is_some_and(is_metric) {
            self.window_extent = Setting::first(None);
            self.viewport_extent = Setting::first(None);
        }
    }

    fn mapping(&self) -> Vec<(At, String)> {
        let mut found = Vec::new();
        let mut add = |by: Option<At>, words: String| found.extend(by.map(|at| (at, words)));
        if self.world.value != IDENTITY {
            let [a, b, c, d, x, y] = self.world.value;
            add(self.world.by, format!("a world transform {a}, {b}, {c}, {d}, {x}, {y}"));
        }
        let (window, viewport, mode) = (self.window_extent, self.viewport_extent, mode_name(self.mode.value));
        let neither_given = window.by.is_none() && viewport.by.is_none();
        match (self.mode.value, window.value.zip(viewport.value)) {
            (MM_TEXT, None) => {}
            (MM_ISOTROPIC | MM_ANISOTROPIC, Some(_)) if neither_given => {
                add(self.mode.by, format!("mapping mode {mode}"))
            }
            (_, None) => add(self.mode.by, format!("mapping mode {mode}")),
            (_, Some((one, other))) if one == other => {}
            (_, Some(([w, h], [v, u]))) => {
                for by in [window.by, viewport.by] {
                    add(by, format!("a window of {w} by {h} on a viewport of {v} by {u} (mapping mode {mode})"));
                }
            }
        }
        if self.window_origin.value != self.viewport_origin.value {
            let ([x, y], [v, u]) = (self.window_origin.value, self.viewport_origin.value);
            for by in [self.window_origin.by, self.viewport_origin.by] {
                add(by, format!("the window's origin {x}, {y} on the viewport's origin {v}, {u}"));
            }
        }
        if self.layout.value != 0 {
            let mirrored = if self.layout.value & 1 == 1 { "a mirrored layout" } else { "a layout" };
            add(self.layout.by, format!("{mirrored} (0x{:X})", self.layout.value));
        }
        found
    }
}

/// The modes whose units are lengths on the device.
fn is_metric(mode: u32) -> bool {
    (MM_TEXT + 1..MM_ISOTROPIC).contains(&mode)
}

fn mode_name(mode: u32) -> String {
    let names = [
        "MM_TEXT",
        "MM_LOMETRIC",
        "MM_HIMETRIC",
        "MM_LOENGLISH",
        "MM_HIENGLISH",
        "MM_TWIPS",
        "MM_ISOTROPIC",
        "MM_ANISOTROPIC",
    ];
    match (mode as usize).checked_sub(1).and_then(|at| names.get(at)) {
        Some(name) => name.to_string(),
        None => words::count(mode.into()),
    }
}

/// An extent times the record's two fractions. A fraction by 0 leaves it.
fn scaled([width, height]: [i32; 2], bytes: &[u8]) -> Option<[i32; 2]> {
    let by = |value: i32, at: usize| {
        let product = i64::from(value) * i64::from(i32_at(bytes, at)?);
        let quotient = product.checked_div(i64::from(i32_at(bytes, at + 4)?)).unwrap_or(value.into());
        Some(quotient.clamp(i32::MIN.into(), i32::MAX.into()) as i32)
    };
    Some([by(width, 8)?, by(height, 16)?])
}

fn transform(bytes: &[u8]) -> Option<Transform> {
    let mut read = [0.0; 6];
    for (place, value) in read.iter_mut().enumerate() {
        *value = f32_at(bytes, 8 + 4 * place)?;
    }
    Some(read)
}

/// The world transform behind EMR_MODIFYWORLDTRANSFORM: set back, multiplied from one side, or set. Other modes do nothing.
fn modified(world: Transform, bytes: &[u8]) -> Option<Transform> {
    let given = transform(bytes)?;
    Some(match u32_at(bytes, 32)? {
        1 => IDENTITY,
        2 => product(given, world),
        3 => product(world, given),
        4 => given,
        _ => return None,
    })
}

/// First `one`, then `other`.
fn product(one: Transform, other: Transform) -> Transform {
    let [a, b, c, d, x, y] = one;
    let [e, f, g, h, v, w] = other;
    [a * e + b * g, a * f + b * h, c * e + d * g, c * f + d * h, x * e + y * g + v, x * f + y * h + w]
}
