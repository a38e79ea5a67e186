//! A second player of EMF bitmap records, written from the papers and wingdi.h's MAKEROP4 alone.
//!
//! It is slow and plain: one pixel at a time, wide integers, no tables.
//! Words in quotation marks are document 01's, unless another is named;
//! A1 to A41, A49 and A50 are the entries of the open points.
//! The layout of lists is the C header's.
//!
//! The modules stand in layers: each uses only those of the groups above its own.

pub mod answer;
pub mod arithmetic;
pub mod colour;
pub mod fields;
pub mod region;

pub mod blend;
pub mod dib;
pub mod input;
pub mod journal;
pub mod raster;

pub mod record;
pub mod sample;
pub mod undo;

pub mod refusals;

pub mod play;
pub mod reading;

pub mod pile;
pub mod script;

pub mod list;

pub use answer::Answer;
pub use dib::Part;
pub use list::{run, Ran};
pub use pile::Pile;
pub use play::play;
pub use reading::{reading, Reading};
pub use record::Sound;
pub use refusals::{check, status};
pub use region::Clip;
pub use undo::undo;
