//! Makers of random records: sound ones of every type, depth and shape, damaged ones, and the longest.
//!
//! All bytes that document 01 does not name are random, so that a player that looks at them is found out. Lowest first:
//! `pictures` and `geometry`, `layout`, `sound`, `damage`; `largest` stands by itself.

mod damage;
mod geometry;
pub mod largest;
mod layout;
mod pictures;
mod sound;

pub use damage::any;
pub use geometry::Aim;
pub use sound::{sound, Wish};
