//! Makes EMF bitmap records: EMR_ALPHABLEND, EMR_MASKBLT and EMR_STRETCHDIBITS with their DIBs. Written from documents 000,
//! 001, 003 and 004 and document 01's byte places; it judges nothing and depends on no player.
//!
//! Lowest first: `bytes` stores numbers, `places` says where a field stands, `dib` makes a picture's two parts, `fixed`
//! writes a fixed part over any bytes, `operation` packs its operation field, `record` puts a whole record together.
//! `script` writes scripts around records, `list` lists of calls.

pub mod bytes;
pub mod dib;
pub mod fixed;
pub mod list;
pub mod operation;
pub mod places;
pub mod record;
pub mod script;

pub use dib::{Header, Picture};
pub use fixed::{Fixed, Parts};
pub use list::List;
pub use places::{ALPHABLEND, MASKBLT, STRETCHDIBITS};
pub use record::Record;
pub use script::Script;
