//! The parts of the `lacrumont` tool, by subject. They are a library so that the tests reach them.
//!
//! The modules stand in layers: each uses only those of the groups above its own.

#![forbid(unsafe_code)]

pub mod bytes;
pub mod crc;
pub mod library;
pub mod record_types;
pub mod words;

pub mod emf;
pub mod emf_header;
pub mod facts;
pub mod file_kinds;
pub mod files;
pub mod json;
pub mod progress;
pub mod reach;
pub mod sheet;

pub mod bmp;
pub mod device;
pub mod journal;
pub mod lock;
pub mod pending;
pub mod png;
pub mod reasons;

pub mod sheet_files;
pub mod survey;

pub mod commands;
