//! The calls of `shim.h` as they are.

use std::ffi::{c_char, c_int};

/// PNG_SHIM_WORDS.
pub const WORDS: usize = 256;

/// A struct of C that is only pointed to.
#[repr(C)]
pub struct Reader {
    hidden: [u8; 0],
}

/// Likewise.
#[repr(C)]
pub struct Writer {
    hidden: [u8; 0],
}

#[repr(C)]
#[derive(Clone, Copy, Debug, Default)]
pub struct Header {
    pub width: u32,
    pub height: u32,
    pub bits: u32,
    pub passes: u32,
    pub grey: u32,
}

#[repr(C)]
pub struct Chunk {
    pub name: [u8; 4],
    pub behind: u32,
    pub data: *const u8,
    pub length: usize,
}

impl Default for Chunk {
    fn default() -> Chunk {
        Chunk { name: [0; 4], behind: 0, data: std::ptr::null(), length: 0 }
    }
}

extern "C" {
    pub fn png_shim_open(bytes: *const u8, length: usize, header: *mut Header, words: *mut c_char) -> *mut Reader;
    pub fn png_shim_read_rows(
        reader: *mut Reader,
        pixels: *mut u8,
        length: usize,
        rows: u32,
        words: *mut c_char,
    ) -> c_int;
    pub fn png_shim_read_end(reader: *mut Reader, pixels: *mut u8, length: usize, words: *mut c_char) -> c_int;
    pub fn png_shim_chunk(reader: *const Reader, number: usize, chunk: *mut Chunk) -> c_int;
    pub fn png_shim_close(reader: *mut Reader);

    pub fn png_shim_create(width: u32, height: u32, words: *mut c_char) -> *mut Writer;
    pub fn png_shim_write_chunk(
        writer: *mut Writer,
        name: *const u8,
        data: *const u8,
        length: usize,
        words: *mut c_char,
    ) -> c_int;
    pub fn png_shim_write_rows(writer: *mut Writer, pixels: *const u8, rows: u32, words: *mut c_char) -> c_int;
    pub fn png_shim_write_end(writer: *mut Writer, words: *mut c_char) -> c_int;
    pub fn png_shim_written(writer: *const Writer, length: *mut usize) -> *const u8;
    pub fn png_shim_destroy(writer: *mut Writer);

    pub fn png_shim_crc(sum: u32, bytes: *const u8, length: usize) -> u32;
}
