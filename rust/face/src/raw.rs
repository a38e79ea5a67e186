//! The calls themselves, as include/lacrumont.h declares them, for those who lend memory by hand.

extern "C" {
    pub fn lacrumont_play(
        surface: *mut u32,
        surface_len: usize,
        width: u32,
        height: u32,
        journal: *mut u8,
        journal_len: usize,
        used: *mut u64,
        record: *const u8,
        record_len: usize,
        left: i32,
        top: i32,
        right: i32,
        bottom: i32,
        brush: u32,
        pixels: *mut u32,
    ) -> u32;

    pub fn lacrumont_undo(
        surface: *mut u32,
        surface_len: usize,
        width: u32,
        height: u32,
        journal: *const u8,
        journal_len: usize,
        used: *mut u64,
        pixels: *mut u32,
    ) -> u32;

    pub fn lacrumont_run(
        surface: *mut u32,
        surface_len: usize,
        width: u32,
        height: u32,
        journal: *mut u8,
        journal_len: usize,
        list: *const u8,
        list_len: usize,
        answers: *mut u32,
        answers_len: usize,
        used: *mut u64,
        calls: *mut u32,
    ) -> u32;

    pub fn lacrumont_read(record: *const u8, record_len: usize, mask: u32, out: *mut u64) -> u32;

    pub fn lacrumont_palette(record: *const u8, record_len: usize, mask: u32, out: *mut u32);
}
