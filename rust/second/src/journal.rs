//! The journal's records, and the refusals 1 and 2 of what is lent.

use crate::fields::unsigned;

/// "Records of 12 bytes, no header: three 32-bit numbers."
pub const RECORD: usize = 12;

/// "over 20,000,000 records"
pub const MOST_RECORDS: u64 = 20_000_000;

/// "Closing record: 0xFFFFFFFF, number of pixel records, record type."
pub const CLOSING: i64 = 0xFFFF_FFFF;

/// 1: "sheet sides not 1..4,096, or pixels lent are not width·height"
pub fn sheet_passes(lent: usize, width: u32, height: u32) -> bool {
    let lawful = 1..=4_096;
    lawful.contains(&width) && lawful.contains(&height) && lent as u128 == width as u128 * height as u128
}

/// 2: "journal not a multiple of 12 bytes, over 20,000,000 records, or count
/// in use above its records"
pub fn journal_passes(bytes: usize, used: u64) -> bool {
    bytes % RECORD == 0
        && bytes as u128 <= MOST_RECORDS as u128 * RECORD as u128
        && used as u128 * RECORD as u128 <= bytes as u128
}

/// The three numbers of record `k`.
pub fn entry(journal: &[u8], k: usize) -> (i64, i64, i64) {
    let at = k * RECORD;
    (unsigned(journal, at), unsigned(journal, at + 4), unsigned(journal, at + 8))
}

/// Writes record `k`.
pub fn set_entry(journal: &mut [u8], k: usize, numbers: (u32, u32, u32)) {
    let at = k * RECORD;
    for (j, n) in [numbers.0, numbers.1, numbers.2].into_iter().enumerate() {
        journal[at + 4 * j..at + 4 * j + 4].copy_from_slice(&n.to_le_bytes());
    }
}
