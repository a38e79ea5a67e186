//! Little-endian numbers in bytes. A place past the end is passed over, or read as 0: a record may be cut.

pub fn set(bytes: &mut [u8], at: usize, n: u32) {
    if let Some(place) = bytes.get_mut(at..at + 4) {
        place.copy_from_slice(&n.to_le_bytes());
    }
}

/// A signed field, in two's complement.
pub fn set_signed(bytes: &mut [u8], at: usize, n: i64) {
    set(bytes, at, n as u32);
}

pub fn set_half(bytes: &mut [u8], at: usize, n: u16) {
    if let Some(place) = bytes.get_mut(at..at + 2) {
        place.copy_from_slice(&n.to_le_bytes());
    }
}

pub fn get(bytes: &[u8], at: usize) -> u32 {
    match bytes.get(at..at + 4) {
        Some(b) => u32::from_le_bytes([b[0], b[1], b[2], b[3]]),
        None => 0,
    }
}

pub fn get_signed(bytes: &[u8], at: usize) -> i64 {
    get(bytes, at) as i32 as i64
}

pub fn get_half(bytes: &[u8], at: usize) -> u16 {
    get(bytes, at) as u16
}

/// Numbers one behind the other.
pub fn words(numbers: &[u32]) -> Vec<u8> {
    numbers.iter().flat_map(|n| n.to_le_bytes()).collect()
}

/// A copy with one number changed.
pub fn with(bytes: &[u8], at: usize, n: u32) -> Vec<u8> {
    let mut copy = bytes.to_vec();
    set(&mut copy, at, n);
    copy
}

/// A copy with one byte changed.
pub fn with_byte(bytes: &[u8], at: usize, byte: u8) -> Vec<u8> {
    let mut copy = bytes.to_vec();
    copy[at] = byte;
    copy
}
