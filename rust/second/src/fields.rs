//! Numbers out of bytes.

/// "All numbers are little-endian": the number of `length` bytes at `place`.
pub fn number(bytes: &[u8], place: usize, length: usize) -> i64 {
    let mut sum: i64 = 0;
    let mut weight: i64 = 1;
    for k in 0..length {
        sum += bytes[place + k] as i64 * weight;
        weight *= 256;
    }
    sum
}

/// An unsigned 32-bit field.
pub fn unsigned(bytes: &[u8], place: usize) -> i64 {
    number(bytes, place, 4)
}

/// "signed fields in two's complement"
pub fn signed(bytes: &[u8], place: usize) -> i64 {
    let n = number(bytes, place, 4);
    if n >= 2_147_483_648 {
        n - 4_294_967_296
    } else {
        n
    }
}

/// A 32-bit float, from its bits.
pub fn float(bytes: &[u8], place: usize) -> f32 {
    f32::from_bits(unsigned(bytes, place) as u32)
}

/// "XformSrc is read as six 32-bit floats and is the identity when they
/// compare equal to 1, 0, 0, 1, 0, 0; negative zero passes, a NaN does not."
pub fn is_identity(bytes: &[u8], place: usize) -> bool {
    float(bytes, place) == 1.0
        && float(bytes, place + 4) == 0.0
        && float(bytes, place + 8) == 0.0
        && float(bytes, place + 12) == 1.0
        && float(bytes, place + 16) == 0.0
        && float(bytes, place + 20) == 0.0
}
