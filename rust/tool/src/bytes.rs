//! Numbers out of bytes. A place past the end gives None, so that no file can make the tool stop.

/// The bytes from `at` on, `N` of them.
fn part<const N: usize>(bytes: &[u8], at: usize) -> Option<[u8; N]> {
    bytes.get(at..at.checked_add(N)?)?.try_into().ok()
}

/// A little-endian 16-bit number, as BMP and EMF have them.
pub fn u16_at(bytes: &[u8], at: usize) -> Option<u16> {
    part(bytes, at).map(u16::from_le_bytes)
}

/// A little-endian 32-bit number.
pub fn u32_at(bytes: &[u8], at: usize) -> Option<u32> {
    part(bytes, at).map(u32::from_le_bytes)
}

/// A little-endian 64-bit number.
pub fn u64_at(bytes: &[u8], at: usize) -> Option<u64> {
    part(bytes, at).map(u64::from_le_bytes)
}

/// A little-endian signed 32-bit number.
pub fn i32_at(bytes: &[u8], at: usize) -> Option<i32> {
    part(bytes, at).map(i32::from_le_bytes)
}

/// A little-endian 32-bit float.
pub fn f32_at(bytes: &[u8], at: usize) -> Option<f32> {
    part(bytes, at).map(f32::from_le_bytes)
}

/// A big-endian 32-bit number, as PNG and zlib have them.
pub fn u32_big_at(bytes: &[u8], at: usize) -> Option<u32> {
    part(bytes, at).map(u32::from_be_bytes)
}

#[cfg(test)]
mod tests {
    use super::*;

    #[test]
    fn numbers_and_their_ends() {
        let bytes = [1, 2, 3, 0xFF, 5];
        assert_eq!(u16_at(&bytes, 1), Some(0x0302));
        assert_eq!(u32_at(&bytes, 0), Some(0xFF03_0201));
        assert_eq!(i32_at(&bytes, 0), Some(-0x00FC_FDFF));
        assert_eq!(u32_big_at(&bytes, 1), Some(0x0203_FF05));
        assert_eq!(u32_at(&bytes, 2), None);
        assert_eq!(u64_at(&bytes, 0), None);
        assert_eq!(u16_at(&bytes, usize::MAX), None);
    }
}
