//! CRC-32 as PNG has it, by zlib. The journal's checksums are the same.

/// The checksum of these bytes.
pub fn of(bytes: &[u8]) -> u32 {
    png_shim::crc(bytes)
}

/// The checksum of a surface: of its pixels' bytes, lowest first, row by row.
pub fn of_pixels(pixels: &[u32]) -> u32 {
    png_shim::crc_of_pixels(pixels)
}

#[cfg(test)]
mod tests {
    use super::*;

    #[test]
    fn known_sums() {
        assert_eq!(of(b""), 0);
        assert_eq!(of(b"123456789"), 0xCBF4_3926);
        assert_eq!(of(b"IEND"), 0xAE42_6082);
    }

    #[test]
    fn pixels_are_their_bytes() {
        assert_eq!(of_pixels(&[0x3433_3231, 0x3837_3635]), of(b"12345678"));
        assert_eq!(of_pixels(&[]), 0);
    }
}
