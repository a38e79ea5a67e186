//! PNG files made by hand.

/// A file of these chunks.
pub fn file(chunks: &[(&[u8; 4], &[u8])]) -> Vec<u8> {
    let mut out = b"\x89PNG\r\n\x1a\n".to_vec();
    for (name, data) in chunks {
        let named = [&name[..], data].concat();
        out.extend((data.len() as u32).to_be_bytes());
        out.extend(&named);
        out.extend(png_shim::crc(&named).to_be_bytes());
    }
    out
}

/// An IHDR chunk's data: grey, 8 bits.
pub fn grey_header(width: u32, height: u32) -> Vec<u8> {
    let mut data = [width.to_be_bytes(), height.to_be_bytes()].concat();
    data.extend([8, 0, 0, 0, 0]);
    data
}

/// zlib's form of 1 + 258 times `matches` zeros, in some 13 bits each 258.
pub fn packed_zeros(matches: u32) -> Vec<u8> {
    // The last block, of fixed codes: a zero, then as often the length code 285 and the distance code 0.
    let mut bits = vec![1, 1, 0, 0, 0, 1, 1, 0, 0, 0, 0];
    for _ in 0..matches {
        bits.extend([1, 1, 0, 0, 0, 1, 0, 1, 0, 0, 0, 0, 0]);
    }
    bits.extend([0; 7]);
    let mut out = vec![0x78, 0x01];
    out.extend(bits.chunks(8).map(|byte| byte.iter().rev().fold(0u8, |sum, bit| sum << 1 | bit)));
    let sum = ((1 + 258 * u64::from(matches)) % 65_521) as u32;
    out.extend((sum << 16 | 1).to_be_bytes());
    out
}
