//! Records of the longest length, one of each type, for a target of 4,096 by 4,096. The last part ends where the record
//! ends.

use super::geometry::FAR;
use crate::random::Random;
use face::constants::{MOST_RECORD, MOST_SIDE};
use records::dib::{INFO, V4};
use records::fixed::IDENTITY;
use records::operation::rop4;
use records::places::{places, SIZE};
use records::{bytes, Fixed, Header, Parts, ALPHABLEND, MASKBLT, STRETCHDIBITS};

const SIDE: i32 = MOST_SIDE as i32;

fn random_bytes(r: &mut Random) -> Vec<u8> {
    (0..MOST_RECORD / 8).flat_map(|_| r.long().to_le_bytes()).collect()
}

/// Writes a header; its bits part ends at `end`.
fn put(bytes: &mut [u8], header: Header, header_at: usize, end: usize) -> Parts {
    header.write(bytes, header_at);
    let bits_len = header.rows_length();
    Parts { header_at, header_len: header.part_length(), bits_at: end - bits_len, bits_len }
}

/// The fixed part with what all three have alike: the target is the largest surface.
fn fixed(kind: u32, bytes: &mut [u8], operation: u32) -> Fixed<'_> {
    let mut fixed = Fixed::new(kind, bytes);
    fixed.bounds([0, 0, SIDE - 1, SIDE - 1]).target([0, 0, SIDE, SIDE]).operation(operation);
    fixed.transform(IDENTITY).usage(0);
    fixed
}

/// 8 bits, stretched by one row and mirrored upside down, with a raster operation of brush, source and target.
pub fn stretch(seed: u64) -> Vec<u8> {
    let mut bytes = random_bytes(&mut Random::of(seed, 0));
    let source = put(&mut bytes, Header::new(INFO, SIDE, SIDE - 1, 8), places(STRETCHDIBITS).fixed, MOST_RECORD);
    fixed(STRETCHDIBITS, &mut bytes, 0x00E2_0746)
        .target([0, SIDE, SIDE, -SIDE])
        .source([0, 0, SIDE, SIDE - 1])
        .source_parts(Some(source));
    bytes
}

/// 32 bits with masks of many widths and an alpha, format 1, doubled in both directions.
pub fn blend(seed: u64) -> Vec<u8> {
    let mut bytes = random_bytes(&mut Random::of(seed, 1));
    let masks = Some([0x7F80_0000, 0x0000_7C00, 0x0000_003F, 0x0007_8000]);
    let header = Header { masks, ..Header::new(V4, 2_048, -2_047, 32) };
    let source = put(&mut bytes, header, places(ALPHABLEND).fixed, MOST_RECORD);
    fixed(ALPHABLEND, &mut bytes, 0x01B5_0000).source([1, 0, 2_047, 2_047]).source_parts(Some(source));
    bytes
}

/// A source of 4 bits and a mask as wide as any, with two raster bytes.
pub fn mask_blit(seed: u64) -> Vec<u8> {
    let mut bytes = random_bytes(&mut Random::of(seed, 2));
    let begin = places(MASKBLT).fixed;
    let mask = put(&mut bytes, Header::new(INFO, 16_384, 3_999, 1), begin, MOST_RECORD);
    let source = put(&mut bytes, Header::new(INFO, SIDE, SIDE, 4), begin + mask.header_len, mask.bits_at);
    fixed(MASKBLT, &mut bytes, rop4(0xCA, 0x5A))
        .source([0; 4])
        .source_parts(Some(source))
        .mask_usage(0)
        .mask_corner([-FAR as i32; 2])
        .mask_parts(Some(mask));
    bytes
}

/// The mask blit with a byte in two parts: the source's bits go on into the mask's, by one more than they need.
pub fn shared(mut mask_blit: Vec<u8>) -> Vec<u8> {
    let length = places(MASKBLT).four + 12;
    let more = bytes::get(&mask_blit, length) + 1;
    bytes::set(&mut mask_blit, length, more);
    mask_blit
}

/// The same record with four bytes more and Size to match: too long.
pub fn too_long(mut record: Vec<u8>) -> Vec<u8> {
    record.extend_from_slice(&[0; 4]);
    let size = record.len() as u32;
    bytes::set(&mut record, SIZE, size);
    record
}
