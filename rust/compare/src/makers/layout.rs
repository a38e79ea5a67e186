//! Where a record's parts stand: in any order, with gaps or without, no two with a byte in common.

use super::pictures::Picture;
use crate::random::Random;
use records::Parts;

/// A record's bytes, all random but for its pictures' headers, and where the parts stand.
pub struct Laid {
    pub bytes: Vec<u8>,
    pub source: Option<Parts>,
    pub mask: Option<Parts>,
}

/// Lays the parts out behind the fixed part.
pub fn laid_out(r: &mut Random, fixed: usize, source: Option<Picture>, mask: Option<Picture>) -> Laid {
    let pictures = [source, mask];
    let mut parts = [Parts::default(); 2];
    let mut end = fixed;
    for (k, is_bits, length) in order(r, pictures) {
        end += gap(r);
        if is_bits {
            (parts[k].bits_at, parts[k].bits_len) = (end, length);
        } else {
            (parts[k].header_at, parts[k].header_len) = (end, length);
        }
        end += length;
    }
    end += gap(r);
    let mut bytes = r.bytes(end.div_ceil(4) * 4);
    for p in parts {
        r.fill(&mut bytes[p.bits_at..p.bits_at + p.bits_len]);
    }
    for (picture, p) in pictures.iter().zip(parts) {
        if let Some(picture) = picture {
            picture.header.write(&mut bytes, p.header_at);
        }
    }
    Laid { bytes, source: source.map(|_| parts[0]), mask: mask.map(|_| parts[1]) }
}

/// The parts one behind the other: picture, is it the bits part, length.
fn order(r: &mut Random, pictures: [Option<Picture>; 2]) -> Vec<(usize, bool, usize)> {
    let mut order = Vec::new();
    for (k, picture) in pictures.iter().enumerate() {
        if let Some(picture) = picture {
            order.extend([(k, false, picture.header_len), (k, true, picture.bits_len)]);
        }
    }
    if r.percent(50) {
        r.shuffle(&mut order);
    }
    order
}

fn gap(r: &mut Random) -> usize {
    match r.below(10) {
        0..=5 => 0,
        6..=8 => r.below(9) as usize,
        _ => r.below(41) as usize,
    }
}
