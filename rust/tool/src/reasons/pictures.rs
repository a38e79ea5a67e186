//! Statuses 8, 9 and 10: a picture's header, channel masks and bits.

use crate::facts::{names, Header, Masks, Picture, Role, BI_BITFIELDS, BI_RGB};

const INFO: u32 = 40;
const V4: u32 = 108;
/// Behind a 40-byte header under BI_BITFIELDS.
const THREE_MASKS: u32 = 12;
const TABLE_ENTRY: u32 = 4;
const MOST_SIDE: u32 = 16_384;
const MOST_COLOURS: u64 = 256;
/// Ones of a channel mask.
const MOST_ONES: u32 = 8;

/// A field of the picture's header: the source's by its name alone.
fn field(picture: &Picture, name: &str) -> String {
    match picture.role {
        Role::Source => name.to_string(),
        Role::Mask => format!("the mask's {name}"),
    }
}

/// 8: "header part too short for header, masks and table; size, planes (1), bits or compression not listed; width, or
/// height without sign, not 1..16,384; colours used over 2^bits or over 256". What masks and table need is only known
/// where the fields that say so are listed; where they are not, those fields are the reason.
pub fn header(picture: &Picture) -> Option<String> {
    let name = format!("cbBmi{} {}", picture.role.ending(), picture.header_part.size);
    let Some(header) = picture.header else {
        return Some(format!("{name} is too short for a header"));
    };
    let part = picture.header_part.size;
    if listed_size(header.size) && part < header.size {
        return Some(format!("{name} is below biSize {}", header.size));
    }
    if let Some((words, needed)) = needed(&header).filter(|(_, needed)| part < *needed) {
        return Some(format!("{name} is below {needed}: {words}"));
    }
    unlisted(picture, &header).or_else(|| sides(picture, &header)).or_else(|| used(picture, &header))
}

/// What the header part holds in words, and its bytes; None where an unlisted field leaves it open.
fn needed(header: &Header) -> Option<(String, u32)> {
    let (bits, compression, used) = (header.bits?, header.compression?, header.used?);
    if !listed_size(header.size) || !listed_bits(bits) || !listed_compression(compression, bits) {
        return None;
    }
    if u64::from(used) > most_used(bits) {
        return None;
    }
    let masks = if header.size == INFO && compression == BI_BITFIELDS { THREE_MASKS } else { 0 };
    let entries = if bits <= 8 && used == 0 { 1 << bits } else { used };
    let table = TABLE_ENTRY * entries;
    let masked = if masks > 0 { format!(", three masks {masks} bytes") } else { String::new() };
    Some((format!("biSize {}{masked}, colour table {table} bytes", header.size), header.size + masks + table))
}

fn listed_size(size: u32) -> bool {
    [INFO, V4].contains(&size)
}

fn listed_bits(bits: u16) -> bool {
    [1, 4, 8, 16, 24, 32].contains(&bits)
}

/// "Compression 0 (BI_RGB) or 3 (BI_BITFIELDS, 16 and 32 bits only)."
fn listed_compression(compression: u32, bits: u16) -> bool {
    compression == BI_RGB || compression == BI_BITFIELDS && [16, 32].contains(&bits)
}

fn most_used(bits: u16) -> u64 {
    MOST_COLOURS.min(1 << bits.min(32))
}

/// "size, planes (1), bits or compression not listed".
fn unlisted(picture: &Picture, header: &Header) -> Option<String> {
    if !listed_size(header.size) {
        let size = names::with(header.size, names::header(header.size));
        return Some(format!("{} {size} is not played; 40 and 108 are", field(picture, "biSize")));
    }
    let (planes, bits, compression) = (header.planes?, header.bits?, header.compression?);
    if planes != 1 {
        return Some(format!("{} {planes} is not 1", field(picture, "biPlanes")));
    }
    // JPEG and PNG bring their own depth and leave this field 0; their name says more.
    let packed = bits == 0 && compression != BI_RGB;
    if !listed_bits(bits) && !packed {
        let name = field(picture, "biBitCount");
        return Some(format!("{name} {bits} is not played; 1, 4, 8, 16, 24 and 32 are"));
    }
    if listed_compression(compression, bits) {
        return None;
    }
    let name = field(picture, "biCompression");
    let short = names::compression(compression).map(|name| name.trim_start_matches("BI_"));
    let named = names::with(compression, short);
    if compression == BI_BITFIELDS {
        return Some(format!("{name} {named} is played with 16 and 32 bits only; biBitCount is {bits}"));
    }
    Some(format!("{name} {named} is not played"))
}

/// "width, or height without sign, not 1..16,384".
fn sides(picture: &Picture, header: &Header) -> Option<String> {
    let (width, height) = (header.width?, header.height?);
    let (name, words) = if width < 1 {
        ("biWidth", format!("{width} is below 1"))
    } else if width.unsigned_abs() > MOST_SIDE {
        ("biWidth", format!("{width} is above {MOST_SIDE}"))
    } else if height == 0 {
        ("biHeight", "0 leaves no rows".to_string())
    } else if height.unsigned_abs() > MOST_SIDE {
        let (beyond, sign) = if height < 0 { ("below", "-") } else { ("above", "") };
        ("biHeight", format!("{height} is {beyond} {sign}{MOST_SIDE}"))
    } else {
        return None;
    };
    Some(format!("{} {words}", field(picture, name)))
}

/// "colours used over 2^bits or over 256".
fn used(picture: &Picture, header: &Header) -> Option<String> {
    let (used, bits) = (header.used?, header.bits?);
    let most = most_used(bits);
    let name = field(picture, "biClrUsed");
    (u64::from(used) > most).then(|| format!("{name} {used} is above {most}, the most with biBitCount {bits}"))
}

/// A channel's name and mask.
type Channel = (&'static str, u32);

/// 9: "under BI_BITFIELDS, a mask breaks its rules".
pub fn masks(picture: &Picture) -> Option<String> {
    let header = picture.header?;
    let bits = header.bits?;
    let Masks { red, green, blue, alpha } = header.masks?;
    let all = [("red", red), ("green", green), ("blue", blue), ("alpha", alpha.unwrap_or(0))];
    let ones = all.into_iter().find_map(|channel| Some((channel, broken_ones(channel)?)));
    let (channel, words) = ones.or_else(|| overlap(&all)).or_else(|| outside(&all, bits))?;
    Some(format!("{} {words}", field(picture, &mask_words(channel))))
}

fn mask_words((name, mask): Channel) -> String {
    format!("{name} mask 0x{mask:08X}")
}

/// "no two masks overlap".
fn overlap(all: &[Channel]) -> Option<(Channel, String)> {
    all.iter().enumerate().find_map(|(place, channel)| {
        let before = all[..place].iter().find(|before| before.1 & channel.1 != 0)?;
        Some((*channel, format!("overlaps the {}", mask_words(*before))))
    })
}

/// "all lie in the pixel's bits".
fn outside(all: &[Channel], bits: u16) -> Option<(Channel, String)> {
    let channel = all.iter().find(|(_, mask)| u64::from(*mask) >> bits.min(32) != 0)?;
    Some((*channel, format!("leaves the pixel's {bits} bits")))
}

/// "A mask's ones are contiguous; its width is the number of its ones, 1 to 8." Only the alpha mask may be 0.
fn broken_ones((name, mask): Channel) -> Option<String> {
    if mask == 0 {
        return (name != "alpha").then(|| "has no ones".to_string());
    }
    let ones = mask.count_ones();
    let span = u32::BITS - mask.leading_zeros() - mask.trailing_zeros();
    if ones != span {
        return Some("has ones that are not contiguous".to_string());
    }
    (ones > MOST_ONES).then(|| format!("has {ones} ones, above {MOST_ONES}"))
}

/// 10: "bits part under row length · rows".
pub fn bits(picture: &Picture) -> Option<String> {
    let header = picture.header?;
    let width = u64::try_from(header.width?).ok()?;
    let row = (width * u64::from(header.bits?)).div_ceil(32) * 4;
    let rows = u64::from(header.height?.unsigned_abs());
    // Only sides that 8 refuses can come to more.
    let needed = row.checked_mul(rows)?;
    let bytes = picture.bits_part.size;
    let name = format!("cbBits{}", picture.role.ending());
    (u64::from(bytes) < needed)
        .then(|| format!("{name} {bytes} is below {needed}, row length {row} times height {rows}"))
}
