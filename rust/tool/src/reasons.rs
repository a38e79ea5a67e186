//! Why a record is refused, by field and value: of a status, the first clause of document 01's sentence that applies.
//!
//! A status speaks of a record that passes the statuses judged before it, in the order 3 to 6, 21, 7 to 13. Of any other
//! record it may say anything.

mod geometry;
mod operation;
mod pictures;

use face::constants::{
    BAD_BITS, BAD_GEOMETRY, BAD_HEADER, BAD_LENGTH, BAD_MASK, BAD_MASKS, BAD_OPERATION, BAD_PART, BAD_SIZE,
    BAD_TRANSFORM, BAD_TYPE, MOST_RECORD, SHARED_PARTS,
};

use crate::facts::{names, Facts, Part, Role};
use crate::{record_types, words};

/// Bytes of Type and Size.
const LEAST_RECORD: usize = 8;
const IDENTITY: [f32; 6] = [1.0, 0.0, 0.0, 1.0, 0.0, 0.0];

/// A refused record's status and the reason for it.
pub fn refused(record: &[u8], status: u32) -> String {
    match reason(record, status) {
        Some(reason) => format!("status {status}: {reason}"),
        None => words::numbered(status),
    }
}

/// What in this record calls for the status; None where nothing does, or where the status is none of a record's own.
pub fn reason(record: &[u8], status: u32) -> Option<String> {
    let facts = Facts::read(record);
    match status {
        BAD_LENGTH => length(&facts),
        BAD_TYPE => kind(&facts),
        BAD_SIZE => size(&facts),
        BAD_PART => parts(&facts),
        SHARED_PARTS => shared_parts(&facts),
        BAD_TRANSFORM => transform(&facts).or_else(|| usage(&facts)),
        BAD_HEADER => facts.pictures().find_map(pictures::header),
        BAD_MASKS => facts.pictures().find_map(pictures::masks),
        BAD_BITS => facts.pictures().find_map(pictures::bits),
        BAD_OPERATION => operation::reason(&facts),
        BAD_GEOMETRY => geometry::reason(&facts),
        BAD_MASK => mask(&facts),
        _ => None,
    }
}

/// 3: "record under 8 bytes or over 16,777,216".
fn length(facts: &Facts) -> Option<String> {
    let length = facts.length;
    if length < LEAST_RECORD {
        let bytes = words::things(length as u64, "byte");
        return Some(format!("the record has {bytes}, fewer than the {LEAST_RECORD} of Type and Size"));
    }
    (length > MOST_RECORD).then(|| format!("the record has {length} bytes, above {MOST_RECORD}"))
}

/// 4: "type not listed".
fn kind(facts: &Facts) -> Option<String> {
    let kind = facts.kind?;
    let name = record_types::name(kind);
    record_types::played(kind).is_none().then(|| format!("Type 0x{kind:02X} ({name}) is not played"))
}

/// 5: "Size not the lent length, not a multiple of 4, or below the fixed part".
fn size(facts: &Facts) -> Option<String> {
    let (size, fixed) = (facts.size?, facts.fixed_end()?);
    let length = facts.length;
    if size as usize != length {
        return Some(format!("Size {size} is not the record's length, {length}"));
    }
    if size % 4 != 0 {
        return Some(format!("Size {size} is not a multiple of 4"));
    }
    let name = record_types::name(facts.kind?);
    (length < fixed).then(|| format!("Size {size} is below {fixed}, the fixed part of {name}"))
}

/// The names of a part's offset and size with their values, and the part.
type NamedPart = (String, String, Part);

/// The parts of the present pictures.
fn named_parts(facts: &Facts) -> Vec<NamedPart> {
    let named = |name: &str, role: Role, part: Part| {
        let name = format!("{name}{}", role.ending());
        (format!("off{name} {}", part.offset), format!("cb{name} {}", part.size), part)
    };
    let both = facts.pictures().map(|picture| {
        [named("Bmi", picture.role, picture.header_part), named("Bits", picture.role, picture.bits_part)]
    });
    both.flatten().collect()
}

/// 6: "a present picture's part begins before the fixed part's end or ends past Size".
fn parts(facts: &Facts) -> Option<String> {
    let (fixed, size) = (facts.fixed_end()? as u64, facts.size?);
    named_parts(facts).into_iter().find_map(|(offset, bytes, part)| {
        if u64::from(part.offset) < fixed {
            return Some(format!("{offset} lies before the end of the fixed part, {fixed}"));
        }
        let end = part.end();
        (end > size.into()).then(|| format!("{offset} and {bytes} end at {end}, past Size {size}"))
    })
}

/// 21: "Any two parts of the present pictures that have a byte in common".
fn shared_parts(facts: &Facts) -> Option<String> {
    let parts = named_parts(facts);
    let pairs = parts.iter().enumerate().flat_map(|(before, part)| parts[..before].iter().map(move |one| (one, part)));
    pairs.into_iter().find_map(|(one, other)| {
        // An empty part has its start for its end, so that nothing lies between.
        let start = one.2.offset.max(other.2.offset);
        let end = one.2.end().min(other.2.end());
        let last = end.checked_sub(1).filter(|last| u64::from(start) <= *last)?;
        let shared = if last == start.into() { format!("byte {start}") } else { format!("bytes {start} to {last}") };
        Some(format!("{} with {} and {} with {} share {shared}", one.0, one.1, other.0, other.1))
    })
}

/// 7: "XformSrc not the identity", judged without a source too. Comparing takes -0 for 0, and NaN for nothing.
fn transform(facts: &Facts) -> Option<String> {
    let numbers = facts.transform.filter(|numbers| *numbers != IDENTITY)?;
    let [m11, m12, m21, m22, _, _] = numbers;
    let does = if numbers.iter().any(|number| !number.is_finite()) {
        "is no transform"
    } else if [m11, m12, m21, m22] == IDENTITY[..4] {
        "moves the source"
    } else if [m12, m21] == [0.0, 0.0] {
        "scales the source"
    } else {
        "turns or slants the source"
    };
    let numbers = numbers.map(words::float).join(", ");
    Some(format!("XformSrc {numbers} {does}; only 1, 0, 0, 1, 0, 0 (as it is) is played"))
}

/// 7: "a present picture's usage not 0".
fn usage(facts: &Facts) -> Option<String> {
    let picture = facts.pictures().find(|picture| picture.usage != 0)?;
    let means = match picture.usage {
        1 => ": its colours are places in a palette outside the record",
        2 => ": it has no colour table, only places in a palette outside the record",
        _ => "",
    };
    let (role, usage) = (picture.role.ending(), names::with(picture.usage, names::usage(picture.usage)));
    Some(format!("Usage{role} {usage} is not played{means}; only 0 (DIB_RGB_COLORS) is"))
}

/// 13: "MASKBLT mask absent or not 1 bit".
fn mask(facts: &Facts) -> Option<String> {
    if !facts.has_mask() {
        return None;
    }
    let Some(mask) = &facts.mask else {
        return Some(format!("the record has no mask: {}", absent(Role::Mask)));
    };
    let bits = mask.header?.bits?;
    (bits != 1).then(|| format!("the mask's biBitCount {bits} is not 1"))
}

/// How a record says that it does not have this picture.
fn absent(role: Role) -> String {
    let role = role.ending();
    format!("offBmi{role}, cbBmi{role}, offBits{role} and cbBits{role} are 0")
}
