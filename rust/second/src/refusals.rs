//! The refusals of a record, 3 to 6, 21 and 7 to 13: one function for each
//! number, in this order.

use crate::arithmetic::without_sign;
use crate::dib::{self, Dib};
use crate::fields::unsigned;
use crate::raster::needs_source;
use crate::record::{Fixed, Kind, Named, Operation, Sound};
use std::ops::Range;

/// The first that applies is given.  Document 02, item 5: "document 01's order
/// becomes 1 to 6, 21, 7 onwards".  One number after the other, and each over
/// both pictures (A9).
pub fn check(record: &[u8]) -> Result<Sound, u32> {
    if bad_length(record) {
        return Err(3);
    }
    let kind = match listed_type(record) {
        None => return Err(4),
        Some(kind) => kind,
    };
    if bad_size(record, kind) {
        return Err(5);
    }
    // From here on the whole fixed part is there.
    let fixed = Fixed::read(record, kind);
    let present: Vec<Named> = fixed.source.into_iter().chain(fixed.mask).collect();
    if bad_part(&fixed, &present) {
        return Err(6);
    }
    if shared_parts(&present) {
        return Err(21);
    }
    if bad_transform_or_usage(&fixed, &present) {
        return Err(7);
    }
    if bad_header(record, &present) {
        return Err(8);
    }
    if bad_masks(record, &present) {
        return Err(9);
    }
    if bad_bits(record, &present) {
        return Err(10);
    }
    let source = fixed.source.map(|n| picture(record, &n));
    let mask = fixed.mask.map(|n| picture(record, &n));
    if bad_operation(&fixed, source.as_ref()) {
        return Err(11);
    }
    if bad_geometry(&fixed, source.as_ref(), mask.is_some()) {
        return Err(12);
    }
    if bad_mask(kind, mask.as_ref()) {
        return Err(13);
    }
    Ok(Sound { fixed, source, mask })
}

/// The record's refusal, of those ordered from 3 to 13, or 0.
pub fn status(record: &[u8]) -> u32 {
    match check(record) {
        Err(refusal) => refusal,
        Ok(_) => 0,
    }
}

/// 3: "record under 8 bytes or over 16,777,216"
fn bad_length(record: &[u8]) -> bool {
    record.len() < 8 || record.len() > 16_777_216
}

/// 4: "type not listed".  "Common: Type 0"
fn listed_type(record: &[u8]) -> Option<Kind> {
    Kind::of(unsigned(record, 0))
}

/// 5: "Size not the lent length, not a multiple of 4, or below the fixed
/// part"
fn bad_size(record: &[u8], kind: Kind) -> bool {
    let size = unsigned(record, 4);
    size != record.len() as i64 || size % 4 != 0 || size < kind.fixed_end()
}

/// 6: "a present picture's part begins before the fixed part's end or ends
/// past Size"
fn bad_part(fixed: &Fixed, present: &[Named]) -> bool {
    let bad = |offset: i64, length: i64| offset < fixed.kind.fixed_end() || offset + length > fixed.size;
    present.iter().any(|n| bad(n.header_at, n.header_size) || bad(n.bits_at, n.bits_size))
}

/// 21, document 02, item 5: "Any two parts of the present pictures that have a
/// byte in common are now refused."  Whole parts, also past what is needed, of
/// one picture or of two (A49).
fn shared_parts(present: &[Named]) -> bool {
    let parts: Vec<Range<i64>> = present.iter().flat_map(Named::parts).collect();
    (1..parts.len()).any(|k| parts[..k].iter().any(|before| have_common_byte(before, &parts[k])))
}

/// What two parts have in common goes from the later start to the earlier
/// end; an empty one has no byte.
fn have_common_byte(a: &Range<i64>, b: &Range<i64>) -> bool {
    !a.is_empty() && !b.is_empty() && a.start.max(b.start) < a.end.min(b.end)
}

/// 7: "XformSrc not the identity, or a present picture's usage not 0".
/// XformSrc is judged without a source too (A7).
fn bad_transform_or_usage(fixed: &Fixed, present: &[Named]) -> bool {
    !fixed.identity || present.iter().any(|n| n.usage != 0)
}

/// 8: "header part too short for header, masks and table; ..."
fn bad_header(record: &[u8], present: &[Named]) -> bool {
    present.iter().any(|n| !dib::header_passes(n.header_part(record)))
}

/// 9: "under BI_BITFIELDS, a mask breaks its rules (BI_RGB ignores masks)"
fn bad_masks(record: &[u8], present: &[Named]) -> bool {
    present.iter().any(|n| !dib::masks_pass(n.header_part(record)))
}

/// 10: "bits part under row length · rows"
fn bad_bits(record: &[u8], present: &[Named]) -> bool {
    present.iter().any(|n| n.bits_size < dib::view_length(n.header_part(record)))
}

/// The picture of parts that pass 6, 8, 9 and 10.
fn picture(record: &[u8], n: &Named) -> Dib {
    dib::read(n.header_part(record), n.header_place(), n.bits_at as u64)
}

/// 11: "blend operation not 0; format above 1; format 1 without 32 bits and an
/// alpha (BI_RGB or a non-zero alpha mask); source needed and absent (0x72
/// always; MASKBLT if either byte needs it)"
fn bad_operation(fixed: &Fixed, source: Option<&Dib>) -> bool {
    match (fixed.operation, source) {
        (Operation::Blend { .. }, None) => true,
        (Operation::Blend { code, format, .. }, Some(dib)) => {
            let has_alpha = dib.bits == 32 && (dib.compression == 0 || dib.alpha != 0);
            code != 0 || format > 1 || (format == 1 && !has_alpha)
        }
        (Operation::Masked { foreground, background }, None) => needs_source(foreground) || needs_source(background),
        (Operation::Plain { raster }, None) => needs_source(raster),
        (_, Some(_)) => false,
    }
}

/// 12: the geometry, by the parts of its sentence.
fn bad_geometry(fixed: &Fixed, source: Option<&Dib>, has_mask: bool) -> bool {
    bad_extents(fixed, source.is_some())
        || bad_signs(fixed, source.is_some())
        || far_corner(fixed, source.is_some(), has_mask)
        || source.is_some_and(|dib| outside_picture(fixed, dib))
}

/// "target extent without sign not 1..4,096; present source extent without
/// sign not 1..16,384"
fn bad_extents(fixed: &Fixed, has_source: bool) -> bool {
    let bad = |extent: i64, most: i64| without_sign(extent) < 1 || without_sign(extent) > most;
    bad(fixed.cx_dest, 4_096)
        || bad(fixed.cy_dest, 4_096)
        || (has_source && (bad(fixed.cx_src, 16_384) || bad(fixed.cy_src, 16_384)))
}

/// "negative extent in 0x72 or 0x4E": of target or source (A22).
fn bad_signs(fixed: &Fixed, has_source: bool) -> bool {
    let positive_only = fixed.kind == Kind::AlphaBlend || fixed.kind == Kind::MaskBlt;
    let negative_target = fixed.cx_dest < 0 || fixed.cy_dest < 0;
    let negative_source = fixed.cx_src < 0 || fixed.cy_src < 0;
    positive_only && (negative_target || (has_source && negative_source))
}

/// "the target's corner, or that of a present source or mask, outside
/// ±1,000,000"
fn far_corner(fixed: &Fixed, has_source: bool, has_mask: bool) -> bool {
    let far = |x: i64, y: i64| without_sign(x) > 1_000_000 || without_sign(y) > 1_000_000;
    far(fixed.x_dest, fixed.y_dest)
        || (has_source && far(fixed.x_src, fixed.y_src))
        || (has_mask && far(fixed.x_mask, fixed.y_mask))
}

/// "present source's rectangle not inside its picture"
fn outside_picture(fixed: &Fixed, dib: &Dib) -> bool {
    !fixed.source_columns().inside(dib.width) || !fixed.source_rows().inside(dib.rows)
}

/// 13: "MASKBLT mask absent or not 1 bit"
fn bad_mask(kind: Kind, mask: Option<&Dib>) -> bool {
    kind == Kind::MaskBlt
        && match mask {
            None => true,
            Some(dib) => dib.bits != 1,
        }
}
