//! Status 11: what is done to each pixel.

use super::absent;
use crate::facts::{names, Facts, Operation, Picture, Role, BI_BITFIELDS};

/// 11: "blend operation not 0; format above 1; format 1 without 32 bits and an alpha (BI_RGB or a non-zero alpha mask);
/// source needed and absent (0x72 always; MASKBLT if either byte needs it)".
pub fn reason(facts: &Facts) -> Option<String> {
    let needed = match facts.operation? {
        Operation::Blend { operation, .. } if operation != 0 => {
            return Some(format!("blend operation {operation} is not 0 (source over target)"));
        }
        Operation::Blend { format, .. } if format > 1 => return Some(format!("alpha format {format} is above 1")),
        Operation::Blend { format, .. } => match &facts.source {
            Some(source) => return if format == 1 { without_alpha(source) } else { None },
            None => "the blend needs a source".to_string(),
        },
        Operation::Rop4 { foreground, background, .. } => {
            needs("the foreground", foreground).or_else(|| needs("the background", background))?
        }
        Operation::Rop { raster, .. } => needs("the", raster)?,
        _ => return None,
    };
    let none = absent(Role::Source);
    facts.source.is_none().then(|| format!("{needed}, and the record has none: {none}"))
}

/// That this raster operation needs a source; None where it does not.
fn needs(whose: &str, raster: u8) -> Option<String> {
    let needs = [0, 1, 4, 5].into_iter().any(|k| raster >> k & 1 != raster >> (k + 2) & 1);
    let named = names::with(format!("0x{raster:02X}"), names::raster(raster));
    needs.then(|| format!("{whose} raster operation {named} needs a source"))
}

/// Format 1 wants 32 bits, and an alpha mask under BI_BITFIELDS; under BI_RGB the high byte is alpha.
fn without_alpha(source: &Picture) -> Option<String> {
    let header = source.header?;
    let bits = header.bits?;
    if bits != 32 {
        return Some(format!("alpha format 1 needs 32 bits; biBitCount is {bits}"));
    }
    if header.compression? != BI_BITFIELDS {
        return None;
    }
    let lack = match header.masks?.alpha {
        None => "has no alpha mask",
        Some(0) => "its alpha mask is 0",
        Some(_) => return None,
    };
    Some(format!("alpha format 1 needs an alpha; this header is {} bytes, BI_BITFIELDS, and {lack}", header.size))
}
