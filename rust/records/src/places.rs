//! Document 01's byte places.

/// EMR_ALPHABLEND, document 000.
pub const ALPHABLEND: u32 = 0x72;
/// EMR_MASKBLT, document 001.
pub const MASKBLT: u32 = 0x4E;
/// EMR_STRETCHDIBITS, document 003.
pub const STRETCHDIBITS: u32 = 0x51;

// "Common: Type 0, Size 4, Bounds 8..23 (left, top, right, bottom)"; xDest and yDest are common as well.
pub const TYPE: usize = 0;
pub const SIZE: usize = 4;
pub const BOUNDS: usize = 8;
pub const TARGET: [usize; 2] = [24, 28];

/// The places that depend on the type.
pub struct Places {
    /// The end of the fixed part.
    pub fixed: usize,
    /// cxDest, cyDest.
    pub extent: [usize; 2],
    /// Blend, ROP4 or ROP.
    pub operation: usize,
    /// xSrc, ySrc.
    pub corner: [usize; 2],
    /// cxSrc, cySrc; in 0x4E they are the target's.
    pub source_extent: Option<[usize; 2]>,
    pub transform: Option<usize>,
    pub background: Option<usize>,
    pub usage: usize,
    /// offBmi, cbBmi, offBits, cbBits.
    pub four: usize,
}

// Only 0x4E has a mask.
pub const MASK_CORNER: [usize; 2] = [100, 104];
pub const MASK_USAGE: usize = 108;
pub const MASK_FOUR: usize = 112;

/// The row of the table; any other type has the places of 0x51.
pub fn places(kind: u32) -> Places {
    match kind {
        ALPHABLEND => Places { fixed: 108, source_extent: Some([100, 104]), ..transformed() },
        MASKBLT => Places { fixed: 128, source_extent: None, ..transformed() },
        _ => Places {
            fixed: 80,
            extent: [72, 76],
            operation: 68,
            corner: [32, 36],
            source_extent: Some([40, 44]),
            transform: None,
            background: None,
            usage: 64,
            four: 48,
        },
    }
}

/// What 0x72 and 0x4E have alike.
fn transformed() -> Places {
    Places {
        fixed: 0,
        extent: [32, 36],
        operation: 40,
        corner: [44, 48],
        source_extent: None,
        transform: Some(52),
        background: Some(76),
        usage: 80,
        four: 84,
    }
}

/// A DIB's header: "size 0, width 4, height 8, planes 12, bits 14, compression 16, colours used 32; V4 masks red,
/// green, blue, alpha at 40, 44, 48, 52". The three masks behind a 40-byte header stand at 40 as well.
pub mod header {
    pub const SIZE: usize = 0;
    pub const WIDTH: usize = 4;
    pub const HEIGHT: usize = 8;
    pub const PLANES: usize = 12;
    pub const BITS: usize = 14;
    pub const COMPRESSION: usize = 16;
    pub const USED: usize = 32;
    pub const MASKS: usize = 40;
}
