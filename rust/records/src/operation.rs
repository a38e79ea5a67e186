//! The operation field. Its ignored bytes are nonsense, so that a player that looks at them is found out.

/// 0x72: "operation, flags (ignored), constant alpha, format".
pub fn blend_field(constant: u32, format: u32) -> u32 {
    0x7700 + constant * 65_536 + format * 16_777_216
}

/// 0x4E: as MAKEROP4 of wingdi.h, "the foreground in bits 16 to 23 and the background in bits 24 to 31".
pub fn rop4(foreground: u32, background: u32) -> u32 {
    0x1234 + foreground * 65_536 + background * 16_777_216
}

/// 0x51: "A plain ROP uses bits 16..23 of its field."
pub fn rop(byte: u32) -> u32 {
    0x9900_0020 + byte * 65_536
}
