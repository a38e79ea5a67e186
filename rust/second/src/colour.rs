//! A pixel as four channels.

/// Four channels of 0 to 255.
#[derive(Clone, Copy, Debug, PartialEq, Eq)]
pub struct Colour {
    pub red: i64,
    pub green: i64,
    pub blue: i64,
    pub alpha: i64,
}

/// "one 32-bit number a pixel ...: alpha·2^24 + red·2^16 + green·2^8 + blue"
pub fn unpacked(pixel: u32) -> Colour {
    let n = pixel as i64;
    Colour { red: n / 65_536 % 256, green: n / 256 % 256, blue: n % 256, alpha: n / 16_777_216 }
}

pub fn packed(c: Colour) -> u32 {
    (c.alpha * 16_777_216 + c.red * 65_536 + c.green * 256 + c.blue) as u32
}
