//! One pixel out of a picture.

use crate::arithmetic::{bit_of, nearest, power};
use crate::colour::Colour;
use crate::dib::{ones, row_length, zeros_below, Dib};
use crate::fields::number;

/// "A channel v of w bits becomes round(255·v/(2^w − 1)); no tie exists."
pub fn widen(v: i64, w: i64) -> i64 {
    nearest(255 * v as i128, power(w) as i128 - 1) as i64
}

/// The channel that a mask cuts out of a pixel, widened.
pub fn channel(pixel: i64, mask: i64) -> i64 {
    let width = ones(mask);
    let v = pixel / power(zeros_below(mask)) % power(width);
    widen(v, width)
}

/// The pixel's stored number; column and row count from the top left.
pub fn stored(record: &[u8], dib: &Dib, column: i64, row: i64) -> i64 {
    // "Positive height: the last stored row is the top one. Rectangles count
    // from the picture's top."
    let stored_row = if dib.top_down { row } else { dib.rows - 1 - row };
    let start = dib.view.offset as i64 + stored_row * row_length(dib.width, dib.bits);
    match dib.bits {
        1 => {
            // "1 bit: the high bit is leftmost."
            let byte = record[(start + column / 8) as usize] as i64;
            bit_of(byte, 7 - column % 8)
        }
        4 => {
            // "4 bits: the high half is first."
            let byte = record[(start + column / 2) as usize] as i64;
            if column % 2 == 0 {
                byte / 16
            } else {
                byte % 16
            }
        }
        bits => {
            let bytes = bits / 8;
            number(record, (start + column * bytes) as usize, bytes as usize)
        }
    }
}

/// The pixel's colour and alpha.
pub fn colour(record: &[u8], dib: &Dib, column: i64, row: i64, format: i64) -> Colour {
    let pixel = stored(record, dib, column, row);
    if dib.bits <= 8 {
        let entry = dib.palette[pixel as usize] as i64;
        return Colour {
            red: entry / 65_536 % 256,
            green: entry / 256 % 256,
            blue: entry % 256,
            // "Where a layout has no alpha, alpha is 255."
            alpha: 255,
        };
    }
    if dib.compression == 3 {
        return Colour {
            red: channel(pixel, dib.red),
            green: channel(pixel, dib.green),
            blue: channel(pixel, dib.blue),
            // An alpha mask gives alpha under either format (A19).
            alpha: if dib.alpha == 0 { 255 } else { channel(pixel, dib.alpha) },
        };
    }
    if dib.bits == 16 {
        // "BI_RGB 16: blue, green, red of five bits, from the lowest up."
        return Colour {
            red: widen(pixel / 1024 % 32, 5),
            green: widen(pixel / 32 % 32, 5),
            blue: widen(pixel % 32, 5),
            alpha: 255,
        };
    }
    // "24 bits: blue, green, red." "BI_RGB 32: blue, green, red, and a high
    // byte that is alpha only under alpha format 1."
    Colour {
        red: pixel / 65_536 % 256,
        green: pixel / 256 % 256,
        blue: pixel % 256,
        alpha: if dib.bits == 32 && format == 1 { pixel / 16_777_216 } else { 255 },
    }
}
