//! The blends.

use crate::arithmetic::nearest;
use crate::colour::Colour;

/// "Each is exact, then rounded to nearest, then cut to 255 where above." Every
/// channel is cut here, as document 01 says it: the library cuts the colours of
/// format 1 only (document 02, item 10), and is compared with this.
fn finish(top: i128, bottom: i128) -> i64 {
    let n = nearest(top, bottom);
    if n > 255 {
        255
    } else {
        n as i64
    }
}

/// "Format 0, colours and alpha: (s·c + d·(255 − c)) / 255."
pub fn format_0(s: i64, d: i64, c: i64) -> i64 {
    let (s, d, c) = (s as i128, d as i128, c as i128);
    finish(s * c + d * (255 - c), 255)
}

/// "Format 1, colours: (255·s·c + (65,025 − a·c)·d) / 65,025; alpha with a in
/// place of s. All four source channels are premultiplied before the blend."
pub fn format_1(s: i64, a: i64, c: i64, d: i64) -> i64 {
    let (s, a, c, d) = (s as i128, a as i128, c as i128, d as i128);
    finish(255 * s * c + (65_025 - a * c) * d, 65_025)
}

/// One pixel blended, channel by channel.
pub fn blend(source: Colour, target: Colour, c: i64, format: i64) -> Colour {
    let a = source.alpha;
    let one = |s: i64, d: i64| {
        if format == 1 {
            format_1(s, a, c, d)
        } else {
            format_0(s, d, c)
        }
    };
    Colour {
        red: one(source.red, target.red),
        green: one(source.green, target.green),
        blue: one(source.blue, target.blue),
        alpha: one(source.alpha, target.alpha),
    }
}
