//! The raster operation.

use crate::arithmetic::{bit_of, power};

/// "R needs a source when bits k and k + 2 differ for some k of 0, 1, 4, 5."
pub fn needs_source(r: i64) -> bool {
    [0, 1, 4, 5].iter().any(|&k| bit_of(r, k) != bit_of(r, k + 2))
}

/// "Raster byte R: each colour bit becomes bit (4·brush + 2·source + target)
/// of R."  Colours of 24 bits.
pub fn raster(r: i64, brush: i64, source: i64, target: i64) -> i64 {
    let mut sum = 0;
    for k in 0..24 {
        let place = 4 * bit_of(brush, k) + 2 * bit_of(source, k) + bit_of(target, k);
        sum += bit_of(r, place) * power(k);
    }
    sum
}
