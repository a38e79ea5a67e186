//! Whole numbers.

/// 2 to the power `n`, for 0 to 62.
pub fn power(n: i64) -> i64 {
    1i64 << n
}

/// Bit `k` of a number that is not negative.
pub fn bit_of(n: i64, k: i64) -> i64 {
    (n >> k) % 2
}

pub fn without_sign(n: i64) -> i64 {
    if n < 0 {
        -n
    } else {
        n
    }
}

/// The whole number nearest to top / bottom (top not negative, bottom
/// positive): floor(top/bottom + 1/2), worked out in whole numbers.
pub fn nearest(top: i128, bottom: i128) -> i128 {
    (2 * top + bottom) / (2 * bottom)
}
