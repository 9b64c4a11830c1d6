//! A number times a power of two, and the power of two that a matrix is divided by, in whole numbers: the proved code multiplies and
//! divides floats instead. `exact` holds what is worked out here to whole numbers of any length.

use crate::float::{parts, HIDDEN, INFINITY, SIGN};

/// The exponents of the last digit of the smallest numbers, and of the first digit of the largest.
pub const LOWEST: i64 = -1074;
pub const GREATEST: i64 = 1023;

/// x times 2^k: the nearest number to the exact product, and of two that are as near the one whose last digit is even. Subnormal numbers
/// are kept. What is not finite stays.
pub fn times(x: f64, k: i64) -> f64 {
    if !x.is_finite() {
        return x;
    }
    let (m, e) = parts(x.to_bits());
    let sign = x.to_bits() & SIGN;
    f64::from_bits(sign | if m == 0 { 0 } else { nearest(m, e + k) })
}

/// The pattern of the nearest number to m * 2^e, m being above 0 and of 53 digits at most.
fn nearest(m: u64, e: i64) -> u64 {
    let first = e + i64::from(m.ilog2());
    if first > GREATEST {
        return INFINITY;
    }
    // the result's last digit stands at 2^last
    let last = (first - 52).max(LOWEST);
    let digits = match last - e {
        up @ ..=0 => m << -up,
        // all of m is below half of the last digit
        64.. => 0,
        down => to_even(m, down as u32),
    };
    // each step of `last` is a step of the exponent's field, and a carry from the digits goes there too
    digits + (last - LOWEST) as u64 * HIDDEN
}

/// m / 2^n as a whole number, rounded; n is from 1 to 63.
fn to_even(m: u64, n: u32) -> u64 {
    let (whole, rest, half) = (m >> n, m % (1 << n), 1 << (n - 1));
    whole + u64::from(rest > half || rest == half && whole % 2 == 1)
}

/// The k with x from 2^k up to, but not including, 2^(k + 1) in magnitude; 0 for zeros, and for what is no number.
pub fn power_under(x: f64) -> i64 {
    let (m, e) = parts(x.to_bits());
    if m == 0 || !x.is_finite() {
        return 0;
    }
    e + i64::from(m.ilog2())
}

/// The largest magnitude. A NaN is larger than nothing, as Rust's own `max` has it.
pub fn largest(numbers: &[f64]) -> f64 {
    numbers.iter().fold(0.0, |most, x| x.abs().max(most))
}

pub fn power_of(numbers: &[f64]) -> i64 {
    power_under(largest(numbers))
}
