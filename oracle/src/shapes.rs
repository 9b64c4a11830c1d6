//! Matrices of a given shape: of any numbers of one kind, rotations, and symmetric ones of given values. Numbers stand by columns.

use crate::float::subnormal;
use crate::numbers::{about, beside, even, finite, power_of_two, sum, whole, with_sign, zero};
use crate::random::Random;

pub type Columns = [[f64; 3]; 3];

pub fn any_exponents<const K: usize>(random: &mut Random) -> [f64; K] {
    [0; K].map(|_| finite(random))
}

/// Numbers within eight powers of two of each other.
pub fn one_exponent<const K: usize>(random: &mut Random) -> [f64; K] {
    let e = whole(random, -1074, 1015);
    [0; K].map(|_| {
        let e = e + whole(random, 0, 8);
        about(random, e)
    })
}

/// From -1 to 1, scaled.
pub fn evenly<const K: usize>(random: &mut Random) -> [f64; K] {
    let scale = power_of_two(whole(random, -60, 60));
    [0; K].map(|_| scale * even(random))
}

pub fn whole_numbers<const K: usize>(random: &mut Random) -> [f64; K] {
    [0; K].map(|_| whole(random, -4, 4) as f64)
}

/// Two of three are subnormal: not all, so that there is something to rotate too.
pub fn some_subnormal<const K: usize>(random: &mut Random) -> [f64; K] {
    [0; K].map(|_| match random.below(3) {
        0 => even(random),
        _ => any_subnormal(random),
    })
}

/// A subnormal number or 0, with a sign.
pub fn any_subnormal(random: &mut Random) -> f64 {
    let size = f64::from_bits(subnormal(random));
    with_sign(random, size)
}

/// Zeros of both signs, and small whole numbers.
pub fn zeros<const K: usize>(random: &mut Random) -> [f64; K] {
    [0; K].map(|_| match random.below(3) {
        0 => whole(random, -2, 2) as f64,
        _ => zero(random),
    })
}

/// Small numbers, and three of nearly one size for the diagonal.
pub fn isotropic_parts<const K: usize>(random: &mut Random) -> ([f64; K], [f64; 3]) {
    let size = power_of_two(whole(random, 0, 40)) * (1.0 + even(random).abs());
    let scale = power_of_two(whole(random, -44, -8));
    let small = [0; K].map(|_| scale * even(random));
    (small, [0; 3].map(|_| beside(random, size, 1)))
}

/// A rotation in space, but for rounding, by a quaternion at random.
pub fn rotation(random: &mut Random) -> Columns {
    let (q, norm) = loop {
        let q: [f64; 4] = std::array::from_fn(|_| even(random));
        let norm = sum(q.iter().map(|x| x * x));
        if (0.01..=1.0).contains(&norm) {
            break (q, norm);
        }
    };
    let [w, x, y, z] = q.map(|x| x / norm.sqrt());
    [
        [
            1.0 - 2.0 * (y * y + z * z),
            2.0 * (x * y + z * w),
            2.0 * (x * z - y * w),
        ],
        [
            2.0 * (x * y - z * w),
            1.0 - 2.0 * (x * x + z * z),
            2.0 * (y * z + x * w),
        ],
        [
            2.0 * (x * z + y * w),
            2.0 * (y * z - x * w),
            1.0 - 2.0 * (x * x + y * y),
        ],
    ]
}

/// The cosine and the sine of a turn in the plane, of the angle whose half has this tangent.
pub fn turn(h: f64) -> (f64, f64) {
    ((1.0 - h * h) / (1.0 + h * h), 2.0 * h / (1.0 + h * h))
}

/// The packed upper triangle of Q diag(values) Q'.
pub fn with_values(q: &Columns, values: [f64; 3]) -> [f64; 6] {
    let entry = |r: usize, c: usize| sum((0..3).map(|k| values[k] * q[k][r] * q[k][c]));
    [
        entry(0, 0),
        entry(0, 1),
        entry(1, 1),
        entry(0, 2),
        entry(1, 2),
        entry(2, 2),
    ]
}
