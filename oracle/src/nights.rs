//! Numbers as a night of recording brings them: sources, sensors and the rays between them.

use crate::numbers::{even, sum, whole};
use crate::random::Random;
use crate::shapes::{rotation, turn, with_values};

/// The nine numbers and the last three of a request of this kind.
pub fn request(random: &mut Random, kind: u8) -> ([f64; 9], [f64; 3]) {
    let mut nine = [0.0; 9];
    let mut three = [0.0; 3];
    match kind {
        1 => nine[..3].copy_from_slice(&polarisation(random)),
        2 => nine[..6].copy_from_slice(&moment_tensor(random)),
        3 => nine[..4].copy_from_slice(&pair_of_sensors(random)),
        4 => nine = geophone(random),
        5 | 7 => normal_equations::<2>(random, &mut nine[..3], &mut three[..2]),
        _ => normal_equations::<3>(random, &mut nine[..6], &mut three),
    }
    if kind < 7 {
        three = [0.0; 3];
    }
    (nine, three)
}

/// 10^e times a number from 1 to 2.
fn size(random: &mut Random, low: i64, high: i64) -> f64 {
    let e = whole(random, low, high);
    let power = (0..e.abs()).fold(1.0, |x, _| 10.0 * x);
    let digits = 1.0 + even(random).abs();
    if e < 0 {
        digits / power
    } else {
        digits * power
    }
}

/// Sums of squares and of the product of two traces: a wave along one direction, and noise.
fn polarisation(random: &mut Random) -> [f64; 3] {
    let [x, y] = [0; 2].map(|_| even(random));
    let (amplitude, noise) = (size(random, -9, 3), size(random, -4, -1));
    let mut sums = [0.0; 3];
    for _ in 0..16 {
        let wave = even(random);
        let [p, q] = [x, y].map(|d| amplitude * (d * wave + noise * even(random)));
        sums = [sums[0] + p * p, sums[1] + p * q, sums[2] + q * q];
    }
    sums
}

/// A double couple, a linear vector dipole, an explosion or an implosion, or a mixture, in any orientation.
fn moment_tensor(random: &mut Random) -> [f64; 6] {
    const SOURCES: [[f64; 3]; 4] = [
        [1.0, 0.0, -1.0],
        [1.0, -0.5, -0.5],
        [0.5, 0.5, -1.0],
        [1.0, 1.0, 1.0],
    ];
    let weights = match random.below(8) {
        one @ 0..4 => std::array::from_fn(|k| f64::from(k as u64 == one)),
        _ => SOURCES.map(|_| even(random)),
    };
    let moment = size(random, -14, 19);
    let values = std::array::from_fn(|i| moment * sum((0..4).map(|k| weights[k] * SOURCES[k][i])));
    with_values(&rotation(random), values)
}

/// Two horizontal sensors, turned, with gains that are not quite alike.
fn pair_of_sensors(random: &mut Random) -> [f64; 4] {
    let (c, s) = turn(even(random));
    let noise = size(random, -9, -3);
    [c, s, -s, c].map(|x| x * (1.0 + noise * even(random)))
}

/// Three sensors of a borehole instrument, by columns: nearly at right angles, nearly of one gain, and now and then one the wrong
/// way round.
fn geophone(random: &mut Random) -> [f64; 9] {
    let q = rotation(random);
    let (gain, noise) = (size(random, -3, 3), size(random, -9, -2));
    let signs: [f64; 3] = std::array::from_fn(|_| if random.below(8) == 0 { -1.0 } else { 1.0 });
    std::array::from_fn(|i| gain * (signs[i / 3] * q[i / 3][i % 3] + noise * even(random)))
}

/// G'G, packed, and G'd for so many unknowns: rays by their directions, and how late each came.
fn normal_equations<const N: usize>(random: &mut Random, a: &mut [f64], b: &mut [f64]) {
    let weight = size(random, -6, 6);
    // rays that all come from nearly one side leave a pivot that is small, or refused
    let spread = size(random, -9, 0);
    let middle: [f64; N] = std::array::from_fn(|_| even(random));
    for _ in 0..whole(random, N as i64 - 1, 12) {
        let ray = middle.map(|x| x + spread * even(random));
        let late = 0.01 * even(random);
        let mut at = 0;
        for c in 0..N {
            for r in 0..=c {
                a[at] += weight * ray[r] * ray[c];
                at += 1;
            }
            b[c] += weight * ray[c] * late;
        }
    }
}
