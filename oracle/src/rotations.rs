//! What the rotations of both 3x3 runs have in common: their pairs, their choice, and the branches that count them.

use crate::numbers::all_finite;
use crate::random::Random;
use crate::subject::{branches, Hits};

/// A number beside the diagonal that is under this is settled: 2^-44.
pub const LIMIT: f64 = 256.0 * f64::EPSILON;

/// So many rotations are made at most.
pub const MOST: u64 = 25;

/// The rows and columns of the pairs, by the numbers that the probe has for them.
pub const PAIRS: [(u64, usize, usize); 3] = [(12, 0, 1), (13, 0, 2), (23, 1, 2)];

pub fn a_pair(random: &mut Random) -> (u64, usize, usize) {
    PAIRS[random.below(3) as usize]
}

/// The rows and columns of the pair with a number.
pub fn pair_of(number: u64) -> (usize, usize) {
    let found = PAIRS.into_iter().find(|pair| pair.0 == number);
    let (_, p, q) = found.expect("a pair");
    (p, q)
}

/// The ways in which a rotation is chosen, in the order of the branches that count them. A zero beside the diagonal comes last,
/// since a 3x3 run meets none.
#[derive(Clone, Copy)]
pub enum Choice {
    Tiny,
    Level,
    Theta,
    Far,
    Infinite,
    Nan,
    Zero,
}

pub fn choice(apq: f64, app: f64, aqq: f64) -> Choice {
    let difference = aqq - app;
    let (p, q) = (app.abs(), aqq.abs());
    let d = if p > q { p } else { q };
    let theta = difference / (2.0 * apq);
    if apq == 0.0 {
        Choice::Zero
    } else if d < f64::EPSILON {
        Choice::Tiny
    } else if difference.abs() < f64::EPSILON * d {
        Choice::Level
    } else if theta.is_nan() {
        Choice::Nan
    } else if theta.is_infinite() {
        Choice::Infinite
    } else if (theta * theta).is_infinite() {
        Choice::Far
    } else {
        Choice::Theta
    }
}

/// Whether a rotation is blind: the number beside the diagonal is not zero, the larger magnitude on the diagonal is under 2^-52, and
/// the two numbers on it differ. Then it turns by 45 degrees whatever their difference is, and what it takes for gone is still there.
/// Both zeros are one number, and a NaN is under nothing.
pub fn blind(apq: f64, app: f64, aqq: f64) -> bool {
    let under = |x: f64| x.abs() < f64::EPSILON;
    apq != 0.0 && under(app) && under(aqq) && app != aqq
}

/// Which of an order's three comparisons exchange: 1 with 2, then 1 with 3, then 2 with 3.
pub fn exchanges(mut values: [f64; 3], exchange: fn(&f64, &f64) -> bool) -> [bool; 3] {
    PAIRS.map(|(_, p, q)| {
        let now = exchange(&values[p], &values[q]);
        if now {
            values.swap(p, q);
        }
        now
    })
}

/// Counts a rotation's pair: a branch for each, from `first` on, then one for two pairs that are the largest, and one for all three.
pub fn count_pair(first: usize, pair: usize, sizes: [f64; 3], largest: f64, hits: &mut Hits) {
    hits.hit(first + pair);
    match sizes.iter().filter(|size| **size == largest).count() {
        2 => hits.hit(first + 3),
        3 => hits.hit(first + 4),
        _ => {}
    }
}

/// Counts a run by its rotations, from `first` on: 0, 1, 2 to 12, 13 to 24, 25 that settle, and 25 that do not.
pub fn count_length(first: usize, count: u64, settled: bool, hits: &mut Hits) {
    hits.hit(
        first
            + match (count, settled) {
                (0, _) => 0,
                (1, _) => 1,
                (2..=12, _) => 2,
                (MOST, true) => 4,
                (MOST, false) => 5,
                _ => 3,
            },
    );
}

/// Counts an order's exchanges, from `first` on: none, and then each. Two values that are alike come last.
pub fn count_order(
    first: usize,
    values: [f64; 3],
    exchange: fn(&f64, &f64) -> bool,
    hits: &mut Hits,
) {
    let exchanged = exchanges(values, exchange);
    if exchanged == [false; 3] {
        hits.hit(first);
    }
    for i in 0..3 {
        if exchanged[i] {
            hits.hit(first + 1 + i);
        }
    }
    let [a, b, c] = values;
    if a == b || b == c || a == c {
        hits.hit(first + 4);
    }
}

// Of the step that finds the largest pair.
branches!(pub Largest {
    Pair12 = "pair 12",
    Pair13 = "pair 13",
    Pair23 = "pair 23",
    Two = "two the largest",
    All = "all three the largest",
    Nan12 = "NaN in the pair 12",
    Nan13 = "NaN in the pair 13",
    Nan23 = "NaN in the pair 23",
    Infinite = "infinite",
});

impl Largest {
    pub fn count(pair: usize, sizes: [f64; 3], largest: f64, hits: &mut Hits) {
        count_pair(Self::Pair12 as usize, pair, sizes, largest, hits);
        for (i, size) in sizes.into_iter().enumerate() {
            if size.is_nan() {
                hits.hit(Self::Nan12 as usize + i);
            }
        }
        if largest.is_infinite() {
            hits.hit(Self::Infinite as usize);
        }
    }
}

// Of the steps that rotate a matrix, or turn columns.
branches!(pub Applied {
    Pair12 = "pair 12",
    Pair13 = "pair 13",
    Pair23 = "pair 23",
    NotFinite = "a NaN or infinity given",
    Overflow = "a NaN or infinity made",
    Chosen = "input: the rotation of the pair",
    Any = "input: any floats",
});

impl Applied {
    pub fn count(pair: u64, given: &[f64], made: &[f64], hits: &mut Hits) {
        let pair = PAIRS.iter().position(|p| p.0 == pair).expect("a pair");
        hits.hit(Self::Pair12 as usize + pair);
        if !all_finite(given) {
            hits.hit(Self::NotFinite as usize);
        } else if !all_finite(made) {
            hits.hit(Self::Overflow as usize);
        }
    }
}
