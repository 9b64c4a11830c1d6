//! The numbers of inputs and answers: as words, and of many kinds at random.

use crate::float::{bits, subnormal, HIDDEN, INFINITY, NAN, SIGN};
use crate::random::Random;

/// The float of a word. Each NaN is the port's, whose sign is not set.
pub fn number(word: u64) -> f64 {
    f64::from_bits(if word % SIGN > INFINITY { NAN } else { word })
}

pub fn numbers<const K: usize>(words: &[u64]) -> [f64; K] {
    std::array::from_fn(|i| number(words[i]))
}

/// Puts the numbers into the first words.
pub fn put(words: &mut [u64], numbers: &[f64]) {
    for (word, x) in words.iter_mut().zip(numbers) {
        *word = bits(*x);
    }
}

pub fn all_finite(numbers: &[f64]) -> bool {
    numbers.iter().all(|x| x.is_finite())
}

/// 2^e, for e from -1074 to 1023.
pub fn power_of_two(e: i64) -> f64 {
    f64::from_bits(if e < -1022 {
        1 << (e + 1074)
    } else {
        (e + 1023) as u64 * HIDDEN
    })
}

/// A whole number from `low` to `high`.
pub fn whole(random: &mut Random, low: i64, high: i64) -> i64 {
    low + random.below((high - low + 1) as u64) as i64
}

pub fn with_sign(random: &mut Random, x: f64) -> f64 {
    f64::from_bits(x.to_bits() ^ (random.bits(1) << 63))
}

pub fn zero(random: &mut Random) -> f64 {
    with_sign(random, 0.0)
}

/// Any finite number: each exponent is as likely.
pub fn finite(random: &mut Random) -> f64 {
    let size = f64::from_bits(random.below(INFINITY));
    with_sign(random, size)
}

/// A NaN with any payload, or an infinity.
pub fn not_finite(random: &mut Random) -> u64 {
    let sign = random.bits(1) << 63;
    match random.below(2) {
        0 => sign | INFINITY,
        _ => sign | (INFINITY + 1 + random.below(HIDDEN - 1)),
    }
}

/// From 2^e up to 2^(e + 1), with a sign.
pub fn about(random: &mut Random, e: i64) -> f64 {
    let size = power_of_two(e).to_bits();
    // a subnormal number has fewer digits below its first one
    let below = if size < HIDDEN { size } else { HIDDEN };
    let size = f64::from_bits(size + random.below(below));
    with_sign(random, size)
}

/// A finite number above 0, or one that lies so many numbers beside it at most.
pub fn beside(random: &mut Random, x: f64, most: u64) -> f64 {
    let least = x.to_bits().saturating_sub(most);
    f64::from_bits((least + random.below(2 * most + 1)).min(INFINITY - 1))
}

/// From -1 to 1, evenly.
pub fn even(random: &mut Random) -> f64 {
    let size = random.bits(53) as f64 * power_of_two(-53);
    with_sign(random, size)
}

/// The sum in order, from -0 on. Rust's own starts with a zero whose sign is not the same in all its versions, and a seed shall give
/// the same inputs everywhere.
pub fn sum(numbers: impl Iterator<Item = f64>) -> f64 {
    numbers.fold(-0.0, |sum, x| sum + x)
}

/// Fills the places with numbers of one kind, here and there a zero of either sign among them, or once more the number before.
pub fn fill(random: &mut Random, places: &mut [f64]) {
    let kind = random.below(8);
    let e = whole(random, -1074, 1023);
    let near = whole(random, -60, 60);
    for i in 0..places.len() {
        places[i] = match (kind, random.below(8)) {
            (_, 0) => zero(random),
            (_, 1) if i > 0 => with_sign(random, places[i - 1]),
            (0, _) => finite(random),
            (1, _) => about(random, e),
            (2, _) => {
                let size = f64::from_bits(subnormal(random));
                with_sign(random, size)
            }
            (3, _) => whole(random, -8, 8) as f64,
            (4, _) => {
                let e = whole(random, 1000, 1023);
                about(random, e)
            }
            (5, _) => {
                let e = near + whole(random, -8, 8);
                about(random, e)
            }
            _ => even(random),
        };
    }
}

/// One in sixteen times puts a NaN or an infinity into one of the words.
pub fn spoil(random: &mut Random, words: &mut [u64]) {
    if random.below(16) == 0 {
        let at = random.below(words.len() as u64) as usize;
        words[at] = not_finite(random);
    }
}

/// As `fill`, in words, and spoilt now and then.
pub fn fill_words(random: &mut Random, words: &mut [u64]) {
    let mut places = [0.0; 40];
    let places = &mut places[..words.len()];
    fill(random, places);
    put(words, places);
    spoil(random, words);
}

/// Any floats: now and then several that are not finite.
pub fn any_words(random: &mut Random, words: &mut [u64]) {
    fill_words(random, words);
    if random.below(8) == 0 {
        for word in words {
            if random.below(3) == 0 {
                *word = not_finite(random);
            }
        }
    }
}

/// The place of the first number that is not finite.
pub fn first_not_finite(numbers: &[f64]) -> Option<usize> {
    numbers.iter().position(|x| !x.is_finite())
}
