//! A number times a power of two, the power of two under a number, and that under the largest of some: against `powers`.

use crate::exact::{rounding, Rounding};
use crate::float::{argument, bits, helper, listed, pattern, HIDDEN, INFINITY, SIGN};
use crate::numbers::{any_words, number, whole};
use crate::powers::{largest, power_of, power_under, times, GREATEST, LOWEST};
use crate::random::Random;
use crate::subject::{branches, Hits, Subject};

pub const SUBJECTS: &[Subject] = &[
    Subject {
        name: "scaled",
        operation: 9,
        words_in: 2,
        words_out: 1,
        branches: Scaled::NAMES,
        input: scaled_input,
        answer: scaled,
    },
    helper("power_under", 10, 1, |input, out, hits| {
        out[0] = power_under(argument(input, hits)) as u64;
    }),
    Subject {
        name: "power_of",
        operation: 11,
        words_in: 1 + PLACES,
        words_out: 2,
        branches: Largest::NAMES,
        input: numbers_input,
        answer: of_numbers,
    },
];

// ---- a number, and an exponent in two's complement; the product

// A product that is not subnormal is exact, so none is rounded to an infinity.
branches!(Scaled {
    PlusZero = "+0",
    MinusZero = "-0",
    Infinite = "infinite",
    Nan = "NaN",
    Exact = "exact",
    Down = "rounded down",
    Up = "rounded up",
    TieDown = "a tie, to even below",
    TieUp = "a tie, to even above",
    OfSubnormal = "of a subnormal number",
    ToSubnormal = "to a subnormal number",
    ToZero = "to a zero",
    ToSmallest = "rounded up to the smallest normal number",
    Overflow = "to an infinity",
    Least = "by 2^-1074",
    Subnormal = "by a subnormal power",
    Smallest = "by 2^-1022",
    One = "by 1",
    Greatest = "by 2^1023",
    NoNumber = "by a power that is no number",
    Most = "by 2^1074",
    Below = "exponent below -1074",
    Above = "exponent above 1074",
});

/// Exponents: the ends of what occurs, of what a power of two as a float can be, of a word, and 0; and those beside them.
const EXPONENTS: [i64; 7] = [
    LOWEST,
    -1022,
    0,
    GREATEST,
    -LOWEST,
    i64::MIN + 1,
    i64::MAX - 1,
];

fn scaled_input(random: &mut Random, number: u64, words: &mut [u64], _: &mut Hits) {
    let listed_exponents = 3 * EXPONENTS.len() as u64;
    let (which, at) = (number / listed_exponents, number % listed_exponents);
    let (x, k) = match listed(which) {
        Some(x) => (x, EXPONENTS[at as usize / 3] + at as i64 % 3 - 1),
        None => any_scaled(random),
    };
    words.copy_from_slice(&[x, k as u64]);
}

/// Any number and exponent, a product near the smallest numbers or the largest, a tie, or an exponent beyond those that occur.
fn any_scaled(random: &mut Random) -> (u64, i64) {
    let x = pattern(random);
    let under = power_under(f64::from_bits(x));
    match random.below(8) {
        0 => (x, random.word() as i64),
        1 => (x, whole(random, -1100, 1100)),
        2 | 3 => (x, whole(random, -1078, -1018) - under),
        4 => (x, whole(random, 1018, 1026) - under),
        5 | 6 => tie(random),
        _ => (x, whole(random, LOWEST, -LOWEST)),
    }
}

/// A product in the middle of two subnormal numbers, or of the largest of them and the next: the digits that are dropped are one 1, and
/// zeros below it.
fn tie(random: &mut Random) -> (u64, i64) {
    let dropped = whole(random, 1, 53);
    let kept = match dropped {
        53 => 0,
        _ => random.bits(53 - dropped as u32),
    };
    let m = kept << dropped | 1 << (dropped - 1);
    let e = whole(random, LOWEST, -dropped);
    let x = times(m as f64, e).to_bits();
    (x | random.bits(1) << 63, LOWEST - dropped - e)
}

fn scaled(input: &[u64], out: &mut [u64], hits: &mut Hits) {
    let (x, k) = (number(input[0]), input[1] as i64);
    let limited = k.clamp(LOWEST, -LOWEST);
    let got = times(x, limited);
    out[0] = bits(got);
    count_exponent(k, hits);
    let mut hit = |branch: Scaled| hits.hit(branch as usize);
    match input[0] % SIGN {
        0 if x.is_sign_positive() => return hit(Scaled::PlusZero),
        0 => return hit(Scaled::MinusZero),
        INFINITY => return hit(Scaled::Infinite),
        size if size > INFINITY => return hit(Scaled::Nan),
        size if size < HIDDEN => hit(Scaled::OfSubnormal),
        _ => {}
    }
    count_product(rounding(x, limited, got).expect("the nearest"), got, hits);
}

fn count_exponent(k: i64, hits: &mut Hits) {
    hits.hit(match k {
        ..LOWEST => Scaled::Below,
        LOWEST => Scaled::Least,
        ..-1022 => Scaled::Subnormal,
        -1022 => Scaled::Smallest,
        0 => Scaled::One,
        GREATEST => Scaled::Greatest,
        1074 => Scaled::Most,
        1075.. => Scaled::Above,
        1024.. => Scaled::NoNumber,
        _ => return,
    } as usize);
}

fn count_product(rounding: Rounding, got: f64, hits: &mut Hits) {
    let mut hit = |branch: Scaled| hits.hit(branch as usize);
    hit(match rounding {
        _ if got.is_infinite() => Scaled::Overflow,
        Rounding::Exact => Scaled::Exact,
        Rounding::Down => Scaled::Down,
        Rounding::Up => Scaled::Up,
        Rounding::TieDown => Scaled::TieDown,
        Rounding::TieUp => Scaled::TieUp,
    });
    match got.to_bits() % SIGN {
        0 => hit(Scaled::ToZero),
        1..HIDDEN => hit(Scaled::ToSubnormal),
        HIDDEN if rounding != Rounding::Exact => hit(Scaled::ToSmallest),
        _ => {}
    }
}

// ---- a length, and eight places; the largest magnitude of the first so many, and the exponent of the power of two under it

const PLACES: usize = 8;

branches!(Largest {
    None = "no number",
    Zeros = "all zeros",
    First = "by the first alone",
    Last = "by the last alone",
    Two = "by two of one magnitude",
    Negative = "by a number below 0",
    Subnormal = "subnormal",
    Infinite = "infinite",
    NanPassed = "a NaN passed over",
    NanOnly = "only NaNs",
    Behind = "a larger number behind the length",
    TooLong = "a length above eight",
});

fn numbers_input(random: &mut Random, _: u64, words: &mut [u64], _: &mut Hits) {
    any_words(random, &mut words[1..]);
    words[0] = match random.below(16) {
        0 => random.word(),
        1 => 0,
        _ => random.below(PLACES as u64 + 2),
    };
    if random.below(16) == 0 {
        let all = if random.bits(1) == 0 {
            SIGN
        } else {
            INFINITY + 1
        };
        words[1..].fill(all);
    }
}

fn of_numbers(input: &[u64], out: &mut [u64], hits: &mut Hits) {
    let places: Vec<f64> = input[1..].iter().map(|word| number(*word)).collect();
    let length = input[0].min(PLACES as u64) as usize;
    let given = &places[..length];
    let most = largest(given);
    out[0] = bits(most);
    out[1] = power_of(given) as u64;
    let by: Vec<usize> = (0..length).filter(|i| given[*i].abs() == most).collect();
    let nans = given.iter().filter(|x| x.is_nan()).count();
    for (branch, met) in [
        (Largest::None, length == 0),
        (
            Largest::Zeros,
            length > 0 && by.len() == length && most == 0.0,
        ),
        (Largest::First, length > 1 && by == [0]),
        (Largest::Last, length > 1 && by == [length - 1]),
        (Largest::Two, by.len() == 2),
        (Largest::Negative, by.iter().any(|i| given[*i] < 0.0)),
        (Largest::Subnormal, most.is_subnormal()),
        (Largest::Infinite, most.is_infinite()),
        (Largest::NanPassed, nans > 0 && most > 0.0),
        (Largest::NanOnly, length > 0 && nans == length),
        (Largest::Behind, largest(&places) > most),
        (Largest::TooLong, input[0] > PLACES as u64),
    ] {
        if met {
            hits.hit(branch as usize);
        }
    }
}
