//! The root against Rust's f64::sqrt.

use crate::float::{bits, listed, parts, subnormal, HIDDEN, INFINITY, SIGN};
use crate::numbers::power_of_two;
use crate::random::Random;
use crate::subject::{branches, Hits, Subject};
use std::cmp::Ordering;

pub const SUBJECTS: &[Subject] = &[root("root", 1), root("root_bits", 6)];

// A root never rounds up to the next power of two, so that is no branch: the last number below 4 is
// 4 - 2^-51, and its root lies below 2 - 2^-53, the middle of 2 and the number before it.
branches!(Root {
    Nan = "NaN",
    PlusZero = "+0",
    MinusZero = "-0",
    Negative = "below 0, finite",
    MinusInfinity = "-infinity",
    PlusInfinity = "+infinity",
    Subnormal = "subnormal",
    OddExponent = "exponent odd",
    EvenExponent = "exponent even",
    Exact = "root exact",
    RoundedDown = "root rounded down",
    RoundedUp = "root rounded up",
    Smallest = "the smallest number above 0",
    Largest = "the largest finite number",
    Random = "input: random",
    Square = "input: a square",
    AboveSquare = "input: next above a square",
    BelowSquare = "input: next below a square",
    OddPower = "input: 2 to an odd power",
    EvenPower = "input: 2 to an even power",
    AboveMiddle = "input: root just above a middle",
    BelowMiddle = "input: root just below a middle",
});

const fn root(name: &'static str, operation: u8) -> Subject {
    Subject {
        name,
        operation,
        words_in: 1,
        words_out: 1,
        branches: Root::NAMES,
        input,
        answer,
    }
}

fn input(random: &mut Random, number: u64, words: &mut [u64], hits: &mut Hits) {
    if let Some(pattern) = listed(number) {
        words[0] = pattern;
        return;
    }
    let (kind, pattern) = match random.below(8) {
        0 => (Root::Random, random.word()),
        1 => (Root::Random, random.below(INFINITY)),
        2 => (Root::Random, subnormal(random)),
        3 => (Root::Square, square(random)),
        4 => (Root::AboveSquare, square(random) + 1),
        5 => (Root::BelowSquare, square(random) - 1),
        6 => power(random),
        _ => near_middle(random),
    };
    hits.hit(kind as usize);
    words[0] = pattern;
}

/// The square of a whole number, times a power of four.
fn square(random: &mut Random) -> u64 {
    let digits = 1 + random.below(26);
    let k = 1 + random.bits(digits as u32);
    let h = random.below(1023) as i64 - 537;
    ((k * k) as f64 * power_of_two(2 * h)).to_bits()
}

fn power(random: &mut Random) -> (Root, u64) {
    let e = random.below(2098) as i64 - 1074;
    let kind = if e % 2 == 0 {
        Root::EvenPower
    } else {
        Root::OddPower
    };
    (kind, power_of_two(e).to_bits())
}

/// A number m * 4^h whose root lies as near to the middle of two numbers as roots do: m * 2^52 is
/// q^2 + q - c for a whole q of 53 digits and a small c, where the middle's square is
/// q^2 + q + 1/4.
fn near_middle(random: &mut Random) -> (Root, u64) {
    let digits = 1 + random.below(20);
    let size = 2 * random.bits(digits as u32) as i64;
    let c = if random.bits(1) == 0 { size } else { -2 - size };
    let q = solution(c as u64) % (2 * HIDDEN);
    // 2^53 - 1 - q solves it too, and one of the two has 53 digits
    let q = if q < HIDDEN { 2 * HIDDEN - 1 - q } else { q };
    let n = i128::from(q) * i128::from(q + 1) - i128::from(c);
    let m = (n >> 52) as u64;
    let h = random.below(1021) as i64 - 537;
    let kind = if c < 0 {
        Root::AboveMiddle
    } else {
        Root::BelowMiddle
    };
    (kind, (m as f64 * power_of_two(2 * h)).to_bits())
}

/// A q with q^2 + q = c modulo 2^64, for an even c: a step doubles the digits that are right.
fn solution(c: u64) -> u64 {
    let mut q = 0u64;
    for _ in 0..6 {
        let slope = q.wrapping_mul(2).wrapping_add(1);
        let value = q.wrapping_mul(q).wrapping_add(q).wrapping_sub(c);
        q = q.wrapping_sub(value.wrapping_mul(inverse(slope)));
    }
    q
}

/// The inverse of an odd number modulo 2^64, by the same kind of step from three digits.
fn inverse(odd: u64) -> u64 {
    let mut x = odd;
    for _ in 0..5 {
        x = x.wrapping_mul(2u64.wrapping_sub(odd.wrapping_mul(x)));
    }
    x
}

fn answer(input: &[u64], out: &mut [u64], hits: &mut Hits) {
    let x = f64::from_bits(input[0]);
    out[0] = bits(x.sqrt());
    count(input[0], out[0], hits);
}

/// Counts the definition's branches.
fn count(x: u64, root: u64, hits: &mut Hits) {
    let mut hit = |branch: Root| hits.hit(branch as usize);
    match x {
        0 => return hit(Root::PlusZero),
        SIGN => return hit(Root::MinusZero),
        INFINITY => return hit(Root::PlusInfinity),
        _ if x % SIGN > INFINITY => return hit(Root::Nan),
        _ if x == SIGN + INFINITY => return hit(Root::MinusInfinity),
        _ if x > SIGN => return hit(Root::Negative),
        1 => hit(Root::Smallest),
        _ if x == INFINITY - 1 => hit(Root::Largest),
        _ => {}
    }
    if x < HIDDEN {
        hit(Root::Subnormal);
    }
    let (_, e) = parts(x);
    hit(if e % 2 == 0 {
        Root::EvenExponent
    } else {
        Root::OddExponent
    });
    hit(match against_square(x, root) {
        Ordering::Equal => Root::Exact,
        Ordering::Greater => Root::RoundedDown,
        Ordering::Less => Root::RoundedUp,
    });
}

/// Compares x, above 0, with the square of a root next to it, in whole numbers.
fn against_square(x: u64, root: u64) -> Ordering {
    let (m, e) = parts(x);
    let (q, f) = parts(root);
    (u128::from(m) << (e - 2 * f)).cmp(&(u128::from(q) * u128::from(q)))
}
