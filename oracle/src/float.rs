//! The float helpers besides the root, against Rust's own methods. An input is a pattern.

use crate::random::Random;
use crate::subject::{branches, Hits, Subject};

pub const SUBJECTS: &[Subject] = &[
    helper("magnitude", 2, 1, magnitude),
    helper("sign_bit", 3, 1, sign_bit),
    helper("signum", 4, 1, signum),
    helper("is_finite", 5, 1, is_finite),
    helper("signum_bits", 7, 1, signum),
    helper("parts_of", 8, 2, parts_of),
];

pub const SIGN: u64 = 1 << 63;
pub const HIDDEN: u64 = 1 << 52;
pub const INFINITY: u64 = 0x7FF0_0000_0000_0000;
/// The port gives this pattern for every NaN; Rust does not fix one.
pub const NAN: u64 = 0x7FF8_0000_0000_0000;

/// Without a sign: zero, the ends of the subnormal and of the normal numbers, one, infinity, and
/// NaNs of both kinds.
const LISTED: [u64; 11] = [
    0,
    1,
    HIDDEN - 1,
    HIDDEN,
    HIDDEN + 1,
    0x3FF0_0000_0000_0000,
    INFINITY - 1,
    INFINITY,
    INFINITY + 1,
    NAN,
    SIGN - 1,
];

branches!(Argument {
    PlusZero = "+0",
    MinusZero = "-0",
    PlusSubnormal = "subnormal, above 0",
    MinusSubnormal = "subnormal, below 0",
    PlusNormal = "normal, above 0",
    MinusNormal = "normal, below 0",
    PlusInfinity = "+infinity",
    MinusInfinity = "-infinity",
    PlusNan = "NaN, sign not set",
    MinusNan = "NaN, sign set",
});

type Answer = fn(&[u64], &mut [u64], &mut Hits);

pub const fn helper(name: &'static str, operation: u8, words_out: usize, answer: Answer) -> Subject {
    Subject {
        name,
        operation,
        words_in: 1,
        words_out,
        branches: Argument::NAMES,
        input: |random, number, words, _| {
            words[0] = listed(number).unwrap_or_else(|| pattern(random));
        },
        answer,
    }
}

/// The first inputs: each listed pattern with both signs.
pub fn listed(number: u64) -> Option<u64> {
    let sign = if number % 2 == 0 { 0 } else { SIGN };
    let pattern = LISTED.get(usize::try_from(number / 2).ok()?)?;
    Some(pattern | sign)
}

/// Any pattern, a NaN, a subnormal number of any length, or one next to where the exponent changes.
pub fn pattern(random: &mut Random) -> u64 {
    let sign = random.bits(1) << 63;
    match random.below(4) {
        0 => random.word(),
        1 => sign | (INFINITY + 1 + random.below(HIDDEN - 1)),
        2 => sign | subnormal(random),
        _ => sign | (random.below(2048) * HIDDEN).wrapping_sub(random.below(3)) % SIGN,
    }
}

/// A subnormal number above 0, or 0, with as many digits as it may be.
pub fn subnormal(random: &mut Random) -> u64 {
    let digits = 1 + random.below(52);
    random.bits(digits as u32)
}

/// The pattern of a float, as the port gives it.
pub fn bits(x: f64) -> u64 {
    if x.is_nan() {
        NAN
    } else {
        x.to_bits()
    }
}

/// The pattern's magnitude as m * 2^e.
pub fn parts(pattern: u64) -> (u64, i64) {
    let field = pattern / HIDDEN % 2048;
    let digits = pattern % HIDDEN;
    if field == 0 {
        (digits, -1074)
    } else {
        (HIDDEN + digits, field as i64 - 1075)
    }
}

/// The input as a float, its branch counted.
pub fn argument(input: &[u64], hits: &mut Hits) -> f64 {
    let (size, minus) = (input[0] % SIGN, input[0] >= SIGN);
    let branches = match size {
        0 => [Argument::PlusZero, Argument::MinusZero],
        _ if size < HIDDEN => [Argument::PlusSubnormal, Argument::MinusSubnormal],
        _ if size < INFINITY => [Argument::PlusNormal, Argument::MinusNormal],
        INFINITY => [Argument::PlusInfinity, Argument::MinusInfinity],
        _ => [Argument::PlusNan, Argument::MinusNan],
    };
    hits.hit(branches[usize::from(minus)] as usize);
    f64::from_bits(input[0])
}

fn magnitude(input: &[u64], out: &mut [u64], hits: &mut Hits) {
    out[0] = bits(argument(input, hits).abs());
}

/// The port reads no sign off a NaN.
fn sign_bit(input: &[u64], out: &mut [u64], hits: &mut Hits) {
    let x = argument(input, hits);
    out[0] = u64::from(!x.is_nan() && x.is_sign_negative());
}

fn signum(input: &[u64], out: &mut [u64], hits: &mut Hits) {
    out[0] = bits(argument(input, hits).signum());
}

fn is_finite(input: &[u64], out: &mut [u64], hits: &mut Hits) {
    out[0] = u64::from(argument(input, hits).is_finite());
}

fn parts_of(input: &[u64], out: &mut [u64], hits: &mut Hits) {
    argument(input, hits);
    let (m, e) = parts(input[0]);
    out[0] = m;
    out[1] = e as u64;
}
