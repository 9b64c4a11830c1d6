//! Holds `powers` to whole numbers of any length: for each k that occurs, each sort of number times 2^k.
//!
//! A number is a whole multiple of 2^-1074, and its product with 2^k one of 2^-2149 with a digit to spare. So nothing is rounded here.

use crate::driver::SHOWN;
use crate::float::{parts, HIDDEN, INFINITY, SIGN};
use crate::numbers::finite;
use crate::powers::{power_under, times, GREATEST, LOWEST};
use crate::random::Random;
use crate::subject::{branches, Hits};
use std::cmp::Ordering;

/// The pattern of the largest number.
const LARGEST: u64 = INFINITY - 1;

/// Words enough for the largest number times 2^1074, in multiples of 2^UNIT.
const WORDS: usize = 68;
const UNIT: i64 = 2 * LOWEST - 1;

/// A whole number, the lowest word first. The order of two is that of their words from the highest down.
type Whole = [u64; WORDS];

/// m * 2^e in multiples of 2^UNIT.
fn whole(m: u64, e: i64) -> Whole {
    let mut words = [0; WORDS];
    let at = (e - UNIT) as usize;
    let wide = u128::from(m) << (at % 64);
    words[at / 64] = wide as u64;
    if at / 64 + 1 < WORDS {
        words[at / 64 + 1] = (wide >> 64) as u64;
    }
    words
}

/// A finite pattern's magnitude; that of infinity is the power of two that would be next.
fn of_pattern(pattern: u64, k: i64) -> Whole {
    let (m, e) = match pattern % SIGN {
        INFINITY => (1, GREATEST + 1),
        finite => parts(finite),
    };
    whole(m, e + k)
}

fn compare(a: &Whole, b: &Whole) -> Ordering {
    a.iter().rev().cmp(b.iter().rev())
}

/// Half of the sum: the middle of two numbers is a multiple of 2^UNIT too.
fn middle(a: &Whole, b: &Whole) -> Whole {
    let mut words = [0; WORDS];
    let mut carry = false;
    for i in 0..WORDS {
        let (sum, over) = a[i].overflowing_add(b[i]);
        let (sum, more) = sum.overflowing_add(u64::from(carry));
        (words[i], carry) = (sum, over || more);
    }
    for i in 0..WORDS {
        let above = words.get(i + 1).copied().unwrap_or(u64::from(carry));
        words[i] = words[i] >> 1 | above << 63;
    }
    words
}

/// What became of an exact product when it was rounded to a number.
#[derive(Clone, Copy, PartialEq)]
pub enum Rounding {
    Exact,
    Down,
    Up,
    TieDown,
    TieUp,
}

/// What became of x times 2^k, where `got` stands for it: nothing if another number is nearer, or as near and even, or of another sign.
/// The numbers are finite, but for `got`, which may be infinite.
pub fn rounding(x: f64, k: i64, got: f64) -> Option<Rounding> {
    let (given, got) = (x.to_bits(), got.to_bits());
    let (size, even) = (got % SIGN, got % 2 == 0);
    if given & SIGN != got & SIGN || size > INFINITY {
        return None;
    }
    let exact = of_pattern(given, k);
    let from_middle = |below: u64, above: u64| {
        let [below, above] = [below, above].map(|pattern| of_pattern(pattern, 0));
        compare(&exact, &middle(&below, &above))
    };
    match compare(&exact, &of_pattern(size, 0)) {
        Ordering::Equal => Some(Rounding::Exact),
        Ordering::Less => match from_middle(size - 1, size) {
            Ordering::Greater => Some(Rounding::Up),
            Ordering::Equal if even => Some(Rounding::TieUp),
            _ => None,
        },
        // nothing is too large to become infinite
        Ordering::Greater if size == INFINITY => Some(Rounding::Up),
        Ordering::Greater => match from_middle(size, size + 1) {
            Ordering::Less => Some(Rounding::Down),
            Ordering::Equal if even => Some(Rounding::TieDown),
            _ => None,
        },
    }
}

branches!(Product {
    Exact = "exact",
    Down = "rounded down",
    Up = "rounded up",
    TieDown = "a tie, to even below",
    TieUp = "a tie, to even above",
    OfZero = "of a zero",
    ToZero = "to a zero",
    ToSubnormal = "to a subnormal number",
    ToSmallest = "rounded up to the smallest normal number",
    Largest = "to the largest number",
    Overflow = "to an infinity",
});

/// Counts a product by what it became.
fn count(x: f64, rounding: Rounding, got: f64, hits: &mut Hits) {
    let mut hit = |branch: Product| hits.hit(branch as usize);
    hit(match rounding {
        _ if x == 0.0 => Product::OfZero,
        _ if got.is_infinite() => Product::Overflow,
        Rounding::Exact => Product::Exact,
        Rounding::Down => Product::Down,
        Rounding::Up => Product::Up,
        Rounding::TieDown => Product::TieDown,
        Rounding::TieUp => Product::TieUp,
    });
    match got.to_bits() % SIGN {
        0 if x != 0.0 => hit(Product::ToZero),
        1..HIDDEN => hit(Product::ToSubnormal),
        HIDDEN if rounding != Rounding::Exact => hit(Product::ToSmallest),
        LARGEST => hit(Product::Largest),
        _ => {}
    }
}

/// Zeros, the ends of the subnormal and of the normal numbers and what is beside them, and numbers of each few digits: ties are among
/// the products of these.
fn listed() -> Vec<u64> {
    let one = 1.0f64.to_bits();
    let ends = [0, 1, 2, 3, HIDDEN / 2, HIDDEN - 1, HIDDEN, HIDDEN + 1];
    let others = [2 * HIDDEN - 1, 2 * HIDDEN, one - 1, one, one + 1];
    let largest = (1..4).map(|less| INFINITY - less);
    let powers = (1..=2046).step_by(31).map(|field| field * HIDDEN);
    let few_digits = (0..52).flat_map(|n| [1 << n, 3 << n, 5 << n, (1 << (n + 1)) - 1]);
    let few_digits = few_digits.map(|digits: u64| digits % HIDDEN);
    let subnormal_and_from_1 = few_digits.flat_map(|digits| [digits, one + digits]);
    let all = ends.into_iter().chain(others).chain(largest).chain(powers);
    all.chain(subnormal_and_from_1).collect()
}

/// Whether x times 2^k is right; it is counted then, and shown if not.
fn is_right(x: f64, k: i64, hits: &mut Hits) -> bool {
    let got = times(x, k);
    let Some(rounding) = rounding(x, k, got) else {
        let [x, got] = [x, got].map(f64::to_bits);
        println!("powers: {x:016X} times 2^{k} is not {got:016X}");
        return false;
    };
    count(x, rounding, got, hits);
    true
}

/// Whether 2^k is under x, and 2^(k + 1) is not.
fn is_power_under(x: f64) -> bool {
    let (k, size) = (power_under(x), of_pattern(x.to_bits(), 0));
    if x == 0.0 {
        return k == 0;
    }
    compare(&whole(1, k), &size).is_le() && compare(&size, &whole(1, k + 1)).is_lt()
}

/// Each listed number and so many at random, of both signs, times each 2^k from -1074 to 1074; and the power of two under each of them.
/// Prints the counts, and says whether all is right and each branch was hit.
pub fn show(count: u64, seed: u64) -> bool {
    let mut random = Random::new(seed);
    let mut numbers: Vec<u64> = listed();
    numbers.extend((0..count).map(|_| finite(&mut random).to_bits()));
    let numbers = numbers.into_iter().flat_map(|x| [x, SIGN ^ x]);
    let mut hits = Hits(vec![0; Product::NAMES.len()]);
    let (mut products, mut wrong) = (0u64, 0u64);
    for x in numbers.map(f64::from_bits) {
        for k in LOWEST..=-LOWEST {
            products += 1;
            wrong += u64::from(!is_right(x, k, &mut hits));
        }
        wrong += u64::from(!is_power_under(x));
        if wrong > SHOWN {
            break;
        }
    }
    let mut missed = 0;
    for (branch, hit) in Product::NAMES.iter().zip(&hits.0) {
        println!("powers: {branch:<41} {hit}");
        missed += usize::from(*hit == 0);
    }
    let branches = Product::NAMES.len();
    println!("powers: {products} products, {wrong} wrong, {branches} branches, {missed} never hit");
    products > 0 && wrong == 0 && missed == 0
}
