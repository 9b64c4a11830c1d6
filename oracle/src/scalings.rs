//! What the scaling of a request may meet: the power of two that divides it, the numbers that lose digits by it, the values that lose
//! digits or overflow when they are multiplied back, and what the request would get as it is given. Makes requests that meet it.

use crate::codes::{ANSWER_NOT_FINITE, DONE};
use crate::exact::{rounding, Rounding};
use crate::float::{HIDDEN, SIGN};
use crate::kinds::{divided, Kind, Worked, AS_GIVEN};
use crate::numbers::{all_finite, number, whole, with_sign, zero};
use crate::places::{of_its_subject, with_words};
use crate::powers::{largest, power_of, times, GREATEST, LOWEST};
use crate::random::Random;
use crate::record::{answer, Request, CODE_AT, COUNT_AT, SETTLED_AT};
use crate::shapes::{evenly, turn};
use crate::subject::{branches, Hits};
use crate::ways::{in_way, power_for};

branches!(pub Scaling {
    Zero = "a zero matrix",
    MinusZero = "a zero matrix with -0",
    Units = "from 1 up to 2 as it is given",
    One = "the largest 1",
    BelowTwo = "the largest just below 2",
    Subnormal = "the largest subnormal",
    Smallest = "2^-1074 alone",
    From1023 = "the largest from 2^1023 up",
    Largest = "the largest double",
    DividedToZero = "divided: to a zero",
    DividedExact = "divided: subnormal, exact",
    DividedDown = "divided: rounded down",
    DividedUp = "divided: rounded up",
    DividedTieDown = "divided: a tie, to even below",
    DividedTieUp = "divided: a tie, to even above",
    BackOverflow = "back: 7, a value overflows",
    BackToZero = "back: a value to a zero",
    BackExact = "back: subnormal, exact",
    BackDown = "back: rounded down",
    BackUp = "back: rounded up",
    BackTieDown = "back: a tie, to even below",
    BackTieUp = "back: a tie, to even above",
    Answered = "0, and 7 as given",
    Refused = "7, and 0 as given",
    Settled = "settled, and not as given",
    Unsettled = "not settled, and settled as given",
    // not of kind 1
    Merged = "back: values that differ become equal",
    // of the kinds that count rotations
    Turned = "turned, and not as given",
    Fewer = "fewer rotations than as given",
});

/// Whether a kind can meet it. The difference of the two values of a symmetric 2x2 matrix of whole numbers is a whole number, or the root
/// of one from 4 up: so two values of kind 1 that differ do so by one unit of the smallest numbers at least, or by nearly two.
pub fn possible(of: &Kind, branch: usize) -> bool {
    match branch {
        _ if branch == Scaling::Merged as usize => of.nine > 3,
        _ if branch > Scaling::Merged as usize => of.counts,
        _ => true,
    }
}

/// Counts what a scaled request meets, and says whether a value of it overflows.
pub fn count(of: &Kind, request: &Request, hits: &mut Hits) -> bool {
    let Some(k) = power_for(request) else {
        return false;
    };
    let nine = request.nine.map(number);
    let small = divided(&nine, k);
    count_size(&nine[..of.nine], hits);
    for (x, d) in nine.into_iter().zip(small) {
        count_rounding(Scaling::DividedToZero, x, -k, d, hits);
    }
    count_beside(of, request, hits);
    let Ok(worked) = of.answer(&small, &[0.0; 3]) else {
        return false;
    };
    count_back(of, &worked, k, hits)
}

fn count_size(used: &[f64], hits: &mut Hits) {
    let most = largest(used);
    let minus_zero = used.iter().any(|x| *x == 0.0 && x.is_sign_negative());
    let alone = used.iter().filter(|x| **x != 0.0).count() == 1;
    for (branch, met) in [
        (Scaling::Zero, most == 0.0),
        (Scaling::MinusZero, most == 0.0 && minus_zero),
        (Scaling::Units, (1.0..2.0).contains(&most)),
        (Scaling::One, most == 1.0),
        (Scaling::BelowTwo, most == 2.0 - f64::EPSILON),
        (Scaling::Subnormal, most.is_subnormal()),
        (Scaling::Smallest, most.to_bits() == 1 && alone),
        (Scaling::From1023, most >= times(1.0, GREATEST)),
        (Scaling::Largest, most == f64::MAX),
    ] {
        if met {
            hits.hit(branch as usize);
        }
    }
}

/// Counts what became of x times 2^k, if it is small: by the branches from the one of zeros on.
fn count_rounding(to_zero: Scaling, x: f64, k: i64, got: f64, hits: &mut Hits) {
    let first = to_zero as usize;
    match got.to_bits() % SIGN {
        0 if x == 0.0 => return,
        0 => hits.hit(first),
        HIDDEN.. => return,
        _ => {}
    }
    hits.hit(match rounding(x, k, got).expect("the nearest") {
        Rounding::Exact => first + 1,
        Rounding::Down => first + 2,
        Rounding::Up => first + 3,
        Rounding::TieDown => first + 4,
        Rounding::TieUp => first + 5,
    });
}

fn count_back(of: &Kind, worked: &Worked, k: i64, hits: &mut Hits) -> bool {
    let before = worked.values;
    let back = before.map(|x| times(x, k));
    if !all_finite(&back) {
        hits.hit(Scaling::BackOverflow as usize);
        return true;
    }
    for (x, b) in before.into_iter().zip(back) {
        count_rounding(Scaling::BackToZero, x, k, b, hits);
    }
    let merged = |i: usize, j: usize| before[i] != before[j] && back[i] == back[j];
    // a 2x2 matrix has no third value
    if merged(0, 1) || of.counts && (merged(0, 2) || merged(1, 2)) {
        hits.hit(Scaling::Merged as usize);
    }
    false
}

/// Counts how the answer differs from the one of the other way, which is the same if nothing is divided.
fn count_beside(of: &Kind, request: &Request, hits: &mut Hits) {
    let scaled = answer(&request.bytes());
    let given = answer(&in_way(request, AS_GIVEN).bytes());
    if power_of(&request.nine.map(number)) == 0 {
        assert_eq!(scaled, given, "not the same both ways: {:X?}", request.nine);
    }
    let codes = [&scaled, &given].map(|answer| u64::from(answer[CODE_AT]));
    let done = codes == [DONE, DONE];
    let counted = done && of.counts;
    let marks = [&scaled, &given].map(|answer| answer[SETTLED_AT]);
    let counts = [&scaled, &given].map(|answer| answer[COUNT_AT]);
    for (branch, met) in [
        (Scaling::Answered, codes == [DONE, ANSWER_NOT_FINITE]),
        (Scaling::Refused, codes == [ANSWER_NOT_FINITE, DONE]),
        (Scaling::Settled, done && marks == [1, 0]),
        (Scaling::Unsettled, done && marks == [0, 1]),
        (Scaling::Turned, counted && counts[0] > 0 && counts[1] == 0),
        (Scaling::Fewer, counted && counts[0] < counts[1]),
    ] {
        if met {
            hits.hit(branch as usize);
        }
    }
}

// ---- the makers

/// A request of a kind that is scaled, whose numbers are hard to scale.
pub fn hard(random: &mut Random, kind: u8) -> Request {
    let of = Kind::of(kind).expect("a known kind");
    let mut numbers = match random.below(11) {
        0 => units(random, kind, false),
        1 => units(random, kind, true),
        2 => alone(random, of.nine),
        3 => with_power(random, kind, LOWEST, -1020),
        4 => with_power(random, kind, 1018, GREATEST),
        5 => from_1_to_2(random, kind),
        6 => far_apart(random, kind),
        7 => (0..of.nine).map(|_| zero(random)).collect(),
        8 => turned(random, kind),
        9 => small_diagonal(random, kind),
        _ => with_power(random, kind, LOWEST, GREATEST),
    };
    if random.below(16) == 0 {
        let at = random.below(of.nine as u64) as usize;
        numbers[at] = with_sign(random, f64::MAX);
    }
    let words: Vec<u64> = numbers.into_iter().map(f64::to_bits).collect();
    with_words(kind, &words)
}

fn of_size(kind: u8) -> usize {
    2 + usize::from(kind % 2 == 0)
}

/// The numbers of a matrix of a kind, of all its columns: the upper triangle where it is symmetric.
fn of_entries(kind: u8, entry: impl Fn(usize, usize) -> f64) -> Vec<f64> {
    let size = of_size(kind);
    let rows = |c: usize| if kind < 3 { c + 1 } else { size };
    let places = (0..size).flat_map(|c| (0..rows(c)).map(move |r| (r, c)));
    places.map(|(r, c)| entry(r, c)).collect()
}

/// Few units of the smallest number, or of any power of two; of rank one, if that is asked for.
fn units(random: &mut Random, kind: u8, of_rank_one: bool) -> Vec<f64> {
    let k = match random.below(4) {
        0 => whole(random, LOWEST, 1000),
        _ => LOWEST,
    };
    let most = 1 << random.below(10);
    let any: [f64; 9] = [0; 9].map(|_| whole(random, -most, most) as f64);
    of_entries(kind, |r, c| {
        let right = if kind < 3 { any[c] } else { any[3 + c] };
        let product = any[r] * right;
        times(if of_rank_one { product } else { any[3 * c + r] }, k)
    })
}

/// One number beside zeros of both signs.
fn alone(random: &mut Random, count: usize) -> Vec<f64> {
    let mut numbers: Vec<f64> = (0..count).map(|_| zero(random)).collect();
    let k = [LOWEST, GREATEST, whole(random, LOWEST, GREATEST)][random.below(3) as usize];
    let at = random.below(count as u64) as usize;
    numbers[at] = with_sign(random, times(1.0, k));
    numbers
}

/// An input of the kind's subject, its largest number from a power of two up that lies between these.
fn with_power(random: &mut Random, kind: u8, low: i64, high: i64) -> Vec<f64> {
    let of = Kind::of(kind).expect("a known kind");
    let power = whole(random, low, high);
    loop {
        let given = of_its_subject(random, kind, u64::MAX).nine.map(number);
        if all_finite(&given) {
            let by = power - power_of(&given);
            return given[..of.nine].iter().map(|x| times(*x, by)).collect();
        }
    }
}

/// A matrix that is not scaled, now and then with the largest number that such a one can have.
fn from_1_to_2(random: &mut Random, kind: u8) -> Vec<f64> {
    let mut numbers = with_power(random, kind, 0, 0);
    if random.below(4) == 0 {
        let at = random.below(numbers.len() as u64) as usize;
        numbers[at] = with_sign(random, 2.0 - f64::EPSILON);
    }
    numbers
}

/// Numbers on the diagonal that no rotation looks at, beside those off it: when the matrix is scaled, and mostly not as it is given.
fn small_diagonal(random: &mut Random, kind: u8) -> Vec<f64> {
    let (power, less) = (whole(random, -900, GREATEST), whole(random, 51, 60));
    let any: [f64; 9] = evenly(random);
    let by = power - power_of(&any);
    // symmetric, so that no turn of the polar step mixes the two
    of_entries(kind, |r, c| {
        let power = if r == c { by - less } else { by };
        times(any[3 * c.max(r) + c.min(r)], power)
    })
}

/// Numbers that lose their last digits when they are divided by the power of two of the largest: more often than not a tie, with one 1 among
/// what is lost.
fn far_apart(random: &mut Random, kind: u8) -> Vec<f64> {
    let of = Kind::of(kind).expect("a known kind");
    let power = whole(random, 60, GREATEST);
    let mut numbers: Vec<f64> = (0..of.nine)
        .map(|_| {
            let lost = whole(random, 1, 53);
            let tail = match random.below(3) {
                0 => random.bits(lost as u32),
                _ => 1 << (lost - 1),
            };
            let digits = random.bits(53) >> lost << lost | tail;
            with_sign(random, times(digits as f64, LOWEST - lost + power))
        })
        .collect();
    let at = random.below(of.nine as u64) as usize;
    let [most] = evenly::<1>(random);
    numbers[at] = times(most, power - power_of(&[most]));
    numbers
}

/// A turn in the plane of about the smallest normal number, or a unit beside it: its two values are nearly one. In space there is a third.
fn turned(random: &mut Random, kind: u8) -> Vec<f64> {
    let [h, size, third] = evenly::<3>(random);
    let (c, s) = turn(h - h.trunc());
    let size = times(size, -1023 - power_of(&[size]));
    let unit = |random: &mut Random| times(whole(random, -1, 1) as f64, LOWEST);
    let off = [unit(random), unit(random)];
    of_entries(kind, |r, col| match (r, col) {
        (0, 0) => c * size + off[0],
        (1, 1) => c * size,
        (1, 0) => s * size,
        (0, 1) => -s * size + off[1],
        (2, 2) => third * size,
        _ => 0.0,
    })
}

/// Hard requests of a kind, each of which meets what those before it met fewer than so many times. What is then missing shows in `reached`.
pub fn reaching(kind: u8, often: u64) -> Vec<Request> {
    const INPUTS: u64 = 1 << 17;
    let of = Kind::of(kind).expect("a known kind");
    let mut random = Random::new(u64::from(kind));
    let mut hits = Hits(vec![0; Scaling::NAMES.len()]);
    let mut kept = Vec::new();
    for _ in 0..INPUTS {
        let request = hard(&mut random, kind);
        let before = hits.0.clone();
        count(of, &request, &mut hits);
        let mut seldom = before.iter().zip(&hits.0);
        if seldom.any(|(b, a)| a > b && *b < often) {
            kept.push(request);
        } else {
            hits.0 = before;
        }
        let mut all = hits.0.iter().enumerate();
        if all.all(|(branch, hit)| *hit >= often || !possible(of, branch)) {
            break;
        }
    }
    kept
}
