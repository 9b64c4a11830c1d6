//! The mark of the calls that rotate. Their inputs here stand on both sides of what makes a rotation blind, and a branch is counted
//! only where it decides the mark. Each of these subjects has the operation and the answer of another one, which counts all else.

use crate::algebra::dense::fixed::dense3x3::eigen::{find_largest_off_diag, get_rotation_elements};
use crate::algebra::dense::fixed::dense3x3::svd::find_largest_off_diag_nonsym;
use crate::algebra::{DenseMatrix3, DenseMatrixSym3};
use crate::codes::{ANSWER_NOT_FINITE, INPUT_NOT_FINITE};
use crate::eigen::{self, isotropic};
use crate::float::SIGN;
use crate::numbers::{
    about, beside, even, finite, numbers, power_of_two, put, spoil, whole, with_sign, zero,
};
use crate::random::Random;
use crate::rotations::{blind, LIMIT, MOST, PAIRS};
use crate::shapes::{any_subnormal, turn};
use crate::subject::{branches, first, Hits, Subject};
use crate::svd::{self, symmetrised};
use std::sync::LazyLock;

/// The operations.
const EIGEN3: u8 = 48;
const EIGVALS3: u8 = 49;
const EIGEN2: u8 = 50;
const EIGVALS2: u8 = 51;
const SVD3: u8 = 64;
const SVD2: u8 = 65;

pub const SUBJECTS: &[Subject] = &[
    Subject {
        name: "eigen_jacobi_mark",
        operation: EIGEN3,
        words_in: 6,
        words_out: 21,
        branches: first(Mark3::NAMES, Mark3::Symmetrised as usize),
        input: eigen3_input,
        answer: answer::<EIGEN3>,
    },
    Subject {
        name: "eigvals_jacobi_mark",
        operation: EIGVALS3,
        words_in: 6,
        words_out: 12,
        branches: first(Mark3::NAMES, Mark3::Symmetrised as usize),
        input: eigen3_input,
        answer: answer::<EIGVALS3>,
    },
    Subject {
        name: "eigen2_mark",
        operation: EIGEN2,
        words_in: 3,
        words_out: 8,
        branches: first(Mark2::NAMES, Mark2::Symmetrised as usize),
        input: eigen2_input,
        answer: answer::<EIGEN2>,
    },
    Subject {
        name: "eigvals2_mark",
        operation: EIGVALS2,
        words_in: 3,
        words_out: 4,
        branches: first(Mark2::NAMES, Mark2::Symmetrised as usize),
        input: eigen2_input,
        answer: answer::<EIGVALS2>,
    },
    Subject {
        name: "svd3_mark",
        operation: SVD3,
        words_in: 9,
        words_out: 33,
        branches: Mark3::NAMES,
        input: svd3_input,
        answer: answer::<SVD3>,
    },
    Subject {
        name: "svd2_mark",
        operation: SVD2,
        words_in: 4,
        words_out: 12,
        branches: Mark2::NAMES,
        input: svd2_input,
        answer: answer::<SVD2>,
    },
];

// What both sizes have comes first, and in the same order.
branches!(Mark2 {
    One = "mark 1",
    Zero = "mark 0",
    Given = "5: the mark is 0",
    Answer = "7: the mark is 0",
    Below = "blind: just below 2^-52",
    OneZero = "blind: one number 0",
    OneMinusZero = "blind: one number -0",
    Subnormal = "blind: subnormal numbers",
    Opposite = "blind: x and -x",
    Next = "blind: neighbours",
    AtEpsilon = "not blind: 2^-52 itself",
    Above = "not blind: just above 2^-52",
    Equal = "not blind: equal, not 0",
    EqualSubnormal = "not blind: equal, subnormal",
    Zeros = "not blind: 0 and 0, or -0 and -0",
    BothZeros = "not blind: 0 and -0",
    SubnormalBeside = "blind: subnormal beside the diagonal",
    ZeroBeside = "not blind: 0 beside the diagonal",
    MinusZeroBeside = "not blind: -0 beside the diagonal",
    Symmetrised = "blind: symmetrised, not as given",
    AsGiven = "not blind: as given, not symmetrised",
});

// A pair that a 3x3 run rotates has 2^-44 beside the diagonal, and keeps its size when it is symmetrised: a 0 there leaves no two
// small numbers on the diagonal that differ. The last four are of an SVD: no symmetric run is known that has a blind rotation and
// makes 25.
branches!(Mark3 {
    One = "mark 1",
    Zero = "mark 0",
    Given = "5: the mark is 0",
    Answer = "7: the mark is 0",
    Below = "blind: just below 2^-52",
    OneZero = "blind: one number 0",
    OneMinusZero = "blind: one number -0",
    Subnormal = "blind: subnormal numbers",
    Opposite = "blind: x and -x",
    Next = "blind: neighbours",
    AtEpsilon = "not blind: 2^-52 itself",
    Above = "not blind: just above 2^-52",
    Equal = "not blind: equal, not 0",
    EqualSubnormal = "not blind: equal, subnormal",
    Zeros = "not blind: 0 and 0, or -0 and -0",
    BothZeros = "not blind: 0 and -0",
    Pair12 = "blind: pair 12",
    Pair13 = "blind: pair 13",
    Pair23 = "blind: pair 23",
    Only = "blind: the only rotation",
    NotLast = "blind: not the last rotation",
    NotFirst = "blind: not the first rotation",
    Left = "not blind: a pair that is left",
    Refused = "7: behind a blind rotation",
    Unsettled = "25 rotations, unsettled, none blind",
    Symmetrised = "blind: symmetrised, not as given",
    AsGiven = "not blind: as given, not symmetrised",
    BlindUnsettled = "25 rotations, unsettled, one blind",
    BlindSettled = "25 rotations, settled, one blind",
});

const _: () = assert!(Mark2::BothZeros as usize == Mark3::BothZeros as usize);

// ---- the answer, and what decides its mark

/// A rotation of a call: its pair's place, the numbers beside the diagonal and on it that it is chosen by, and those of the pair as it
/// is given, which only an SVD has otherwise.
struct Rotation {
    pair: usize,
    chosen: [f64; 3],
    given: [f64; 3],
}

impl Rotation {
    fn of_eigen(pair: usize, chosen: [f64; 3]) -> Self {
        Self {
            pair,
            chosen,
            given: chosen,
        }
    }

    fn of_svd(pair: usize, [app, aqp, apq, aqq]: [f64; 4]) -> Self {
        Self {
            pair,
            chosen: symmetrised(app, aqp, apq, aqq).into(),
            given: [apq, app, aqq],
        }
    }

    fn is_blind(&self) -> bool {
        let [apq, app, aqq] = self.chosen;
        blind(apq, app, aqq)
    }

    fn is_blind_as_given(&self) -> bool {
        let [apq, app, aqq] = self.given;
        blind(apq, app, aqq)
    }
}

/// The rotations that a call makes of finite numbers, whether its last matrix is settled, as that of a 2x2 call is, and of a 3x3 one
/// the rotation that would be next.
struct Made {
    rotations: Vec<Rotation>,
    settled: bool,
    next: Option<Rotation>,
}

fn made(operation: u8, input: &[u64]) -> Made {
    let one = |rotation| Made {
        rotations: vec![rotation],
        settled: true,
        next: None,
    };
    match operation {
        EIGEN2 | EIGVALS2 => {
            let [app, apq, aqq] = numbers(input);
            one(Rotation::of_eigen(0, [apq, app, aqq]))
        }
        SVD2 => one(Rotation::of_svd(0, numbers(input))),
        SVD3 => made_svd(numbers(input)),
        _ => made_eigen(numbers(input)),
    }
}

fn made_eigen(a: [f64; 6]) -> Made {
    let at_place = |a: &DenseMatrixSym3<f64>, at| {
        Rotation::of_eigen(eigen::pair_at(at), get_rotation_elements(a, at).into())
    };
    let mut rotations = Vec::new();
    let end = eigen::run(a, |a, at| rotations.push(at_place(a, at)));
    let (at, ..) = find_largest_off_diag(&end.a);
    Made {
        rotations,
        settled: end.settled,
        next: Some(at_place(&end.a, at)),
    }
}

fn made_svd(a: [f64; 9]) -> Made {
    let at_pair = |a: &DenseMatrix3<f64>, p, q| {
        let pair = [a[(p, p)], a[(q, p)], a[(p, q)], a[(q, q)]];
        Rotation::of_svd(svd::pair_at(p, q), pair)
    };
    let mut rotations = Vec::new();
    let end = svd::run(a, |a, p, q| rotations.push(at_pair(a, p, q)));
    let (p, q, _) = find_largest_off_diag_nonsym(&end.a);
    Made {
        rotations,
        settled: end.settled,
        next: Some(at_pair(&end.a, p, q)),
    }
}

/// The answer of the operation's own subject, whose branches are not counted here.
fn plain(operation: u8, input: &[u64], out: &mut [u64]) {
    let mut all = eigen::SUBJECTS.iter().chain(svd::SUBJECTS);
    let subject = all.find(|subject| subject.operation == operation);
    let subject = subject.expect("a subject of that operation");
    let mut uncounted = Hits(vec![0; subject.branches.len()]);
    (subject.answer)(input, out, &mut uncounted);
}

fn answer<const OPERATION: u8>(input: &[u64], out: &mut [u64], hits: &mut Hits) {
    plain(OPERATION, input, out);
    if out[0] == INPUT_NOT_FINITE {
        return hits.hit(Mark2::Given as usize);
    }
    let made = made(OPERATION, input);
    let rotations = made.rotations.iter();
    let blind: Vec<&Rotation> = rotations.filter(|one| one.is_blind()).collect();
    let is_3x3 = made.next.is_some();
    if out[0] == ANSWER_NOT_FINITE {
        hits.hit(Mark2::Answer as usize);
        if is_3x3 && !blind.is_empty() {
            hits.hit(Mark3::Refused as usize);
        }
        return;
    }
    let mark = made.settled && blind.is_empty();
    let got = out[1 + usize::from(is_3x3)];
    assert_eq!(got, u64::from(mark), "not the mark, of {input:X?}");
    hits.hit(if mark { Mark2::One } else { Mark2::Zero } as usize);
    for one in made.rotations.iter().filter(|_| mark) {
        count_seen(one, is_3x3, hits);
    }
    if let (true, [one]) = (made.settled, &blind[..]) {
        count_blind(one, is_3x3, hits);
    }
    if let Some(next) = &made.next {
        count_run(&made, blind.len(), next, hits);
    }
}

/// Counts the one blind rotation of a run that settles.
fn count_blind(rotation: &Rotation, is_3x3: bool, hits: &mut Hits) {
    let [apq, app, aqq] = rotation.chosen;
    let larger = app.abs().max(aqq.abs());
    let is = |bits: u64| app.to_bits() == bits || aqq.to_bits() == bits;
    for (branch, met) in [
        (Mark2::Below, larger == BELOW),
        (Mark2::OneZero, is(0)),
        (Mark2::OneMinusZero, is(SIGN)),
        (Mark2::Subnormal, larger < f64::MIN_POSITIVE),
        (Mark2::Opposite, app == -aqq),
        (Mark2::Next, app.to_bits().abs_diff(aqq.to_bits()) == 1),
        (Mark2::SubnormalBeside, !is_3x3 && apq.is_subnormal()),
    ] {
        if met {
            hits.hit(branch as usize);
        }
    }
    if is_3x3 {
        hits.hit(Mark3::Pair12 as usize + rotation.pair);
    }
    if !rotation.is_blind_as_given() {
        hits.hit(of_svd(is_3x3));
    }
}

/// Counts a rotation of a run with the mark 1 for which only one of the three conditions does not hold.
fn count_seen(rotation: &Rotation, is_3x3: bool, hits: &mut Hits) {
    let [apq, app, aqq] = rotation.chosen;
    let larger = app.abs().max(aqq.abs());
    let branch = match (apq != 0.0, larger < f64::EPSILON, app != aqq) {
        (true, false, true) if larger == f64::EPSILON => Some(Mark2::AtEpsilon),
        (true, false, true) if larger == ABOVE => Some(Mark2::Above),
        (true, true, false) if app.to_bits() != aqq.to_bits() => Some(Mark2::BothZeros),
        (true, true, false) if app == 0.0 => Some(Mark2::Zeros),
        (true, true, false) if app.is_subnormal() => Some(Mark2::EqualSubnormal),
        (true, true, false) => Some(Mark2::Equal),
        (false, true, true) if is_3x3 => None,
        (false, true, true) if apq.is_sign_negative() => Some(Mark2::MinusZeroBeside),
        (false, true, true) => Some(Mark2::ZeroBeside),
        _ => None,
    };
    if let Some(branch) = branch {
        hits.hit(branch as usize);
    }
    if rotation.is_blind_as_given() {
        hits.hit(of_svd(is_3x3) + 1);
    }
}

/// The first of the branches that only an SVD has: a symmetric matrix is symmetrised as it is given.
fn of_svd(is_3x3: bool) -> usize {
    if is_3x3 {
        Mark3::Symmetrised as usize
    } else {
        Mark2::Symmetrised as usize
    }
}

/// Counts where the one blind rotation of a 3x3 run stands, one that is not made, and the runs of the most rotations.
fn count_run(made: &Made, blind: usize, next: &Rotation, hits: &mut Hits) {
    let rotations = &made.rotations[..];
    let mut hit = |branch: Mark3| {
        // the list of a symmetric run has none that only an SVD was seen to meet
        if let Some(count) = hits.0.get_mut(branch as usize) {
            *count += 1;
        }
    };
    let longest = rotations.len() as u64 == MOST;
    match (made.settled, blind) {
        (false, 0) => return hit(Mark3::Unsettled),
        (false, _) => return hit(Mark3::BlindUnsettled),
        (true, 0) if next.is_blind() => return hit(Mark3::Left),
        (true, 0) => return,
        (true, _) if longest => hit(Mark3::BlindSettled),
        _ => {}
    }
    if let [_] = rotations {
        return hit(Mark3::Only);
    }
    if !rotations.last().is_some_and(Rotation::is_blind) {
        hit(Mark3::NotLast);
    }
    if !rotations.first().is_some_and(Rotation::is_blind) {
        hit(Mark3::NotFirst);
    }
}

// ---- the listed inputs, each with its negation

const LEAST: f64 = f64::from_bits(1);
const SUBNORMAL: f64 = f64::from_bits(f64::MIN_POSITIVE.to_bits() - 1);
const BELOW: f64 = f64::from_bits(f64::EPSILON.to_bits() - 1);
const ABOVE: f64 = f64::from_bits(f64::EPSILON.to_bits() + 1);

/// 2^-60.
const SMALL: f64 = f64::EPSILON / 256.0;

/// Diagonals that make a rotation blind.
const BLIND: [[f64; 2]; 12] = [
    [BELOW, 0.0],
    [-0.0, BELOW],
    [BELOW, -BELOW],
    [BELOW, f64::from_bits(BELOW.to_bits() - 1)],
    [SMALL, f64::EPSILON / 2.0],
    [-SMALL, SMALL],
    [LEAST, 0.0],
    [-0.0, LEAST],
    [-LEAST, LEAST],
    [SUBNORMAL, LEAST],
    [SUBNORMAL, f64::MIN_POSITIVE],
    [LEAST, BELOW],
];

/// Diagonals that do not: with a number that is not under 2^-52, and of two that are equal.
const SEEN: [[f64; 2]; 16] = [
    [f64::EPSILON, 0.0],
    [-0.0, f64::EPSILON],
    [f64::EPSILON, BELOW],
    [BELOW, f64::EPSILON],
    [f64::EPSILON, -f64::EPSILON],
    [ABOVE, BELOW],
    [LEAST, ABOVE],
    [SMALL, 1.0],
    [0.0, 0.0],
    [0.0, -0.0],
    [-0.0, 0.0],
    [BELOW, BELOW],
    [SMALL, SMALL],
    [SUBNORMAL, SUBNORMAL],
    [LEAST, LEAST],
    [f64::EPSILON, f64::EPSILON],
];

/// What stands beside them in a 2x2 matrix, and in a 3x3 one, where less than 2^-44 is not rotated.
const BESIDE2: [f64; 5] = [1.0, 0.0, -0.0, LEAST, -SUBNORMAL];
const BESIDE3: [f64; 4] = [1.0, -LIMIT, 3.0 * LIMIT, -f64::MAX / 4.0];

/// The third number of a diagonal.
const THIRDS: [f64; 5] = [0.0, -3.0, SMALL, -f64::EPSILON, 0.5];

/// Three equal numbers of a pair leave a 0 on the diagonal. So the next rotation has it, and the third number of the diagonal.
const LATE: [f64; 7] = [SMALL, -LEAST, BELOW, f64::EPSILON, ABOVE, 0.0, -0.0];

/// A blind rotation and then others; what would be one but is under 2^-44, and so is not made; a blind rotation and then what
/// overflows; only what overflows; and 25 rotations that do not settle.
const OTHERS: [[f64; 6]; 7] = [
    [SMALL, 1.0, 0.0, 0.5, 0.25, 2.0],
    [SMALL, LIMIT / 4.0, 0.0, 0.0, 0.0, 1.0],
    [1.0, 0.0, SMALL, 0.0, -LIMIT / 4.0, LEAST],
    [SMALL, f64::MAX, 0.0, f64::MAX, f64::MAX, 0.0],
    [f64::MAX; 6],
    isotropic(30, 1, 24),
    isotropic(31, 3, 24),
];

/// Of these a blind SVD is made that takes 25 rotations: the first two settle.
const LONGEST: [[f64; 6]; 4] = [
    isotropic(22, 1, 32),
    isotropic(22, 5, 34),
    isotropic(30, 3, 25),
    isotropic(30, 1, 24),
];

static EIGEN2S: LazyLock<Vec<[f64; 3]>> = LazyLock::new(|| with_negations(eigen2s()));
static EIGEN3S: LazyLock<Vec<[f64; 6]>> = LazyLock::new(|| with_negations(eigen3s()));
static SVD2S: LazyLock<Vec<[f64; 4]>> = LazyLock::new(|| with_negations(svd2s()));
static SVD3S: LazyLock<Vec<[f64; 9]>> = LazyLock::new(|| with_negations(svd3s()));

/// The numbers of an operation's listed inputs.
pub fn listed(operation: u8) -> Vec<Vec<f64>> {
    match operation {
        EIGEN2 | EIGVALS2 => EIGEN2S.iter().map(|a| a.to_vec()).collect(),
        SVD2 => SVD2S.iter().map(|a| a.to_vec()).collect(),
        SVD3 => SVD3S.iter().map(|a| a.to_vec()).collect(),
        _ => EIGEN3S.iter().map(|a| a.to_vec()).collect(),
    }
}

fn diagonals() -> impl Iterator<Item = [f64; 2]> {
    BLIND.into_iter().chain(SEEN)
}

fn with_negations<const K: usize>(matrices: Vec<[f64; K]>) -> Vec<[f64; K]> {
    let both = |a: [f64; K]| [a, a.map(|x| -x)];
    matrices.into_iter().flat_map(both).collect()
}

fn eigen2s() -> Vec<[f64; 3]> {
    let with = |apq: f64| diagonals().map(move |[app, aqq]| [app, apq, aqq]);
    let mut all: Vec<_> = BESIDE2.into_iter().flat_map(with).collect();
    all.extend([[f64::MAX; 3], [f64::MAX, -f64::MAX, f64::MAX]]);
    all
}

/// Each diagonal in each pair, alone or with smaller numbers beside the others; then rotations that come later.
fn eigen3s() -> Vec<[f64; 6]> {
    let mut all = Vec::new();
    for (number, [app, aqq]) in diagonals().enumerate() {
        for pair in 0..3 {
            let place = 3 * number + pair;
            let (apq, third) = (BESIDE3[place % 4], THIRDS[place % 5]);
            let others = match number % 2 {
                0 => [0.0, -0.0],
                _ => [apq / 4.0, -apq / 8.0],
            };
            all.push(placed(pair, [app, apq, aqq], third, others));
        }
    }
    all.extend(LATE.map(|third| [1.0, 1.0, 1.0, 0.5, -0.5, third]));
    all.extend(OTHERS);
    all
}

/// The symmetric ones; then each diagonal behind a quarter turn, which only the polar step takes back; then what has a blind pair as it
/// is given, but is symmetrised to numbers of the size of 1.
fn svd2s() -> Vec<[f64; 4]> {
    let mut all: Vec<_> = eigen2s().into_iter().map(square2).collect();
    all.extend(diagonals().map(|[app, aqq]| turned([app, 1.0, aqq], (0.0, 1.0))));
    for [app, aqq] in BLIND {
        all.push([app, -1.0, 1.0, aqq]);
    }
    all
}

/// The same of size 3. What is turned is no larger than 2^-36 here: the polar step rounds, and of larger numbers leaves more than 2^-52.
fn svd3s() -> Vec<[f64; 9]> {
    let mut all: Vec<_> = eigen3s().into_iter().map(square3).collect();
    for (number, [app, aqq]) in diagonals().enumerate() {
        let pair = turned([app, 256.0 * LIMIT, aqq], (0.6, 0.8));
        all.push(with_pair([0.0; 9], number % 3, pair));
    }
    for (number, [app, aqq]) in BLIND.into_iter().enumerate() {
        all.push(with_pair([0.0; 9], number % 3, [app, -1.0, 1.0, aqq]));
    }
    all.extend(LONGEST.map(|[d, x, ..]| [SMALL, d, x, d, 0.0, 0.0, 0.0, 0.0, d]));
    all
}

/// A packed matrix with these in a pair's places, the third number on the diagonal, and two others beside it.
fn placed(pair: usize, [app, apq, aqq]: [f64; 3], third: f64, [x, y]: [f64; 2]) -> [f64; 6] {
    match pair {
        0 => [app, apq, aqq, x, y, third],
        1 => [app, x, third, apq, y, aqq],
        _ => [third, x, app, y, apq, aqq],
    }
}

fn square2([app, apq, aqq]: [f64; 3]) -> [f64; 4] {
    [app, apq, apq, aqq]
}

fn square3([a11, a12, a22, a13, a23, a33]: [f64; 6]) -> [f64; 9] {
    [a11, a12, a13, a12, a22, a23, a13, a23, a33]
}

/// A symmetric pair behind a turn, by columns.
fn turned([app, apq, aqq]: [f64; 3], (c, s): (f64, f64)) -> [f64; 4] {
    [
        c * app - s * apq,
        s * app + c * apq,
        c * apq - s * aqq,
        s * apq + c * aqq,
    ]
}

/// The matrix with this pair, by columns as the pair is.
fn with_pair(mut a: [f64; 9], pair: usize, [app, aqp, apq, aqq]: [f64; 4]) -> [f64; 9] {
    let (_, p, q) = PAIRS[pair];
    [a[4 * p], a[q + 3 * p], a[p + 3 * q], a[4 * q]] = [app, aqp, apq, aqq];
    a
}

// ---- random inputs of the same sorts

fn eigen2_input(random: &mut Random, number: u64, words: &mut [u64], _: &mut Hits) {
    fill(&EIGEN2S, random, number, words, pair2);
}

fn eigen3_input(random: &mut Random, number: u64, words: &mut [u64], _: &mut Hits) {
    fill(&EIGEN3S, random, number, words, packed);
}

fn svd2_input(random: &mut Random, number: u64, words: &mut [u64], _: &mut Hits) {
    fill(&SVD2S, random, number, words, any2);
}

fn svd3_input(random: &mut Random, number: u64, words: &mut [u64], _: &mut Hits) {
    fill(&SVD3S, random, number, words, any3);
}

fn fill<const K: usize>(
    listed: &[[f64; K]],
    random: &mut Random,
    number: u64,
    words: &mut [u64],
    any: fn(&mut Random) -> [f64; K],
) {
    if let Some(a) = listed.get(number as usize) {
        return put(words, a);
    }
    let a = any(random);
    put(words, &a);
    spoil(random, words);
}

/// A number about 2^-52, or smaller.
fn small(random: &mut Random) -> f64 {
    match random.below(6) {
        0 => zero(random),
        1 => any_subnormal(random),
        2 => {
            let e = whole(random, -1022, -53);
            about(random, e)
        }
        3 => {
            let e = whole(random, -60, -51);
            about(random, e)
        }
        _ => {
            let x = beside(random, f64::EPSILON, 2);
            with_sign(random, x)
        }
    }
}

/// Two such numbers, now and then alike or nearly so.
fn diagonal(random: &mut Random) -> [f64; 2] {
    let x = small(random);
    match random.below(8) {
        0 => [x, x],
        1 => [x, -x],
        2 => [x, f64::from_bits(x.to_bits() ^ 1)],
        3 => [x, even(random)],
        _ => [x, small(random)],
    }
}

fn pair2(random: &mut Random) -> [f64; 3] {
    let [app, aqq] = diagonal(random);
    let apq = match random.below(6) {
        0 => zero(random),
        1 => any_subnormal(random),
        2 => small(random),
        3 => finite(random),
        _ => even(random),
    };
    [app, apq, aqq]
}

/// A pair that a 3x3 run rotates, but for one just below 2^-44.
fn pair3(random: &mut Random) -> [f64; 3] {
    let [app, aqq] = diagonal(random);
    let apq = match random.below(4) {
        0 => {
            let x = beside(random, LIMIT, 2);
            with_sign(random, x)
        }
        1 => even(random),
        _ => {
            let e = match random.below(8) {
                0 => whole(random, 1020, 1023),
                _ => whole(random, -44, 600),
            };
            about(random, e)
        }
    };
    [app, apq, aqq]
}

fn packed(random: &mut Random) -> [f64; 6] {
    if random.below(4) == 0 {
        // three equal numbers leave a 0
        let [x, y] = [0; 2].map(|_| even(random));
        let third = small(random);
        return [x, x, x, x * y, -x * y, third];
    }
    let pair @ [_, apq, _] = pair3(random);
    let third = match random.below(3) {
        0 => small(random),
        1 => apq * even(random),
        _ => even(random),
    };
    let scale = apq * power_of_two(whole(random, -60, 0));
    let others = match random.bits(1) {
        0 => [0; 2].map(|_| zero(random)),
        _ => [0; 2].map(|_| scale * even(random)),
    };
    placed(random.below(3) as usize, pair, third, others)
}

/// A pair of numbers from 2^-44 to 2^-26, behind any turn: the polar step takes it back.
fn turned_pair(random: &mut Random) -> [f64; 4] {
    let [app, aqq] = diagonal(random);
    let e = whole(random, -44, -27);
    let apq = about(random, e);
    turned([app, apq, aqq], turn(even(random)))
}

fn any2(random: &mut Random) -> [f64; 4] {
    match random.below(6) {
        0 => turned_pair(random),
        1 => turned(pair2(random), (0.0, 1.0)),
        2 => {
            let [app, apq, aqq] = pair2(random);
            [app, -apq, apq, aqq]
        }
        3 => {
            let a = square2(pair2(random));
            nearly(random, a)
        }
        _ => square2(pair2(random)),
    }
}

fn any3(random: &mut Random) -> [f64; 9] {
    match random.below(8) {
        0 => {
            let pair = turned_pair(random);
            with_pair([0.0; 9], random.below(3) as usize, pair)
        }
        1 => {
            let [app, apq, aqq] = pair3(random);
            let pair = [app, -apq, apq, aqq];
            with_pair([0.0; 9], random.below(3) as usize, pair)
        }
        2 => {
            let a = square3(packed(random));
            nearly(random, a)
        }
        3 => long(random),
        _ => square3(packed(random)),
    }
}

/// The matrix, but in one place a number next to its own.
fn nearly<const K: usize>(random: &mut Random, mut a: [f64; K]) -> [f64; K] {
    let x = &mut a[random.below(K as u64) as usize];
    *x = f64::from_bits(x.to_bits() ^ 1);
    a
}

/// Three singular values of one large size, but for numbers that are small beside it: such a run is long.
fn long(random: &mut Random) -> [f64; 9] {
    let e = whole(random, 21, 50);
    let size = about(random, e);
    let scale = power_of_two(whole(random, -44, -8));
    let mut a = [0; 9].map(|_| match random.below(3) {
        0 => zero(random),
        _ => scale * even(random),
    });
    a[8] = with_sign(random, size);
    let [app, aqq] = diagonal(random);
    with_pair(a, 0, [app, size, size, aqq])
}
