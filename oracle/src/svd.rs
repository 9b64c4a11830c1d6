//! The singular values and vectors, and the steps to them, against the crate's.

use crate::algebra::dense::fixed::dense2x2::svd::set_order_and_signs_2x2;
use crate::algebra::dense::fixed::dense3x3::eigen::update_eigenvectors;
use crate::algebra::dense::fixed::dense3x3::svd::{
    apply_two_sided_rotation, compute_polar_2x2, compute_two_sided_rotation,
    find_largest_off_diag_nonsym, fix_order_and_signs_3x3, hypot_fast,
};
use crate::algebra::{DenseMatrix2, DenseMatrix3};
use crate::codes::{ANSWER_NOT_FINITE, DONE, INPUT_NOT_FINITE};
use crate::float::SIGN;
use crate::numbers::{
    about, all_finite, any_words, beside, even, first_not_finite, numbers, power_of_two, put,
    spoil, sum, whole, with_sign, zero,
};
use crate::random::Random;
use crate::rotations::{
    a_pair, blind, choice, count_length, count_order, count_pair, exchanges, pair_of, Applied,
    Largest, LIMIT, MOST, PAIRS,
};
use crate::shapes::{
    any_exponents, any_subnormal, evenly, isotropic_parts, one_exponent, rotation, some_subnormal,
    turn, whole_numbers, zeros, Columns,
};
use crate::subject::{branches, first, Hits, Subject};
use std::cmp::Ordering;

pub const SUBJECTS: &[Subject] = &[
    Subject {
        name: "svd3",
        operation: 64,
        words_in: 9,
        words_out: 33,
        branches: Svd::NAMES,
        input,
        answer: svd3,
    },
    Subject {
        name: "svd2",
        operation: 65,
        words_in: 4,
        words_out: 12,
        branches: Svd2::NAMES,
        input: input2,
        answer: svd2,
    },
    Subject {
        name: "hypot_fast",
        operation: 66,
        words_in: 2,
        words_out: 1,
        branches: Hypot::NAMES,
        input: |random, _, words, _| match random.below(16) {
            0 => put(words, &[0; 2].map(|_| about(random, 1023))),
            _ => any_words(random, words),
        },
        answer: hypot,
    },
    Subject {
        name: "compute_polar_2x2",
        operation: 67,
        words_in: 4,
        words_out: 5,
        branches: Polar::NAMES,
        input: polar_input,
        answer: polar,
    },
    Subject {
        name: "compute_two_sided_rotation",
        operation: 68,
        words_in: 4,
        words_out: 9,
        branches: TwoSided::NAMES,
        input: polar_input,
        answer: two_sided,
    },
    Subject {
        name: "find_largest_off_diag_nonsym",
        operation: 69,
        words_in: 9,
        words_out: 2,
        branches: Largest::NAMES,
        input: |random, _, words, _| any_words(random, words),
        answer: largest,
    },
    Subject {
        name: "apply_two_sided_rotation",
        operation: 70,
        words_in: 19,
        words_out: 9,
        branches: Applied::NAMES,
        input: applied_input,
        answer: applied,
    },
    Subject {
        name: "fix_order_and_signs_3x3",
        operation: 71,
        words_in: 21,
        words_out: 21,
        branches: Ordered::NAMES,
        input: ordered_input,
        answer: ordered3,
    },
    Subject {
        name: "set_order_and_signs_2x2",
        operation: 72,
        words_in: 10,
        words_out: 10,
        branches: first(Ordered::NAMES, Ordered::Flip3 as usize),
        input: ordered2_input,
        answer: ordered2,
    },
];

// ---- 3x3: the matrix; code, count, settled, values, U, V, worked matrix

branches!(Svd {
    Done = "0",
    Answer = "7",
    Matrix1 = "5: by place 1 of the matrix",
    Matrix2 = "5: by place 2 of the matrix",
    Matrix3 = "5: by place 3 of the matrix",
    Matrix4 = "5: by place 4 of the matrix",
    Matrix5 = "5: by place 5 of the matrix",
    Matrix6 = "5: by place 6 of the matrix",
    Matrix7 = "5: by place 7 of the matrix",
    Matrix8 = "5: by place 8 of the matrix",
    Matrix9 = "5: by place 9 of the matrix",
    Rotations0 = "0 rotations",
    Rotations1 = "1 rotation",
    Rotations12 = "2 to 12 rotations",
    Rotations24 = "13 to 24 rotations",
    Settled25 = "25 rotations, settled",
    Unsettled25 = "25 rotations, not settled",
    Pair12 = "a rotation of the pair 12",
    Pair13 = "a rotation of the pair 13",
    Pair23 = "a rotation of the pair 23",
    TwoLargest = "two pairs the largest",
    AllLargest = "all three pairs the largest",
    PolarNone = "polar: none, the size is 0",
    PolarTurn = "polar: a turn",
    PolarInfinite = "polar: the size overflows",
    PolarNan = "polar: the size is NaN",
    Tiny = "a diagonal under 2^-52",
    Level = "a level diagonal",
    Theta = "theta with a finite square",
    Far = "theta with an infinite square",
    Infinite = "theta infinite",
    Nan = "theta NaN",
    Zero = "zero beside the diagonal",
    Flip1 = "sign: column 1",
    Flip2 = "sign: column 2",
    Flip3 = "sign: column 3",
    FlipZero = "sign: by -0",
    NoExchange = "order: as it was",
    Exchange12 = "order: 1 with 2",
    Exchange13 = "order: 1 with 3",
    Exchange23 = "order: 2 with 3",
    Alike = "order: two values alike",
    AnyExponents = "input: any exponents",
    OneExponent = "input: one exponent",
    Even = "input: from -1 to 1, scaled",
    Whole = "input: whole numbers",
    Subnormal = "input: subnormal numbers",
    Singular = "input: singular",
    RankOne = "input: of rank one",
    Orthogonal = "input: orthogonal",
    NearlyOrthogonal = "input: nearly orthogonal",
    Geophone = "input: a tilted instrument",
    Reflection = "input: a reflection",
    ZeroColumns = "input: zero columns",
    Zeros = "input: zeros of both signs",
    Huge = "input: near the largest",
    AboutLimit = "input: about 2^-44 beside the diagonal",
    Ties = "input: ties beside the diagonal",
    Symmetric = "input: symmetric",
    NearlyIsotropic = "input: nearly isotropic",
});

/// The first matrix: a diagonal with a sign.
const LISTED: [[f64; 9]; 1] = [[1.0, 0.0, 0.0, 0.0, -2.0, 0.0, 0.0, 0.0, 3.0]];

fn input(random: &mut Random, number: u64, words: &mut [u64], hits: &mut Hits) {
    if let Some(listed) = LISTED.get(number as usize) {
        return put(words, listed);
    }
    let (kind, matrix) = matrix(random);
    hits.hit(Svd::AnyExponents as usize + kind);
    put(words, &matrix);
    spoil(random, words);
}

/// The kinds of matrices, in the order of the branches that count them.
const KINDS: [fn(&mut Random) -> [f64; 9]; 18] = [
    any_exponents,
    one_exponent,
    evenly,
    whole_numbers,
    some_subnormal,
    singular,
    of_rank_one,
    orthogonal,
    nearly_orthogonal,
    geophone,
    reflection,
    zero_columns,
    zeros,
    huge,
    about_limit,
    ties,
    symmetric,
    nearly_isotropic,
];

/// A matrix by columns, with the place of its kind.
pub fn matrix(random: &mut Random) -> (usize, [f64; 9]) {
    let kind = random.below(KINDS.len() as u64) as usize;
    (kind, KINDS[kind](random))
}

/// A column is the sum, or a part of the sum, of the others.
fn singular(random: &mut Random) -> [f64; 9] {
    let mut a = [0; 9].map(|_| even(random));
    let (last, by) = (random.below(3) as usize, even(random));
    for r in 0..3 {
        let others = sum((0..3).filter(|c| *c != last).map(|c| a[3 * c + r]));
        a[3 * last + r] = by * others;
    }
    a
}

fn of_rank_one(random: &mut Random) -> [f64; 9] {
    let [u, v] = [0; 2].map(|_| [0; 3].map(|_| even(random)));
    let scale = power_of_two(whole(random, -60, 60));
    std::array::from_fn(|i| scale * u[i % 3] * v[i / 3])
}

fn orthogonal(random: &mut Random) -> [f64; 9] {
    by_columns(rotation(random))
}

fn nearly_orthogonal(random: &mut Random) -> [f64; 9] {
    let noise = power_of_two(whole(random, -56, -4));
    by_columns(rotation(random)).map(|x| x + noise * even(random))
}

fn reflection(random: &mut Random) -> [f64; 9] {
    let mut a = by_columns(rotation(random));
    let c = random.below(3) as usize;
    for x in &mut a[3 * c..3 * c + 3] {
        *x = -*x;
    }
    a
}

fn zero_columns(random: &mut Random) -> [f64; 9] {
    let mut a = [0.0; 9];
    let e = whole(random, -1074, 1023);
    for column in a.chunks_exact_mut(3) {
        let filled = random.bits(1) == 0;
        for x in column {
            *x = match (filled, random.bits(1)) {
                (false, _) => zero(random),
                (_, 0) => even(random),
                _ => about(random, e),
            };
        }
    }
    a
}

fn huge(random: &mut Random) -> [f64; 9] {
    [0; 9].map(|_| {
        let e = whole(random, 1018, 1023);
        match random.below(4) {
            0 => zero(random),
            _ => about(random, e),
        }
    })
}

fn about_limit(random: &mut Random) -> [f64; 9] {
    let a = [0; 9].map(|_| match random.below(3) {
        0 => beside(random, LIMIT / 2.0, 2),
        1 => zero(random),
        _ => {
            let e = whole(random, -47, -43);
            about(random, e)
        }
    });
    with_diagonal(a, [0; 3].map(|_| even(random)))
}

fn ties(random: &mut Random) -> [f64; 9] {
    let size = even(random);
    [0; 9].map(|_| match random.below(6) {
        0 => zero(random),
        _ => with_sign(random, size),
    })
}

fn symmetric(random: &mut Random) -> [f64; 9] {
    let scale = power_of_two(whole(random, -40, 40));
    let mut a = [0; 9].map(|_| scale * even(random));
    [a[3], a[6], a[7]] = [a[1], a[2], a[5]];
    a
}

fn nearly_isotropic(random: &mut Random) -> [f64; 9] {
    let (a, diagonal) = isotropic_parts(random);
    with_diagonal(a, diagonal)
}

fn with_diagonal(mut a: [f64; 9], diagonal: [f64; 3]) -> [f64; 9] {
    [a[0], a[4], a[8]] = diagonal;
    a
}

fn by_columns(columns: Columns) -> [f64; 9] {
    std::array::from_fn(|i| columns[i / 3][i % 3])
}

/// A turn about the vertical, then a tilt, each in steps whose cosine and sine are quotients of small whole numbers.
fn geophone(random: &mut Random) -> [f64; 9] {
    let [(c, s), (d, t)] = [0; 2].map(|_| turn(whole(random, -40, 40) as f64 / 40.0));
    [c, s, 0.0, -s * d, c * d, t, s * t, -c * t, d]
}

/// The end of a run, with whether its last matrix is settled, and whether one of its rotations was blind.
pub struct Run {
    pub a: DenseMatrix3<f64>,
    pub u: DenseMatrix3<f64>,
    pub v: DenseMatrix3<f64>,
    pub values: [f64; 3],
    pub count: u64,
    pub settled: bool,
    pub blind: bool,
}

impl Run {
    pub fn mark(&self) -> bool {
        self.settled && !self.blind
    }

    pub fn is_finite(&self) -> bool {
        [&self.a, &self.u, &self.v]
            .iter()
            .all(|m| all_finite(&m.data))
    }
}

/// The run of `svd`, made of the crate's own steps, with its count. Shows the matrix before each rotation, and its largest pair.
pub fn run(a: [f64; 9], mut show: impl FnMut(&DenseMatrix3<f64>, usize, usize)) -> Run {
    let mut a = DenseMatrix3 { data: a };
    let mut u = DenseMatrix3::zeros();
    let mut v = DenseMatrix3::zeros();
    u.set_identity();
    v.set_identity();
    let (mut count, mut one_blind) = (0, false);
    while count < MOST {
        let (p, q, size) = find_largest_off_diag_nonsym(&a);
        if size < LIMIT {
            break;
        }
        show(&a, p, q);
        let (app, aqp, apq, aqq) = (a[(p, p)], a[(q, p)], a[(p, q)], a[(q, q)]);
        let (s12, s11, s22) = symmetrised(app, aqp, apq, aqq);
        one_blind |= blind(s12, s11, s22);
        let (cl, sl, cr, sr, d1, d2) = compute_two_sided_rotation(app, aqp, apq, aqq);
        apply_two_sided_rotation(&mut a, p, q, cl, sl, cr, sr, d1, d2);
        update_eigenvectors(&mut u, p, q, cl, sl);
        update_eigenvectors(&mut v, p, q, cr, sr);
        count += 1;
    }
    let settled = find_largest_off_diag_nonsym(&a).2 < LIMIT;
    let values = fix_order_and_signs_3x3(a[(0, 0)], a[(1, 1)], a[(2, 2)], &mut u, &mut v);
    Run {
        a,
        u,
        v,
        values,
        count,
        settled,
        blind: one_blind,
    }
}

/// The symmetrised pair, by the crate's polar step: the numbers that the rotation is chosen by, and in that order.
pub fn symmetrised(app: f64, aqp: f64, apq: f64, aqq: f64) -> (f64, f64, f64) {
    let (_, _, s11, s12, s22) = compute_polar_2x2(app, aqp, apq, aqq);
    (s12, s11, s22)
}

fn svd3(input: &[u64], out: &mut [u64], hits: &mut Hits) {
    let given = numbers::<9>(input);
    out.fill(0);
    if let Some(place) = first_not_finite(&given) {
        out[0] = INPUT_NOT_FINITE;
        return hits.hit(Svd::Matrix1 as usize + place);
    }
    let end = run(given, |a, p, q| count_rotation(a, p, q, hits));
    same_as_plain(given, &end);
    if !end.is_finite() {
        out[0] = ANSWER_NOT_FINITE;
        return hits.hit(Svd::Answer as usize);
    }
    count_end(&end, hits);
    out[0] = DONE;
    out[1] = end.count;
    out[2] = u64::from(end.mark());
    put(&mut out[3..], &end.values);
    put(&mut out[6..], &end.u.data);
    put(&mut out[15..], &end.v.data);
    put(&mut out[24..], &end.a.data);
}

/// The run by steps is the crate's own call. The sign of a NaN, which decides a column's sign, is left open: such an end is
/// compared by its matrix alone.
fn same_as_plain(given: [f64; 9], end: &Run) {
    let mut a = DenseMatrix3 { data: given };
    let mut u = DenseMatrix3::zeros();
    let mut v = DenseMatrix3::zeros();
    let values = a.svd(&mut u, &mut v);
    let whole = all_finite(&a.data);
    let mut words = [[0; 30]; 2];
    for (words, (a, values, u, v)) in words
        .iter_mut()
        .zip([(&a, &values, &u, &v), (&end.a, &end.values, &end.u, &end.v)])
    {
        put(words, &a.data);
        if whole {
            put(&mut words[9..], values);
            put(&mut words[12..], &u.data);
            put(&mut words[21..], &v.data);
        }
    }
    assert_eq!(words[0], words[1], "not svd's, of {given:?}");
}

fn count_rotation(a: &DenseMatrix3<f64>, p: usize, q: usize, hits: &mut Hits) {
    let pair = pair_at(p, q);
    let sizes = sizes_of(a);
    count_pair(Svd::Pair12 as usize, pair, sizes, sizes[pair], hits);
    let (app, aqp, apq, aqq) = (a[(p, p)], a[(q, p)], a[(p, q)], a[(q, q)]);
    hits.hit(Svd::PolarNone as usize + size_kind(app, aqp, apq, aqq));
    let (s12, s11, s22) = symmetrised(app, aqp, apq, aqq);
    hits.hit(Svd::Tiny as usize + choice(s12, s11, s22) as usize);
}

/// The pair's place among the three.
pub fn pair_at(p: usize, q: usize) -> usize {
    let found = PAIRS.iter().position(|pair| (pair.1, pair.2) == (p, q));
    found.expect("a pair")
}

/// The sums of the pairs' magnitudes.
pub fn sizes_of(a: &DenseMatrix3<f64>) -> [f64; 3] {
    PAIRS.map(|(_, p, q)| a[(p, q)].abs() + a[(q, p)].abs())
}

/// Whether the size that a polar turn divides by is 0, finite, infinite, or NaN.
fn size_kind(app: f64, aqp: f64, apq: f64, aqq: f64) -> usize {
    let d = hypot_fast(app + aqq, aqp - apq);
    match d {
        0.0 => 0,
        _ if d.is_finite() => 1,
        _ if d.is_infinite() => 2,
        _ => 3,
    }
}

fn count_end(end: &Run, hits: &mut Hits) {
    hits.hit(Svd::Done as usize);
    count_length(Svd::Rotations0 as usize, end.count, end.settled, hits);
    let diagonal = [end.a.data[0], end.a.data[4], end.a.data[8]];
    if diagonal.iter().any(|x| x.to_bits() == SIGN) {
        hits.hit(Svd::FlipZero as usize);
    }
    for (i, x) in diagonal.iter().enumerate() {
        if x.is_sign_negative() {
            hits.hit(Svd::Flip1 as usize + i);
        }
    }
    let sizes = diagonal.map(f64::abs);
    count_order(Svd::NoExchange as usize, sizes, PartialOrd::lt, hits);
}

// ---- 2x2: the matrix; code, settled, values, U, V

branches!(Svd2 {
    Kept = "0: kept",
    Exchanged = "0: exchanged",
    Tie = "0: kept on a tie",
    Answer = "7",
    Matrix1 = "5: by place 1 of the matrix",
    Matrix2 = "5: by place 2 of the matrix",
    Matrix3 = "5: by place 3 of the matrix",
    Matrix4 = "5: by place 4 of the matrix",
    PolarNone = "polar: none, the size is 0",
    PolarTurn = "polar: a turn",
    PolarInfinite = "polar: the size overflows",
    PolarNan = "polar: the size is NaN",
    Tiny = "a diagonal under 2^-52",
    Level = "a level diagonal",
    Theta = "theta with a finite square",
    Far = "theta with an infinite square",
    Infinite = "theta infinite",
    Nan = "theta NaN",
    Zero = "zero beside the diagonal",
    Flip1 = "sign: column 1",
    Flip2 = "sign: column 2",
    FlipZero = "sign: by -0",
});

/// The first matrices: a diagonal with a sign, and one whose values are 0, since the size of its polar turn overflows.
const LISTED2: [[u64; 4]; 2] = [
    [0x3FF0_0000_0000_0000, 0, 0, 0xC000_0000_0000_0000],
    [
        0x7FD8_0000_0000_0000,
        0x7FD8_0000_0000_0000,
        0xFFD8_0000_0000_0000,
        0x7FD8_0000_0000_0000,
    ],
];

fn input2(random: &mut Random, number: u64, words: &mut [u64], _: &mut Hits) {
    if let Some(listed) = LISTED2.get(number as usize) {
        return words.copy_from_slice(listed);
    }
    let matrix = matrix2(random);
    put(words, &matrix);
    spoil(random, words);
}

/// A 2x2 matrix by columns.
fn matrix2(random: &mut Random) -> [f64; 4] {
    let a = [0.0; 4];
    let e = whole(random, -1074, 1015);
    match random.below(12) {
        0 => any_exponents(random),
        1 => a.map(|_| {
            let e = e + whole(random, 0, 8);
            about(random, e)
        }),
        2 => whole_numbers(random),
        3 => a.map(|_| any_subnormal(random)),
        4 => zeros(random),
        5 => a.map(|_| match random.below(6) {
            0 => zero(random),
            1 | 2 => {
                let e = whole(random, 1018, 1022);
                about(random, e)
            }
            _ => about(random, 1023),
        }),
        6 => rank_one2(random),
        7 => orthogonal2(random),
        8 => {
            let x = even(random);
            a.map(|_| with_sign(random, x))
        }
        9 => far_apart2(random, e),
        10 => level2(random, e),
        _ => a.map(|_| even(random)),
    }
}

fn rank_one2(random: &mut Random) -> [f64; 4] {
    let [x, y, z, w] = [0.0; 4].map(|_| even(random));
    [x * z, y * z, x * w, y * w]
}

/// A turn or a reflection.
fn orthogonal2(random: &mut Random) -> [f64; 4] {
    let (c, s) = turn(even(random));
    match random.bits(1) {
        0 => [c, s, -s, c],
        _ => [c, s, s, -c],
    }
}

/// Symmetric with a diagonal far apart: the square of theta overflows.
fn far_apart2(random: &mut Random, e: i64) -> [f64; 4] {
    let [x, y] = [0; 2].map(|_| about(random, e));
    let e = whole(random, -1074, (e - 440).max(-1074));
    let z = about(random, e);
    [x, z, z, y]
}

/// Symmetric with a level diagonal.
fn level2(random: &mut Random, e: i64) -> [f64; 4] {
    let size = about(random, e).abs();
    let [x, y] = [0; 2].map(|_| beside(random, size, 2));
    let z = size * even(random);
    [x, z, z, y]
}

/// The values, U and V, where all of them are finite.
pub fn call2(given: [f64; 4]) -> Option<([f64; 2], [f64; 4], [f64; 4])> {
    let mut a = DenseMatrix2 { data: given };
    let mut u = DenseMatrix2::zeros();
    let mut v = DenseMatrix2::zeros();
    let values = a.svd(&mut u, &mut v);
    let finite = all_finite(&values) && all_finite(&u.data) && all_finite(&v.data);
    finite.then_some((values, u.data, v.data))
}

/// The mark of the one rotation.
pub fn mark2([app, aqp, apq, aqq]: [f64; 4]) -> bool {
    let (s12, s11, s22) = symmetrised(app, aqp, apq, aqq);
    !blind(s12, s11, s22)
}

fn svd2(input: &[u64], out: &mut [u64], hits: &mut Hits) {
    let given = numbers::<4>(input);
    out.fill(0);
    if let Some(place) = first_not_finite(&given) {
        out[0] = INPUT_NOT_FINITE;
        return hits.hit(Svd2::Matrix1 as usize + place);
    }
    let [app, aqp, apq, aqq] = given;
    hits.hit(Svd2::PolarNone as usize + size_kind(app, aqp, apq, aqq));
    let (s12, s11, s22) = symmetrised(app, aqp, apq, aqq);
    hits.hit(Svd2::Tiny as usize + choice(s12, s11, s22) as usize);
    let Some((values, u, v)) = call2(given) else {
        out[0] = ANSWER_NOT_FINITE;
        return hits.hit(Svd2::Answer as usize);
    };
    let (_, _, _, _, d1, d2) = compute_two_sided_rotation(app, aqp, apq, aqq);
    let mut hit = |branch: Svd2| hits.hit(branch as usize);
    hit(match d1.abs().partial_cmp(&d2.abs()).expect("numbers") {
        Ordering::Less => Svd2::Exchanged,
        Ordering::Greater => Svd2::Kept,
        Ordering::Equal => Svd2::Tie,
    });
    for (branch, met) in [
        (Svd2::Flip1, d1.is_sign_negative()),
        (Svd2::Flip2, d2.is_sign_negative()),
        (Svd2::FlipZero, d1.to_bits() == SIGN || d2.to_bits() == SIGN),
    ] {
        if met {
            hit(branch);
        }
    }
    out[0] = DONE;
    out[1] = u64::from(mark2(given));
    put(&mut out[2..], &values);
    put(&mut out[4..], &u);
    put(&mut out[8..], &v);
}

// ---- single steps, which take any floats and refuse none

// two numbers; the root of the sum of their squares
branches!(Hypot {
    First = "the first larger",
    Second = "the second larger",
    Alike = "both of one size",
    SmallerZero = "the smaller 0",
    BothZero = "both 0",
    Overflow = "overflows",
    Infinite = "an infinity given",
    Nan = "a NaN given",
});

fn hypot(input: &[u64], out: &mut [u64], hits: &mut Hits) {
    let given @ [x, y] = numbers::<2>(input);
    let root = hypot_fast(x, y);
    put(out, &[root]);
    let (x, y) = (x.abs(), y.abs());
    for (branch, met) in [
        (Hypot::First, x > y),
        (Hypot::Second, x < y),
        (Hypot::Alike, x == y),
        (Hypot::SmallerZero, (x == 0.0) != (y == 0.0)),
        (Hypot::BothZero, x == 0.0 && y == 0.0),
        (Hypot::Overflow, all_finite(&given) && !root.is_finite()),
        (Hypot::Infinite, x.is_infinite() || y.is_infinite()),
        (Hypot::Nan, x.is_nan() || y.is_nan()),
    ] {
        if met {
            hits.hit(branch as usize);
        }
    }
}

fn polar_input(random: &mut Random, _: u64, words: &mut [u64], _: &mut Hits) {
    if random.below(4) == 0 {
        return any_words(random, words);
    }
    let matrix = matrix2(random);
    put(words, &matrix);
}

// a 2x2 by columns; cosine, sine, and the symmetric matrix's three numbers
branches!(Polar {
    None = "none, the size is 0",
    Turn = "a turn",
    Infinite = "the size infinite",
    Nan = "the size NaN",
    NotFinite = "a NaN or infinity given",
    Overflow = "a NaN or infinity made",
});

fn polar(input: &[u64], out: &mut [u64], hits: &mut Hits) {
    let given @ [app, aqp, apq, aqq] = numbers::<4>(input);
    let (c, s, s11, s12, s22) = compute_polar_2x2(app, aqp, apq, aqq);
    let made = [c, s, s11, s12, s22];
    put(out, &made);
    hits.hit(Polar::None as usize + size_kind(app, aqp, apq, aqq));
    if !all_finite(&given) {
        hits.hit(Polar::NotFinite as usize);
    } else if !all_finite(&made) {
        hits.hit(Polar::Overflow as usize);
    }
}

// a 2x2 by columns; cosines and sines of the left and the right, the diagonal, and the symmetric matrix's three numbers
branches!(TwoSided {
    Tiny = "a diagonal under 2^-52",
    Level = "a level diagonal",
    Theta = "theta with a finite square",
    Far = "theta with an infinite square",
    Infinite = "theta infinite",
    Nan = "theta NaN",
    Zero = "zero beside the diagonal",
    NotFinite = "a NaN or infinity given",
    Overflow = "a NaN or infinity made",
});

fn two_sided(input: &[u64], out: &mut [u64], hits: &mut Hits) {
    let given @ [app, aqp, apq, aqq] = numbers::<4>(input);
    let (cl, sl, cr, sr, d1, d2) = compute_two_sided_rotation(app, aqp, apq, aqq);
    let (_, _, s11, s12, s22) = compute_polar_2x2(app, aqp, apq, aqq);
    let made = [cl, sl, cr, sr, d1, d2, s11, s12, s22];
    put(out, &made);
    hits.hit(TwoSided::Tiny as usize + choice(s12, s11, s22) as usize);
    if !all_finite(&given) {
        hits.hit(TwoSided::NotFinite as usize);
    } else if !all_finite(&made) {
        hits.hit(TwoSided::Overflow as usize);
    }
}

// the matrix; the pair, its size
fn largest(input: &[u64], out: &mut [u64], hits: &mut Hits) {
    let a = DenseMatrix3 {
        data: numbers(input),
    };
    let (p, q, size) = find_largest_off_diag_nonsym(&a);
    let pair = pair_at(p, q);
    out[0] = PAIRS[pair].0;
    put(&mut out[1..], &[size]);
    Largest::count(pair, sizes_of(&a), size, hits);
}

// a pair; the nine numbers of a two-sided rotation, of which the last three count for nothing; the matrix, which comes out rotated
fn applied_input(random: &mut Random, _: u64, words: &mut [u64], hits: &mut Hits) {
    let (number, p, q) = a_pair(random);
    words[0] = number;
    any_words(random, &mut words[1..]);
    if random.bits(1) == 0 {
        return hits.hit(Applied::Any as usize);
    }
    hits.hit(Applied::Chosen as usize);
    let a = DenseMatrix3::<f64> {
        data: numbers(&words[10..]),
    };
    let (cl, sl, cr, sr, d1, d2) =
        compute_two_sided_rotation(a[(p, p)], a[(q, p)], a[(p, q)], a[(q, q)]);
    put(&mut words[1..], &[cl, sl, cr, sr, d1, d2]);
}

fn applied(input: &[u64], out: &mut [u64], hits: &mut Hits) {
    let (p, q) = pair_of(input[0]);
    let [cl, sl, cr, sr, d1, d2] = numbers(&input[1..]);
    let mut a = DenseMatrix3 {
        data: numbers(&input[10..]),
    };
    apply_two_sided_rotation(&mut a, p, q, cl, sl, cr, sr, d1, d2);
    put(out, &a.data);
    let mut given = [0.0; 15];
    given[..6].copy_from_slice(&numbers::<6>(&input[1..]));
    given[6..].copy_from_slice(&numbers::<9>(&input[10..]));
    Applied::count(input[0], &given, &a.data, hits);
}

// the diagonal, U, V; the values, U, V. The port reads no sign off a NaN, and `numbers` makes each one without.
branches!(Ordered {
    None = "order: as it was",
    Exchange12 = "order: 1 with 2",
    Alike = "order: two values alike",
    Flip1 = "sign: column 1",
    Flip2 = "sign: column 2",
    PlusZero = "sign: none, by +0",
    MinusZero = "sign: by -0",
    Nan = "a NaN on the diagonal",
    Infinite = "an infinity on the diagonal",
    Flip3 = "sign: column 3",
    Exchange13 = "order: 1 with 3",
    Exchange23 = "order: 2 with 3",
});

fn ordered_input(random: &mut Random, _: u64, words: &mut [u64], _: &mut Hits) {
    any_words(random, &mut words[..3]);
    any_words(random, &mut words[3..]);
}

/// Counts for two or three numbers of a diagonal: a third that is not there stays last.
fn count_ordered(diagonal: &[f64], hits: &mut Hits) {
    let n = diagonal.len();
    let mut three = [-1.0; 3];
    for (size, x) in three.iter_mut().zip(diagonal) {
        *size = x.abs();
    }
    let exchanged = exchanges(three, PartialOrd::lt);
    let of = [
        Ordered::Exchange12,
        Ordered::Exchange13,
        Ordered::Exchange23,
    ];
    for (branch, exchanged) in of.into_iter().zip(exchanged) {
        if exchanged {
            hits.hit(branch as usize);
        }
    }
    count_flips(diagonal, hits);
    let sizes = &three[..n];
    let twice = |i: usize| sizes[..i].iter().any(|size| *size == sizes[i]);
    for (branch, met) in [
        (Ordered::None, exchanged == [false; 3]),
        (Ordered::Alike, (0..n).any(twice)),
        (Ordered::PlusZero, diagonal.iter().any(|x| x.to_bits() == 0)),
        (
            Ordered::MinusZero,
            diagonal.iter().any(|x| x.to_bits() == SIGN),
        ),
        (Ordered::Nan, diagonal.iter().any(|x| x.is_nan())),
        (Ordered::Infinite, diagonal.iter().any(|x| x.is_infinite())),
    ] {
        if met {
            hits.hit(branch as usize);
        }
    }
}

fn count_flips(diagonal: &[f64], hits: &mut Hits) {
    let of = [Ordered::Flip1, Ordered::Flip2, Ordered::Flip3];
    for (branch, x) in of.into_iter().zip(diagonal) {
        if x.is_sign_negative() {
            hits.hit(branch as usize);
        }
    }
}

fn ordered3(input: &[u64], out: &mut [u64], hits: &mut Hits) {
    let diagonal @ [a, b, c] = numbers::<3>(input);
    let mut u = DenseMatrix3 {
        data: numbers(&input[3..]),
    };
    let mut v = DenseMatrix3 {
        data: numbers(&input[12..]),
    };
    let values = fix_order_and_signs_3x3(a, b, c, &mut u, &mut v);
    put(out, &values);
    put(&mut out[3..], &u.data);
    put(&mut out[12..], &v.data);
    count_ordered(&diagonal, hits);
}

/// U and V are turns, since the crate makes them of a cosine and a sine.
fn ordered2_input(random: &mut Random, _: u64, words: &mut [u64], _: &mut Hits) {
    any_words(random, &mut words[..2]);
    let mut turns = [0; 4];
    any_words(random, &mut turns);
    let [cl, sl, cr, sr] = numbers(&turns);
    put(&mut words[2..], &[cl, -sl, sl, cl, cr, -sr, sr, cr]);
}

fn ordered2(input: &[u64], out: &mut [u64], hits: &mut Hits) {
    let diagonal @ [a, b] = numbers::<2>(input);
    let [cl, _, sl, _, cr, _, sr, _] = numbers(&input[2..]);
    let mut u = DenseMatrix2::zeros();
    let mut v = DenseMatrix2::zeros();
    let values = set_order_and_signs_2x2(cl, sl, cr, sr, a, b, &mut u, &mut v);
    put(out, &values);
    put(&mut out[2..], &u.data);
    put(&mut out[6..], &v.data);
    count_ordered(&diagonal, hits);
}
