//! The rotation of a lent matrix: the crate's `apply_rotation`, by the port's rules of refusal.

use crate::algebra::dense::fixed::dense3x3::eigen::apply_rotation;
use crate::algebra::DenseMatrixSym3;
use crate::codes::{ANSWER_NOT_FINITE, DONE, INPUT_NOT_FINITE};
use crate::eigen::{fill_rotation, place_of};
use crate::numbers::{first_not_finite, numbers, put};
use crate::random::Random;
use crate::rotations::{pair_of, PAIRS};
use crate::subject::{branches, Hits, Subject};
use std::f64::consts::FRAC_1_SQRT_2 as H;

pub const SUBJECTS: &[Subject] = &[Subject {
    name: "rotate",
    operation: 59,
    words_in: 10,
    words_out: 7,
    branches: InPlace::NAMES,
    input,
    answer,
}];

// a pair; cosine, sine, tangent; the matrix. Out: the code, and the matrix as it is left
branches!(InPlace {
    Done12 = "0: pair 12",
    Done13 = "0: pair 13",
    Done23 = "0: pair 23",
    Given12 = "5: pair 12",
    Given13 = "5: pair 13",
    Given23 = "5: pair 23",
    Made12 = "7: pair 12",
    Made13 = "7: pair 13",
    Made23 = "7: pair 23",
    Cosine = "5: by the cosine",
    Sine = "5: by the sine",
    Tangent = "5: by the tangent",
    Matrix1 = "5: by place 1 of the matrix",
    Matrix2 = "5: by place 2 of the matrix",
    Matrix3 = "5: by place 3 of the matrix",
    Matrix4 = "5: by place 4 of the matrix",
    Matrix5 = "5: by place 5 of the matrix",
    Matrix6 = "5: by place 6 of the matrix",
    Left1 = "7: place 1 would not be finite",
    Left2 = "7: place 2 would not be finite",
    Left3 = "7: place 3 would not be finite",
    Left4 = "7: place 4 would not be finite",
    Left5 = "7: place 5 would not be finite",
    Left6 = "7: place 6 would not be finite",
    Reversal = "7: a cosine of -1",
    Chosen = "input: the rotation of the pair",
    Any = "input: any floats",
});

const MATRIX: [f64; 6] = [4.0, 1.0, 3.0, 0.5, -2.0, 1.0];
const LEAST: f64 = f64::from_bits(1);
const SUBNORMAL: f64 = f64::from_bits((1 << 52) - 1);
const MAX: f64 = f64::MAX;
const Q: f64 = MAX / 4.0;

/// The first rotations and matrices, for each pair: plain ones, zeros of both signs, subnormal numbers, what overflows, where the share
/// of a cosine of -1 is infinite or NaN, and the largest that stay.
const LISTED: [([f64; 3], [f64; 6]); 15] = [
    ([H, H, 1.0], [2.0, -1.0, 2.0, -1.0, -1.0, 2.0]),
    ([1.0, 0.0, 0.0], MATRIX),
    ([0.0, -1.0, -0.5], [0.1, 0.2, 0.3, 0.4, 0.5, 0.6]),
    ([H, H, 1.0], [-0.0; 6]),
    ([H, -H, -1.0], [0.0, -0.0, 0.0, -0.0, 0.0, -0.0]),
    (
        [H, H, 1.0],
        [LEAST, -LEAST, LEAST, 3.0 * LEAST, -5.0 * LEAST, 7.0 * LEAST],
    ),
    (
        [LEAST; 3],
        [SUBNORMAL, LEAST, -LEAST, f64::MIN_POSITIVE, 1.0, -1.0],
    ),
    ([-1.0, f64::INFINITY, 1.0], [MAX; 6]),
    ([H, H, 2.0], [MAX, -MAX, MAX, -MAX, -MAX, -MAX]),
    ([H, 2.0, 0.0], [0.0, MAX, 0.0, MAX, MAX, 0.0]),
    ([-1.0, 1.0, 0.0], MATRIX),
    ([-1.0, 0.0, 0.0], MATRIX),
    ([MAX; 3], [1.0; 6]),
    ([1.0, 0.0, 0.0], [MAX, -MAX, MAX, -MAX, MAX, -MAX]),
    ([H, H, 0.5], [Q, Q / 2.0, Q, -Q / 2.0, Q / 2.0, Q]),
];

/// What each of the nine numbers is then, one after the other.
const NOT_FINITE: [f64; 3] = [f64::NAN, f64::INFINITY, f64::NEG_INFINITY];

fn input(random: &mut Random, number: u64, words: &mut [u64], hits: &mut Hits) {
    let (pair, number) = (PAIRS[(number % 3) as usize].0, number as usize / 3);
    let spoilt = number.wrapping_sub(LISTED.len());
    if let Some((rotation, matrix)) = LISTED.get(number) {
        words[0] = pair;
        put(&mut words[1..], rotation);
        put(&mut words[4..], matrix);
    } else if spoilt < 9 * NOT_FINITE.len() {
        words[0] = pair;
        put(&mut words[1..], &[H, H, 1.0]);
        put(&mut words[4..], &MATRIX);
        put(&mut words[1 + spoilt / 3..], &NOT_FINITE[spoilt % 3..][..1]);
    } else if fill_rotation(random, words) {
        hits.hit(InPlace::Chosen as usize);
    } else {
        hits.hit(InPlace::Any as usize);
    }
}

/// The old matrix stays on refusal.
fn answer(input: &[u64], out: &mut [u64], hits: &mut Hits) {
    let (p, q) = pair_of(input[0]);
    let given @ [c, s, t, ..] = numbers::<9>(&input[1..]);
    let mut a = DenseMatrixSym3 {
        data: numbers(&input[4..]),
    };
    let old = a.data;
    let mut hit = |branch: InPlace, on: usize| hits.hit(branch as usize + on);
    // the pairs 12, 13 and 23 stand at 1, 3 and 4
    let pair = place_of(p, q) / 2;
    let (code, left) = if let Some(place) = first_not_finite(&given) {
        hit(InPlace::Given12, pair);
        hit(InPlace::Cosine, place);
        (INPUT_NOT_FINITE, old)
    } else {
        apply_rotation(&mut a, place_of(p, q), c, s, t);
        let made: Vec<usize> = (0..6).filter(|i| !a.data[*i].is_finite()).collect();
        for place in &made {
            hit(InPlace::Left1, *place);
        }
        if made.is_empty() {
            hit(InPlace::Done12, pair);
            (DONE, a.data)
        } else {
            hit(InPlace::Made12, pair);
            if c == -1.0 {
                hit(InPlace::Reversal, 0);
            }
            (ANSWER_NOT_FINITE, old)
        }
    };
    out[0] = code;
    put(&mut out[1..], &left);
}
