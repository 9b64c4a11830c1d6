//! The eigenvalues and eigenvectors, and the steps to them, against the crate's.

use crate::algebra::dense::fixed::dense3x3::eigen::{
    apply_rotation, compute_jacobi_rotation, eigen_jacobi, find_largest_off_diag,
    get_rotation_elements, sort3, sort3_with_columns, update_eigenvectors,
};
use crate::algebra::{DenseMatrix2, DenseMatrix3, DenseMatrixSym2, DenseMatrixSym3};
use crate::codes::{ANSWER_NOT_FINITE, DONE, INPUT_NOT_FINITE};
use crate::numbers::{
    about, all_finite, any_words, beside, even, finite, first_not_finite, numbers, power_of_two,
    put, spoil, whole, with_sign, zero,
};
use crate::random::Random;
use crate::rotations::{
    a_pair, blind, choice, count_length, count_order, count_pair, exchanges, pair_of, Applied,
    Largest, LIMIT, MOST, PAIRS,
};
use crate::shapes::{
    any_exponents, any_subnormal, evenly, isotropic_parts, one_exponent, rotation, some_subnormal,
    whole_numbers, with_values, zeros,
};
use crate::subject::{branches, Hits, Subject};
use std::cmp::Ordering;

pub const SUBJECTS: &[Subject] = &[
    Subject {
        name: "eigen_jacobi",
        operation: 48,
        words_in: 6,
        words_out: 21,
        branches: Eigen::NAMES,
        input,
        answer: with_vectors,
    },
    Subject {
        name: "eigvals_jacobi",
        operation: 49,
        words_in: 6,
        words_out: 12,
        branches: Eigen::NAMES,
        input,
        answer: without_vectors,
    },
    Subject {
        name: "eigen2",
        operation: 50,
        words_in: 3,
        words_out: 8,
        branches: Eigen2::NAMES,
        input: input2,
        answer: with_vectors2,
    },
    Subject {
        name: "eigvals2",
        operation: 51,
        words_in: 3,
        words_out: 4,
        branches: Eigen2::NAMES,
        input: input2,
        answer: without_vectors2,
    },
    Subject {
        name: "compute_jacobi_rotation",
        operation: 52,
        words_in: 3,
        words_out: 3,
        branches: Chosen::NAMES,
        input: chosen_input,
        answer: chosen,
    },
    Subject {
        name: "find_largest_off_diag",
        operation: 53,
        words_in: 6,
        words_out: 2,
        branches: Largest::NAMES,
        input: |random, _, words, _| any_words(random, words),
        answer: largest,
    },
    Subject {
        name: "apply_rotation",
        operation: 54,
        words_in: 10,
        words_out: 6,
        branches: Applied::NAMES,
        input: applied_input,
        answer: applied,
    },
    turned("update_eigenvectors", 55),
    turned("turn_columns", 56),
    Subject {
        name: "sort3",
        operation: 57,
        words_in: 3,
        words_out: 3,
        branches: Sorted::NAMES,
        input: sorted_input,
        answer: sorted,
    },
    Subject {
        name: "sort3_with_columns",
        operation: 58,
        words_in: 12,
        words_out: 12,
        branches: Sorted::NAMES,
        input: sorted_input,
        answer: sorted_with_columns,
    },
];

// ---- 3x3: the matrix; code, count, settled, values, vectors, worked matrix

branches!(pub Eigen {
    Done = "0",
    Answer = "7",
    Matrix1 = "5: by place 1 of the matrix",
    Matrix2 = "5: by place 2 of the matrix",
    Matrix3 = "5: by place 3 of the matrix",
    Matrix4 = "5: by place 4 of the matrix",
    Matrix5 = "5: by place 5 of the matrix",
    Matrix6 = "5: by place 6 of the matrix",
    Rotations0 = "0 rotations",
    Rotations1 = "1 rotation",
    Rotations12 = "2 to 12 rotations",
    Rotations24 = "13 to 24 rotations",
    Settled25 = "25 rotations, settled",
    Unsettled25 = "25 rotations, not settled",
    Pair12 = "a rotation of the pair 12",
    Pair13 = "a rotation of the pair 13",
    Pair23 = "a rotation of the pair 23",
    TwoLargest = "two pairs the largest",
    AllLargest = "all three pairs the largest",
    Tiny = "a diagonal under 2^-52",
    Level = "a level diagonal",
    Theta = "theta with a finite square",
    Far = "theta with an infinite square",
    Infinite = "theta infinite",
    Nan = "theta NaN",
    NoExchange = "order: as it was",
    Exchange12 = "order: 1 with 2",
    Exchange13 = "order: 1 with 3",
    Exchange23 = "order: 2 with 3",
    Alike = "order: two values alike",
    AnyExponents = "input: any exponents",
    OneExponent = "input: one exponent",
    Even = "input: from -1 to 1, scaled",
    Whole = "input: whole numbers",
    Subnormal = "input: subnormal numbers",
    Equal = "input: equal diagonal",
    NearlyEqual = "input: nearly equal diagonal",
    AboutLimit = "input: about 2^-44 beside the diagonal",
    AboutEpsilon = "input: about 2^-52 on the diagonal",
    Huge = "input: near the largest",
    Zeros = "input: zeros of both signs",
    DoubleCouple = "input: double couple",
    Clvd = "input: linear vector dipole",
    NearlyIsotropic = "input: nearly isotropic",
    Ties = "input: ties beside the diagonal",
    Apart = "input: diagonal far apart",
});

/// The number before 2^-44.
const BELOW_LIMIT: f64 = f64::from_bits(LIMIT.to_bits() - 1);

/// The first matrices: no rotation, one, none just below the limit, and one; then 13, 24, and 25 that settle, and 25 that do not.
const LISTED: [[f64; 6]; 9] = [
    [3.0, 0.0, 1.0, 0.0, 0.0, 2.0],
    [1.0, LIMIT, 1.0, 0.0, 0.0, 1.0],
    [1.0, BELOW_LIMIT, 1.0, 0.0, 0.0, 1.0],
    [-2.0, -1.0, -2.0, 0.0, 0.0, -5.0],
    isotropic(16, 5, 40),
    isotropic(22, 1, 32),
    isotropic(22, 5, 34),
    isotropic(22, 3, 33),
    isotropic(30, 1, 24),
];

/// 2^k on the diagonal, m * 2^-j in two places beside it, and 0 in the third.
pub const fn isotropic(k: u32, m: u64, j: u32) -> [f64; 6] {
    let (d, beside) = ((1u64 << k) as f64, m as f64 / (1u64 << j) as f64);
    [d, beside, d, beside, 0.0, d]
}

/// What a search found: 16 rotations of numbers as large beside the diagonal as on it; of the smallest numbers 13, 25 that settle,
/// and 25 that do not; and 25 that leave a number just above the limit.
const FOUND: [[u64; 6]; 5] = [
    [
        0x742C_7374_727A_6F3E,
        0x7483_307F_C211_5328,
        0xF4A3_BC66_9F64_95F1,
        0x7572_9878_E364_0C95,
        0x756C_6467_A6B9_1114,
        0xF4A0_D5AB_27B5_F23F,
    ],
    [
        0x40D0_0000_0000_0001,
        0x3D87_288B_2884_C29F,
        0x40D0_0000_0000_0001,
        0x3D87_263A_58B4_A625,
        0x8000_0000_0000_0002,
        0x40D0_0000_0000_0001,
    ],
    [
        0x4130_0000_0000_0001,
        0x3DEC_39AD_32EA_3D54,
        0x4130_0000_0000_0001,
        0x3DEC_39AD_32EA_3D54,
        0x8000_0000_0000_0001,
        0x4130_0000_0000_0001,
    ],
    [
        0x413F_FFFF_FFFF_FFFF,
        0xBDF7_6329_5455_EAC4,
        0x4140_0000_0000_0000,
        0xBAA4_212C_6CFB_CD66,
        0xBDF7_5948_14B0_A115,
        0x4140_0000_0000_0000,
    ],
    [
        0x415E_8CF7_9A39_947A,
        0x3DF6_A09E_667F_275B,
        0x415E_8CF7_9A39_947B,
        0xBE0F_4DE5_45C0_27A1,
        0x3E06_A09E_667F_3195,
        0x415E_8CF7_9A39_947B,
    ],
];

fn input(random: &mut Random, number: u64, words: &mut [u64], hits: &mut Hits) {
    let number = number as usize;
    if let Some(listed) = LISTED.get(number) {
        return put(words, listed);
    }
    if let Some(found) = FOUND.get(number - LISTED.len()) {
        return words.copy_from_slice(found);
    }
    let (kind, matrix) = matrix(random);
    hits.hit(Eigen::AnyExponents as usize + kind);
    put(words, &matrix);
    spoil(random, words);
}

/// The kinds of matrices, in the order of the branches that count them.
const KINDS: [fn(&mut Random) -> [f64; 6]; 16] = [
    any_exponents,
    one_exponent,
    evenly,
    whole_numbers,
    some_subnormal,
    equal_diagonal,
    nearly_equal_diagonal,
    about_limit,
    about_epsilon,
    huge,
    zeros,
    double_couple,
    linear_vector_dipole,
    nearly_isotropic,
    ties,
    diagonal_far_apart,
];

/// A matrix, packed, with the place of its kind.
pub fn matrix(random: &mut Random) -> (usize, [f64; 6]) {
    let kind = random.below(KINDS.len() as u64) as usize;
    (kind, KINDS[kind](random))
}

fn equal_diagonal(random: &mut Random) -> [f64; 6] {
    let scale = power_of_two(whole(random, -50, 4));
    let diagonal = even(random);
    let beside = [0; 6].map(|_| scale * even(random));
    with_diagonal(beside, [diagonal; 3])
}

fn nearly_equal_diagonal(random: &mut Random) -> [f64; 6] {
    let scale = power_of_two(whole(random, -50, 4));
    let about = even(random).abs();
    let a = [0; 6].map(|_| scale * even(random));
    with_diagonal(a, [0; 3].map(|_| beside(random, about, 4)))
}

fn about_limit(random: &mut Random) -> [f64; 6] {
    let beside = [0; 6].map(|_| near_power(random, -44));
    with_diagonal(beside, [0; 3].map(|_| even(random)))
}

fn about_epsilon(random: &mut Random) -> [f64; 6] {
    let e = whole(random, -43, 4);
    let beside = [0; 6].map(|_| about(random, e));
    with_diagonal(beside, [0; 3].map(|_| near_power(random, -52)))
}

fn huge(random: &mut Random) -> [f64; 6] {
    [0; 6].map(|_| {
        let e = whole(random, 1018, 1023);
        about(random, e)
    })
}

fn double_couple(random: &mut Random) -> [f64; 6] {
    let moment = moment(random);
    let q = rotation(random);
    with_values(&q, [moment, 0.0, -moment])
}

fn linear_vector_dipole(random: &mut Random) -> [f64; 6] {
    let moment = moment(random);
    let q = rotation(random);
    with_values(&q, [2.0 * moment, -moment, -moment])
}

fn nearly_isotropic(random: &mut Random) -> [f64; 6] {
    let (a, diagonal) = isotropic_parts(random);
    with_diagonal(a, diagonal)
}

fn ties(random: &mut Random) -> [f64; 6] {
    let size = even(random);
    [0; 6].map(|_| match random.below(6) {
        0 => even(random),
        _ => with_sign(random, size),
    })
}

fn diagonal_far_apart(random: &mut Random) -> [f64; 6] {
    let e = whole(random, 440, 1023);
    let mut a = [0; 6].map(|_| about(random, e));
    for i in [1, 3, 4] {
        let e = whole(random, -44, 20);
        a[i] = about(random, e);
    }
    a
}

fn with_diagonal(mut a: [f64; 6], diagonal: [f64; 3]) -> [f64; 6] {
    [a[0], a[2], a[5]] = diagonal;
    a
}

/// A number within a factor of four of 2^e, or next to it.
fn near_power(random: &mut Random, e: i64) -> f64 {
    if random.bits(1) == 0 {
        let x = beside(random, power_of_two(e), 2);
        with_sign(random, x)
    } else {
        let e = e + whole(random, -2, 1);
        about(random, e)
    }
}

/// The size of a source: a power of ten.
fn moment(random: &mut Random) -> f64 {
    let power = (0..whole(random, 0, 22)).fold(1.0, |x, _| 10.0 * x);
    if random.bits(1) == 0 {
        power
    } else {
        1.0 / power
    }
}

/// The end of a run, with whether its last matrix is settled, and whether one of its rotations was blind.
pub struct Run {
    pub a: DenseMatrixSym3<f64>,
    pub v: DenseMatrix3<f64>,
    pub values: [f64; 3],
    pub count: u64,
    pub settled: bool,
    pub blind: bool,
}

/// The run of `eigen_jacobi`, made of the crate's own steps, with its count. Shows the matrix before each rotation, and the place
/// of its largest pair.
pub fn run(a: [f64; 6], mut show: impl FnMut(&DenseMatrixSym3<f64>, usize)) -> Run {
    let mut a = DenseMatrixSym3 { data: a };
    let mut v = DenseMatrix3::zeros();
    v.set_identity();
    let (mut count, mut one_blind) = (0, false);
    while count < MOST {
        let (at, p, q, size) = find_largest_off_diag(&a);
        if size < LIMIT {
            break;
        }
        show(&a, at);
        let (apq, app, aqq) = get_rotation_elements(&a, at);
        one_blind |= blind(apq, app, aqq);
        let (c, s, t) = compute_jacobi_rotation(apq, app, aqq);
        apply_rotation(&mut a, at, c, s, t);
        update_eigenvectors(&mut v, p, q, c, s);
        count += 1;
    }
    let settled = find_largest_off_diag(&a).3 < LIMIT;
    let values = sort3_with_columns(a.data[0], a.data[2], a.data[5], &mut v);
    Run {
        a,
        v,
        values,
        count,
        settled,
        blind: one_blind,
    }
}

impl Run {
    pub fn mark(&self) -> bool {
        self.settled && !self.blind
    }

    /// Whether all that is handed back is finite, with the vectors or without.
    pub fn is_finite(&self, vectors: bool) -> bool {
        all_finite(&self.a.data) && (!vectors || all_finite(&self.v.data))
    }
}

/// The answer's run where nothing is refused, its branches counted.
fn answered(input: &[u64], vectors: bool, out: &mut [u64], hits: &mut Hits) -> Option<Run> {
    let given = numbers::<6>(input);
    out.fill(0);
    if let Some(place) = first_not_finite(&given) {
        out[0] = INPUT_NOT_FINITE;
        hits.hit(Eigen::Matrix1 as usize + place);
        return None;
    }
    let end = run(given, |a, at| count_rotation(a, at, hits));
    same_as_plain(given, &end);
    if !end.is_finite(vectors) {
        out[0] = ANSWER_NOT_FINITE;
        hits.hit(Eigen::Answer as usize);
        return None;
    }
    count_end(&end, hits);
    out[0] = DONE;
    out[1] = end.count;
    out[2] = u64::from(end.mark());
    put(&mut out[3..], &end.values);
    Some(end)
}

fn with_vectors(input: &[u64], out: &mut [u64], hits: &mut Hits) {
    if let Some(end) = answered(input, true, out, hits) {
        put(&mut out[6..], &end.v.data);
        put(&mut out[15..], &end.a.data);
    }
}

fn without_vectors(input: &[u64], out: &mut [u64], hits: &mut Hits) {
    if let Some(end) = answered(input, false, out, hits) {
        put(&mut out[6..], &end.a.data);
    }
}

/// The run by steps is the crate's own call, with vectors and without.
fn same_as_plain(given: [f64; 6], end: &Run) {
    for vectors in [true, false] {
        let mut a = DenseMatrixSym3 { data: given };
        let mut v = end.v.clone();
        let values = eigen_jacobi(&mut a, &mut if vectors { Some(&mut v) } else { None });
        let mut words = [[0; 18]; 2];
        for (words, (values, a, v)) in words
            .iter_mut()
            .zip([(&values, &a, &v), (&end.values, &end.a, &end.v)])
        {
            put(words, values);
            put(&mut words[3..], &a.data);
            put(&mut words[9..], &v.data);
        }
        assert_eq!(words[0], words[1], "not eigen_jacobi's, of {given:?}");
    }
}

/// Where a packed matrix has the numbers beside the diagonal.
const BESIDE: [usize; 3] = [1, 3, 4];

/// The place among the three pairs of the one that stands there.
pub fn pair_at(at: usize) -> usize {
    BESIDE.iter().position(|i| *i == at).expect("a pair")
}

fn count_rotation(a: &DenseMatrixSym3<f64>, at: usize, hits: &mut Hits) {
    let sizes = BESIDE.map(|i| a.data[i].abs());
    let (pair, largest) = (pair_at(at), a.data[at].abs());
    count_pair(Eigen::Pair12 as usize, pair, sizes, largest, hits);
    let (apq, app, aqq) = get_rotation_elements(a, at);
    hits.hit(Eigen::Tiny as usize + choice(apq, app, aqq) as usize);
}

fn count_end(end: &Run, hits: &mut Hits) {
    hits.hit(Eigen::Done as usize);
    count_length(Eigen::Rotations0 as usize, end.count, end.settled, hits);
    let diagonal = [end.a.data[0], end.a.data[2], end.a.data[5]];
    count_order(Eigen::NoExchange as usize, diagonal, PartialOrd::gt, hits);
}

// ---- 2x2: the matrix; code, settled, values, vectors

branches!(Eigen2 {
    Kept = "0: kept",
    Exchanged = "0: exchanged",
    Tie = "0: exchanged on a tie",
    Answer = "7",
    Matrix1 = "5: by place 1 of the matrix",
    Matrix2 = "5: by place 2 of the matrix",
    Matrix3 = "5: by place 3 of the matrix",
    Tiny = "a diagonal under 2^-52",
    Level = "a level diagonal",
    Theta = "theta with a finite square",
    Far = "theta with an infinite square",
    Infinite = "theta infinite",
    Nan = "theta NaN",
    Zero = "zero beside the diagonal",
});

/// The first matrices: the scope's example, a tie, one that overflows, and one whose number beside the diagonal is dropped, since
/// the difference overflows.
const LISTED2: [[u64; 3]; 4] = [
    [
        0x4000_0000_0000_0000,
        0x3FF0_0000_0000_0000,
        0x4000_0000_0000_0000,
    ],
    [0x3FF0_0000_0000_0000, 0, 0x3FF0_0000_0000_0000],
    [0x7FEF_FFFF_FFFF_FFFF; 3],
    [
        0xFFE0_0000_0000_0000,
        0x7FD0_0000_0000_0000,
        0x7FE0_0000_0000_0000,
    ],
];

fn input2(random: &mut Random, number: u64, words: &mut [u64], _: &mut Hits) {
    if let Some(listed) = LISTED2.get(number as usize) {
        return words.copy_from_slice(listed);
    }
    let [app, apq, aqq] = pair(random);
    put(words, &[app, apq, aqq]);
    spoil(random, words);
}

/// Two numbers of a diagonal, with one beside it in the middle.
fn pair(random: &mut Random) -> [f64; 3] {
    let mut a = [0.0; 3];
    let e = whole(random, -1074, 1015);
    match random.below(10) {
        0 => any_exponents(random),
        1 => a.map(|_| {
            let e = e + whole(random, 0, 8);
            about(random, e)
        }),
        2 => whole_numbers(random),
        3 => a.map(|_| any_subnormal(random)),
        4 => a.map(|_| zero(random)),
        5 => a.map(|_| {
            let e = whole(random, 1018, 1023);
            about(random, e)
        }),
        6 => {
            // level, or nearly
            let size = about(random, e).abs();
            a = a.map(|_| beside(random, size, 2));
            a[1] = finite(random);
            a
        }
        7 => {
            a = a.map(|_| near_power(random, -52));
            a[1] = even(random);
            a
        }
        8 => {
            // the square of theta overflows
            a = a.map(|_| about(random, e));
            let e = whole(random, -1074, (e - 440).max(-1074));
            a[1] = about(random, e);
            a
        }
        _ => a.map(|_| even(random)),
    }
}

/// The values and the vectors, where all of them are finite; the vectors are zeros where none are asked for.
pub fn call2(given: [f64; 3], vectors: bool) -> Option<([f64; 2], [f64; 4])> {
    let mut a = DenseMatrixSym2 { data: given };
    let mut v = DenseMatrix2::zeros();
    let values = if vectors {
        a.eigen(&mut v)
    } else {
        a.eigvals()
    };
    (all_finite(&values) && all_finite(&v.data)).then_some((values, v.data))
}

/// The mark of the one rotation.
pub fn mark2([app, apq, aqq]: [f64; 3]) -> bool {
    !blind(apq, app, aqq)
}

fn answered2(input: &[u64], vectors: bool, out: &mut [u64], hits: &mut Hits) -> Option<[f64; 4]> {
    let given = numbers::<3>(input);
    out.fill(0);
    if let Some(place) = first_not_finite(&given) {
        out[0] = INPUT_NOT_FINITE;
        hits.hit(Eigen2::Matrix1 as usize + place);
        return None;
    }
    let [app, apq, aqq] = given;
    hits.hit(Eigen2::Tiny as usize + choice(apq, app, aqq) as usize);
    let Some((values, v)) = call2(given, vectors) else {
        out[0] = ANSWER_NOT_FINITE;
        hits.hit(Eigen2::Answer as usize);
        return None;
    };
    // as the crate has it: the first value is the first number of the diagonal less its share
    let (_, _, t) = compute_jacobi_rotation(apq, app, aqq);
    let (first, second) = (app - t * apq, aqq + t * apq);
    hits.hit(match first.partial_cmp(&second).expect("numbers") {
        Ordering::Less => Eigen2::Kept,
        Ordering::Greater => Eigen2::Exchanged,
        Ordering::Equal => Eigen2::Tie,
    } as usize);
    out[0] = DONE;
    out[1] = u64::from(mark2(given));
    put(&mut out[2..], &values);
    Some(v)
}

fn with_vectors2(input: &[u64], out: &mut [u64], hits: &mut Hits) {
    if let Some(v) = answered2(input, true, out, hits) {
        put(&mut out[4..], &v);
    }
}

fn without_vectors2(input: &[u64], out: &mut [u64], hits: &mut Hits) {
    answered2(input, false, out, hits);
}

// ---- single steps, which take any floats and refuse none

// beside the diagonal, and the two on it; cosine, sine, tangent
branches!(Chosen {
    Tiny = "a diagonal under 2^-52",
    Level = "a level diagonal",
    Theta = "theta with a finite square",
    Far = "theta with an infinite square",
    Infinite = "theta infinite",
    Nan = "theta NaN",
    Zero = "zero beside the diagonal",
    NotFinite = "a NaN or infinity given",
});

fn chosen_input(random: &mut Random, _: u64, words: &mut [u64], _: &mut Hits) {
    if random.below(4) == 0 {
        return any_words(random, words);
    }
    let [app, apq, aqq] = pair(random);
    put(words, &[apq, app, aqq]);
}

fn chosen(input: &[u64], out: &mut [u64], hits: &mut Hits) {
    let given @ [apq, app, aqq] = numbers::<3>(input);
    hits.hit(Chosen::Tiny as usize + choice(apq, app, aqq) as usize);
    if !all_finite(&given) {
        hits.hit(Chosen::NotFinite as usize);
    }
    let (c, s, t) = compute_jacobi_rotation(apq, app, aqq);
    put(out, &[c, s, t]);
}

// the matrix; the pair, its size
fn largest(input: &[u64], out: &mut [u64], hits: &mut Hits) {
    let a = DenseMatrixSym3 {
        data: numbers(input),
    };
    let (_, p, q, size) = find_largest_off_diag(&a);
    let pair = PAIRS.iter().position(|pair| (pair.1, pair.2) == (p, q));
    let pair = pair.expect("a pair");
    out[0] = PAIRS[pair].0;
    put(&mut out[1..], &[size]);
    Largest::count(pair, BESIDE.map(|i| a.data[i].abs()), size, hits);
}

// a pair; cosine, sine, tangent; the matrix, which comes out rotated

/// The pairs' places in a packed matrix.
pub fn place_of(p: usize, q: usize) -> usize {
    p + q * (q + 1) / 2
}

fn applied_input(random: &mut Random, _: u64, words: &mut [u64], hits: &mut Hits) {
    let branch = if fill_rotation(random, words) {
        Applied::Chosen
    } else {
        Applied::Any
    };
    hits.hit(branch as usize);
}

/// Fills in the words with any floats, and says whether the rotation is then the one of the pair.
pub fn fill_rotation(random: &mut Random, words: &mut [u64]) -> bool {
    let (number, p, q) = a_pair(random);
    words[0] = number;
    any_words(random, &mut words[1..]);
    if random.bits(1) == 0 {
        return false;
    }
    let a = DenseMatrixSym3 {
        data: numbers(&words[4..]),
    };
    let (apq, app, aqq) = get_rotation_elements(&a, place_of(p, q));
    let (c, s, t) = compute_jacobi_rotation(apq, app, aqq);
    put(&mut words[1..], &[c, s, t]);
    true
}

fn applied(input: &[u64], out: &mut [u64], hits: &mut Hits) {
    let (p, q) = pair_of(input[0]);
    let [c, s, t] = numbers(&input[1..]);
    let mut a = DenseMatrixSym3 {
        data: numbers(&input[4..]),
    };
    apply_rotation(&mut a, place_of(p, q), c, s, t);
    put(out, &a.data);
    Applied::count(input[0], &numbers::<9>(&input[1..]), &a.data, hits);
}

/// A pair; cosine, sine, tangent; three columns, of which the pair's come out turned.
const fn turned(name: &'static str, operation: u8) -> Subject {
    Subject {
        name,
        operation,
        words_in: 13,
        words_out: 9,
        branches: Applied::NAMES,
        input: |random, _, words, hits| {
            words[0] = a_pair(random).0;
            any_words(random, &mut words[1..]);
            if random.bits(1) == 0 {
                return hits.hit(Applied::Any as usize);
            }
            hits.hit(Applied::Chosen as usize);
            let [app, apq, aqq] = pair(random);
            let (c, s, t) = compute_jacobi_rotation(apq, app, aqq);
            put(&mut words[1..], &[c, s, t]);
        },
        answer: |input, out, hits| {
            let (p, q) = pair_of(input[0]);
            let [c, s] = numbers(&input[1..]);
            let mut v = DenseMatrix3 {
                data: numbers(&input[4..]),
            };
            update_eigenvectors(&mut v, p, q, c, s);
            put(out, &v.data);
            Applied::count(input[0], &numbers::<12>(&input[1..]), &v.data, hits);
        },
    }
}

// three values, and columns; both in order
branches!(Sorted {
    None = "as it was",
    Exchange12 = "1 with 2",
    Exchange13 = "1 with 3",
    Exchange23 = "2 with 3",
    All = "all three exchanges",
    Alike = "two values alike",
    Zeros = "+0 beside -0",
    Nan = "a NaN among the values",
});

fn sorted_input(random: &mut Random, _: u64, words: &mut [u64], _: &mut Hits) {
    any_words(random, &mut words[..3]);
    if words.len() > 3 {
        any_words(random, &mut words[3..]);
    }
}

fn count_sorted(values: [f64; 3], hits: &mut Hits) {
    let exchanged = exchanges(values, PartialOrd::gt);
    for i in 0..3 {
        if exchanged[i] {
            hits.hit(Sorted::Exchange12 as usize + i);
        }
    }
    let [a, b, c] = values;
    let zeros = |x: f64, y: f64| x == 0.0 && y == 0.0 && x.to_bits() != y.to_bits();
    for (branch, met) in [
        (Sorted::None, exchanged == [false; 3]),
        (Sorted::All, exchanged == [true; 3]),
        (Sorted::Alike, a == b || b == c || a == c),
        (Sorted::Zeros, zeros(a, b) || zeros(b, c) || zeros(a, c)),
        (Sorted::Nan, values.iter().any(|x| x.is_nan())),
    ] {
        if met {
            hits.hit(branch as usize);
        }
    }
}

fn sorted(input: &[u64], out: &mut [u64], hits: &mut Hits) {
    let [a, b, c] = numbers(input);
    count_sorted([a, b, c], hits);
    put(out, &sort3(a, b, c));
}

fn sorted_with_columns(input: &[u64], out: &mut [u64], hits: &mut Hits) {
    let [a, b, c] = numbers(input);
    let mut v = DenseMatrix3 {
        data: numbers(&input[3..]),
    };
    count_sorted([a, b, c], hits);
    let values = sort3_with_columns(a, b, c, &mut v);
    put(out, &values);
    put(&mut out[3..], &v.data);
}
