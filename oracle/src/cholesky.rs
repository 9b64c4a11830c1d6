//! The Cholesky factors and the solutions they give, against the crate's.

use crate::algebra::{DenseFactorizationError, DenseMatrixSym2, DenseMatrixSym3, DenseMatrixSymN};
use crate::codes::{ANSWER_NOT_FINITE, DONE, INPUT_NOT_FINITE, NAN_PIVOT, PIVOT};
use crate::float::{bits, listed, SIGN};
use crate::lent::{self, Wants};
use crate::numbers::{
    about, all_finite, even, fill, fill_words, finite, first_not_finite, not_finite, number,
    numbers, power_of_two, put, spoil, sum, whole, zero,
};
use crate::random::Random;
use crate::subject::{branches, first, Hits, Subject};

pub const SUBJECTS: &[Subject] = &[
    Subject {
        name: "factor2",
        operation: 32,
        words_in: 6,
        words_out: 5,
        branches: first(Factor::NAMES, Factor::Below3 as usize),
        input: |random, number, words, hits| factor_input(&LISTED2, random, number, words, hits),
        answer: factor::<3>,
    },
    Subject {
        name: "factor3",
        operation: 33,
        words_in: 12,
        words_out: 8,
        branches: Factor::NAMES,
        input: |random, number, words, hits| factor_input(&LISTED3, random, number, words, hits),
        answer: factor::<6>,
    },
    Subject {
        name: "solve2",
        operation: 34,
        words_in: 3 + lent::WORDS,
        words_out: lent::WORDS_OUT,
        branches: lent::AtLeast::names(3),
        input: |random, _, words, _| solve_input::<3>(random, words),
        answer: solve::<3>,
    },
    Subject {
        name: "solve3",
        operation: 35,
        words_in: 6 + lent::WORDS,
        words_out: lent::WORDS_OUT,
        branches: lent::AtLeast::names(6),
        input: |random, _, words, _| solve_input::<6>(random, words),
        answer: solve::<6>,
    },
    Subject {
        name: "factor_and_solve2",
        operation: 36,
        words_in: 5,
        words_out: 7,
        branches: first(Solved::NAMES, Solved::Pivot3 as usize),
        input: |random, number, words, _| solved_input(&LISTED2, random, number, words),
        answer: factor_and_solve::<3, 2>,
    },
    Subject {
        name: "factor_and_solve3",
        operation: 37,
        words_in: 9,
        words_out: 11,
        branches: Solved::NAMES,
        input: |random, number, words, _| solved_input(&LISTED3, random, number, words),
        answer: factor_and_solve::<6, 3>,
    },
    Subject {
        name: "pivot_step",
        operation: 38,
        words_in: 2,
        words_out: 3,
        branches: Pivot::NAMES,
        input: pivot_input,
        answer: pivot,
    },
];

/// 2^-1074 and 2^1023.
const SMALLEST: f64 = f64::from_bits(1);
const LARGE: f64 = f64::from_bits(0x7FE0_0000_0000_0000);

/// The first matrices: one that has a factor, one whose last pivot is 0, some with a pivot of -0, and one of size 3 whose third
/// pivot is NaN.
const LISTED2: [[f64; 3]; 4] = [
    [4.0, 2.0, 5.0],
    [1.0, 1.0, 1.0],
    [-0.0, 0.0, 1.0],
    [1.0, 0.0, -0.0],
];
const LISTED3: [[f64; 6]; 6] = [
    [1.0, 0.0, 1.0, 1.0, 0.0, 1.0],
    [4.0, 2.0, 5.0, 2.0, 3.0, 6.0],
    [-0.0, 0.0, 1.0, 0.0, 0.0, 1.0],
    [1.0, 0.0, -0.0, 0.0, 0.0, 1.0],
    [1.0, 0.0, 1.0, 0.0, -0.0, -0.0],
    NAN_PIVOTS[0],
];

/// Matrices whose third pivot is NaN: L21 is a zero and L31 an infinity, with each sign of both. A subject lists the first alone, since
/// a longer list would change each random input behind it; one in a hundred of those is of each sort.
pub const NAN_PIVOTS: [[f64; 6]; 4] = [
    [SMALLEST, 0.0, 1.0, LARGE, 0.0, 1.0],
    [SMALLEST, 0.0, 1.0, -LARGE, 0.0, 1.0],
    [SMALLEST, -0.0, 1.0, LARGE, 0.0, 1.0],
    [SMALLEST, -0.0, 1.0, -LARGE, 0.0, 1.0],
];

pub type Sym<const S: usize> = DenseMatrixSymN<S, f64>;

/// What the crate names by the size.
pub trait Size {
    fn factor(&mut self, a: &Self) -> Result<(), DenseFactorizationError>;
    fn solve(&self, x: &mut [f64], b: &[f64]);
}

impl Size for DenseMatrixSym2<f64> {
    fn factor(&mut self, a: &Self) -> Result<(), DenseFactorizationError> {
        self.cholesky_2x2_explicit_factor(a)
    }
    fn solve(&self, x: &mut [f64], b: &[f64]) {
        self.cholesky_2x2_explicit_solve(x, b);
    }
}

impl Size for DenseMatrixSym3<f64> {
    fn factor(&mut self, a: &Self) -> Result<(), DenseFactorizationError> {
        self.cholesky_3x3_explicit_factor(a)
    }
    fn solve(&self, x: &mut [f64], b: &[f64]) {
        self.cholesky_3x3_explicit_solve(x, b);
    }
}

fn symmetric<const S: usize>(words: &[u64]) -> Sym<S> {
    DenseMatrixSymN {
        data: numbers(words),
    }
}

// ---- matrices

/// Fills the places of a packed matrix, and says which kind of input that is.
fn matrix(random: &mut Random, places: &mut [f64]) -> Factor {
    let n = if places.len() == 3 { 2 } else { 3 };
    match random.below(8) {
        0 | 1 => {
            let m = vectors(random);
            products(&m, n, places);
            scale(random, places);
            Factor::Product
        }
        2 | 3 => {
            products(&nearly_flat(random, n), n, places);
            scale(random, places);
            Factor::NearlySingular
        }
        4 => {
            products(&triangular(random, n), n, places);
            Factor::Whole
        }
        5 => {
            ones_and_zeros(random, places);
            Factor::Zeros
        }
        6 => {
            far(random, places);
            Factor::Far
        }
        _ => {
            fill(random, places);
            Factor::Any
        }
    }
}

/// The last of n columns lies nearly in the plane, or on the line, of the others.
fn nearly_flat(random: &mut Random, n: usize) -> [[f64; 3]; 3] {
    let mut m = vectors(random);
    let noise = power_of_two(whole(random, -56, -1));
    for row in &mut m {
        row[n - 1] = sum(row[..n - 1].iter().copied()) + noise * even(random);
    }
    m
}

/// Upper triangular and of whole numbers, so that its diagonal has the pivots' roots.
fn triangular(random: &mut Random, n: usize) -> [[f64; 3]; 3] {
    let mut m = [[0.0; 3]; 3];
    for r in 0..n {
        m[r][r] = whole(random, 0, 3) as f64;
        for c in r + 1..n {
            m[r][c] = whole(random, -3, 3) as f64;
        }
    }
    m
}

fn ones_and_zeros(random: &mut Random, places: &mut [f64]) {
    for (i, x) in places.iter_mut().enumerate() {
        let diagonal = matches!(i, 0 | 2 | 5);
        *x = if diagonal && random.below(4) > 0 {
            1.0
        } else {
            zero(random)
        };
    }
}

/// A first pivot so small that a quotient by its root overflows.
fn far(random: &mut Random, places: &mut [f64]) {
    for x in places.iter_mut() {
        *x = about(random, 1023);
        if random.below(3) == 0 {
            *x = zero(random);
        }
    }
    for i in [0, 2, 5] {
        if i < places.len() {
            places[i] = places[i].abs();
        }
    }
    let e = whole(random, -1074, -900);
    places[0] = about(random, e).abs();
    if random.bits(1) == 0 {
        places[1] = zero(random);
    }
}

/// Three rows of three numbers from -1 to 1.
fn vectors(random: &mut Random) -> [[f64; 3]; 3] {
    std::array::from_fn(|_| std::array::from_fn(|_| even(random)))
}

/// M'M, packed.
fn products(m: &[[f64; 3]; 3], n: usize, places: &mut [f64]) {
    let mut at = 0;
    for c in 0..n {
        for r in 0..=c {
            places[at] = sum((0..n).map(|k| m[k][r] * m[k][c]));
            at += 1;
        }
    }
}

fn scale(random: &mut Random, places: &mut [f64]) {
    let by = power_of_two(match random.below(3) {
        0 => whole(random, -1022, 1020),
        1 => whole(random, -60, 60),
        _ => 0,
    });
    for x in places {
        *x *= by;
    }
}

// ---- factors: the old factor, the matrix; code, pivot, factor

branches!(Factor {
    Done = "0",
    Matrix1 = "5: by place 1 of the matrix",
    Matrix2 = "5: by place 2 of the matrix",
    Matrix3 = "5: by place 3 of the matrix",
    Below1 = "6: pivot 1 below 0",
    PlusZero1 = "6: pivot 1 is +0",
    MinusZero1 = "6: pivot 1 is -0",
    Below2 = "6: pivot 2 below 0",
    PlusZero2 = "6: pivot 2 is +0",
    MinusZero2 = "6: pivot 2 is -0",
    Infinite2 = "6: pivot 2 is -infinity",
    OldDone = "0: NaN in the old factor",
    OldInput = "5: NaN in the old factor",
    OldPivot = "6: NaN in the old factor",
    Product = "input: M'M",
    NearlySingular = "input: M'M, nearly singular",
    Whole = "input: M'M of whole numbers",
    Zeros = "input: ones and zeros of both signs",
    Far = "input: a tiny first pivot",
    Any = "input: any numbers",
    // Of size 2 no pivot is NaN, so 9 is no branch there: the number below the first root is finite or infinite. At neither size
    // is 7 one: a factor whose pivots all have roots is finite.
    Below3 = "6: pivot 3 below 0",
    PlusZero3 = "6: pivot 3 is +0",
    MinusZero3 = "6: pivot 3 is -0",
    Infinite3 = "6: pivot 3 is -infinity",
    Nan3 = "9: pivot 3 is NaN",
    OldNan = "9: NaN in the old factor",
    Matrix4 = "5: by place 4 of the matrix",
    Matrix5 = "5: by place 5 of the matrix",
    Matrix6 = "5: by place 6 of the matrix",
    NanPlusPlus = "9: L21 is +0, L31 is +infinity",
    NanPlusMinus = "9: L21 is +0, L31 is -infinity",
    NanMinusPlus = "9: L21 is -0, L31 is +infinity",
    NanMinusMinus = "9: L21 is -0, L31 is -infinity",
});

fn factor_input<const S: usize>(
    list: &[[f64; S]],
    random: &mut Random,
    number: u64,
    words: &mut [u64],
    hits: &mut Hits,
) {
    // an old factor of numbers and now and then a NaN, which is no input number
    let (old, a) = words.split_at_mut(S);
    fill_words(random, old);
    if random.bits(1) == 0 {
        let at = random.below(S as u64) as usize;
        old[at] = not_finite(random);
    }
    if let Some(listed) = list.get(number as usize) {
        return put(a, listed);
    }
    let mut places = [0.0; S];
    hits.hit(matrix(random, &mut places) as usize);
    put(a, &places);
    spoil(random, a);
}

/// What a factor's call gives: its code, the number of a refused pivot, and what then stands where the old factor stood. The crate
/// lets a NaN pivot pass: the 9 is a difference from it. Such a pivot is worked out from the numbers that the crate wrote, and those
/// before its root are the answer's, as the crate wrote them but for the bits of a NaN.
pub fn factored<const S: usize>(old: &Sym<S>, a: &Sym<S>) -> (u64, u64, Sym<S>)
where
    Sym<S>: Size,
{
    if !all_finite(&a.data) {
        return (INPUT_NOT_FINITE, 0, old.clone());
    }
    let mut l = old.clone();
    match l.factor(a) {
        Err(DenseFactorizationError::Cholesky(k)) => (PIVOT, k as u64, l),
        Ok(()) => match (1..=Sym::<S>::N).find(|k| pivot_of(*k, &a.data, &l.data).is_nan()) {
            Some(k) => (NAN_PIVOT, k as u64, stopped(old, &l, k)),
            None if all_finite(&l.data) => (DONE, 0, l),
            None => (ANSWER_NOT_FINITE, 0, old.clone()),
        },
    }
}

/// The pivot with this number, by the factor as far as it is written before.
fn pivot_of(number: usize, a: &[f64], l: &[f64]) -> f64 {
    match number {
        1 => a[0],
        2 => a[2] - l[1] * l[1],
        _ => a[5] - l[3] * l[3] - l[4] * l[4],
    }
}

/// What stands if the crate's steps stop at this pivot: the crate's numbers before the place of its root, with the port's pattern for
/// each NaN among them, and from that place on the old factor's.
fn stopped<const S: usize>(old: &Sym<S>, l: &Sym<S>, pivot: usize) -> Sym<S> {
    let root = pivot * (pivot + 1) / 2 - 1;
    let written = |i: usize| f64::from_bits(bits(l.data[i]));
    DenseMatrixSymN {
        data: std::array::from_fn(|i| if i < root { written(i) } else { old.data[i] }),
    }
}

fn factor<const S: usize>(input: &[u64], out: &mut [u64], hits: &mut Hits)
where
    Sym<S>: Size,
{
    let old = symmetric::<S>(input);
    let a = symmetric::<S>(&input[S..]);
    let (code, pivot, l) = factored(&old, &a);
    out[0] = code;
    out[1] = pivot;
    put(&mut out[2..], &l.data);
    count_factor(&old.data, &a.data, code, pivot, &l.data, hits);
}

fn count_factor(old: &[f64], a: &[f64], code: u64, pivot: u64, l: &[f64], hits: &mut Hits) {
    let mut hit = |branch: Factor| hits.hit(branch as usize);
    let spoilt = old.iter().any(|x| x.is_nan());
    match code {
        DONE => {
            hit(Factor::Done);
            if spoilt {
                hit(Factor::OldDone);
            }
        }
        INPUT_NOT_FINITE => {
            if spoilt {
                hit(Factor::OldInput);
            }
            match first_not_finite(a).expect("a place that is refused") {
                place if place < 3 => hits.hit(Factor::Matrix1 as usize + place),
                place => hits.hit(Factor::Matrix4 as usize + place - 3),
            }
        }
        PIVOT => {
            if spoilt {
                hit(Factor::OldPivot);
            }
            hit(refused_pivot(pivot as usize, a, l));
        }
        NAN_PIVOT => {
            hit(Factor::Nan3);
            if spoilt {
                hit(Factor::OldNan);
            }
            hits.hit(Factor::NanPlusPlus as usize + signs(pivot, l));
        }
        _ => panic!("code {code} of a factor, of {a:?}"),
    }
}

/// The branch of the pivot with this number, which is at most 0, by the factor as far as it was written.
fn refused_pivot(pivot: usize, a: &[f64], l: &[f64]) -> Factor {
    let ([below, plus_zero, minus_zero], infinite) = match pivot {
        1 => (
            [Factor::Below1, Factor::PlusZero1, Factor::MinusZero1],
            Factor::Below1,
        ),
        2 => (
            [Factor::Below2, Factor::PlusZero2, Factor::MinusZero2],
            Factor::Infinite2,
        ),
        _ => (
            [Factor::Below3, Factor::PlusZero3, Factor::MinusZero3],
            Factor::Infinite3,
        ),
    };
    let t = pivot_of(pivot, a, l);
    match t {
        _ if t.to_bits() == 0 => plus_zero,
        _ if t.to_bits() == SIGN => minus_zero,
        _ if t.is_infinite() => infinite,
        _ => below,
    }
}

/// Which of the four cases of a NaN pivot it is, by the sign of L21 and then that of L31. There is no other: it is the third, L21 is
/// a zero and L31 is infinite.
fn signs(pivot: u64, l: &[f64]) -> usize {
    assert_eq!(pivot, 3, "a NaN pivot is the third, over {l:?}");
    assert!(l[1] == 0.0 && l[3].is_infinite(), "by other numbers: {l:?}");
    2 * usize::from(l[1].is_sign_negative()) + usize::from(l[3].is_sign_negative())
}

// ---- solutions by a factor, on lent slices

fn solve_input<const S: usize>(random: &mut Random, words: &mut [u64])
where
    Sym<S>: Size,
{
    lent::fill(random, S, Sym::<S>::N, words);
    // mostly the factor of a matrix, and otherwise any numbers
    if random.below(4) > 0 {
        let mut a = Sym::<S>::zeros();
        matrix(random, &mut a.data);
        let mut l = Sym::<S>::zeros();
        if l.factor(&a).is_ok() {
            put(&mut words[..S], &l.data);
            spoil(random, &mut words[..S]);
        }
    }
}

fn solve<const S: usize>(input: &[u64], out: &mut [u64], hits: &mut Hits)
where
    Sym<S>: Size,
{
    let l = symmetric::<S>(input);
    let wants = Wants::AtLeast(Sym::<S>::N);
    lent::answer(wants, &l.data, &input[S..], out, hits, |x, b| l.solve(x, b));
}

// ---- both: the matrix, the right side; code, pivot, factor, solution

branches!(Solved {
    Done = "0",
    Matrix = "5: by the matrix",
    Side = "5: by the right side",
    Pivot1 = "6: pivot 1",
    Pivot2 = "6: pivot 2",
    Solution = "7: by the solution",
    Pivot3 = "6: pivot 3",
    Nan3 = "9: pivot 3 is NaN",
    NanPlusPlus = "9: L21 is +0, L31 is +infinity",
    NanPlusMinus = "9: L21 is +0, L31 is -infinity",
    NanMinusPlus = "9: L21 is -0, L31 is +infinity",
    NanMinusMinus = "9: L21 is -0, L31 is -infinity",
});

fn solved_input<const S: usize>(
    list: &[[f64; S]],
    random: &mut Random,
    number: u64,
    words: &mut [u64],
) {
    let (a, b) = words.split_at_mut(S);
    if let Some(listed) = list.get(number as usize) {
        put(a, listed);
        return put(b, &[8.0, 10.0, 12.0]);
    }
    let mut places = [0.0; S];
    matrix(random, &mut places);
    put(a, &places);
    for word in b.iter_mut() {
        *word = bits(match random.below(3) {
            0 => finite(random),
            1 => whole(random, -8, 8) as f64,
            _ => even(random),
        });
    }
    spoil(random, words);
}

/// The factor and the solution, or the code and the number of a refused pivot.
pub fn solved<const S: usize, const N: usize>(
    a: &Sym<S>,
    b: &[f64; N],
) -> Result<(Sym<S>, [f64; N]), (u64, u64)>
where
    Sym<S>: Size,
{
    if !all_finite(b) {
        return Err((INPUT_NOT_FINITE, 0));
    }
    let (code, pivot, l) = factored(&Sym::<S>::zeros(), a);
    if code != DONE {
        return Err((code, pivot));
    }
    let mut x = [0.0; N];
    l.solve(&mut x, b);
    if all_finite(&x) {
        Ok((l, x))
    } else {
        Err((ANSWER_NOT_FINITE, 0))
    }
}

fn factor_and_solve<const S: usize, const N: usize>(input: &[u64], out: &mut [u64], hits: &mut Hits)
where
    Sym<S>: Size,
{
    let a = symmetric::<S>(input);
    let answer = solved(&a, &numbers::<N>(&input[S..]));
    out.fill(0);
    let branch = match &answer {
        Ok(_) => Solved::Done,
        Err((INPUT_NOT_FINITE, _)) if all_finite(&a.data) => Solved::Side,
        Err((INPUT_NOT_FINITE, _)) => Solved::Matrix,
        Err((PIVOT, k)) => [Solved::Pivot1, Solved::Pivot2, Solved::Pivot3][*k as usize - 1],
        Err((NAN_PIVOT, k)) => {
            let (_, _, l) = factored(&Sym::<S>::zeros(), &a);
            hits.hit(Solved::NanPlusPlus as usize + signs(*k, &l.data));
            Solved::Nan3
        }
        Err(_) if factored(&Sym::<S>::zeros(), &a).0 == DONE => Solved::Solution,
        Err((code, _)) => panic!("code {code} by the factor, of {:?}", a.data),
    };
    hits.hit(branch as usize);
    match answer {
        Ok((l, x)) => {
            put(&mut out[2..], &l.data);
            put(&mut out[2 + S..], &x);
        }
        Err((code, pivot)) => [out[0], out[1]] = [code, pivot],
    }
}

// ---- the pivot step, which takes any float: a pivot, its number; code, number of the refused one, root

branches!(Pivot {
    Root = "a root",
    Below = "refused: below 0",
    PlusZero = "refused: +0",
    MinusZero = "refused: -0",
    MinusInfinity = "refused: -infinity",
    PlusInfinity = "a root: +infinity",
    Nan = "refused: NaN",
});

fn pivot_input(random: &mut Random, number: u64, words: &mut [u64], _: &mut Hits) {
    words[0] = match listed(number) {
        Some(pattern) => pattern,
        None => match random.below(8) {
            0 => not_finite(random),
            1 => bits(zero(random)),
            _ => bits(finite(random)),
        },
    };
    words[1] = 1 + random.below(3);
}

fn pivot(input: &[u64], out: &mut [u64], hits: &mut Hits) {
    let t = number(input[0]);
    hits.hit(match t {
        _ if t.is_nan() => Pivot::Nan,
        f64::INFINITY => Pivot::PlusInfinity,
        f64::NEG_INFINITY => Pivot::MinusInfinity,
        _ if t.to_bits() == 0 => Pivot::PlusZero,
        _ if t.to_bits() == SIGN => Pivot::MinusZero,
        _ if t < 0.0 => Pivot::Below,
        _ => Pivot::Root,
    } as usize);
    let code = match t {
        _ if t <= 0.0 => PIVOT,
        _ if t.is_nan() => NAN_PIVOT,
        _ => DONE,
    };
    out[0] = code;
    out[1] = if code == DONE { 0 } else { input[1] };
    out[2] = if code == DONE { bits(t.sqrt()) } else { 0 };
}
