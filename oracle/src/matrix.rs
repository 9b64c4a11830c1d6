//! The matrix types against the crate's: their places, what moves their numbers, and what is computed with one alone.

use crate::algebra::{DenseMatrixMut, DenseMatrixN, DenseMatrixSymN};
use crate::codes::{ANSWER_NOT_FINITE, DONE, INPUT_LENGTH, INPUT_NOT_FINITE, OUTSIDE};
use crate::float::{bits, HIDDEN, SIGN};
use crate::lent::{self, Slices, Wants};
use crate::numbers::{all_finite, fill_words, first_not_finite, number, numbers, put};
use crate::random::Random;
use crate::subject::{branches, first, Hits, Subject};

pub const SUBJECTS: &[Subject] = &[
    places("places_sym2", 16, 3, |input, out, hits| {
        places_of(symmetric::<3>(&input[3..]), input, out, hits)
    }),
    places("places_sym3", 17, 6, |input, out, hits| {
        places_of(symmetric::<6>(&input[3..]), input, out, hits)
    }),
    places("places_mat2", 18, 4, |input, out, hits| {
        places_of(square::<4>(&input[3..]), input, out, hits)
    }),
    places("places_mat3", 19, 9, |input, out, hits| {
        places_of(square::<9>(&input[3..]), input, out, hits)
    }),
    moves(
        "moves_mat2",
        20,
        4,
        first(Moves::NAMES, Moves::FlipThird as usize),
        moves_of::<4>,
    ),
    moves("moves_mat3", 21, 9, Moves::NAMES, moves_of::<9>),
    scaled("scaled_sym2", 22, 3, scaled_of::<3>),
    scaled("scaled_sym3", 23, 6, scaled_of::<6>),
    Subject {
        name: "mul_mat2",
        operation: 24,
        words_in: 4 + lent::WORDS,
        words_out: lent::WORDS_OUT,
        branches: lent::Exactly::names(4),
        input: |random, _, words, _| lent::fill(random, 4, 2, words),
        answer: square_mul::<4>,
    },
    Subject {
        name: "mul_mat3",
        operation: 25,
        words_in: 9 + lent::WORDS,
        words_out: lent::WORDS_OUT,
        branches: lent::Exactly::names(9),
        input: |random, _, words, _| lent::fill(random, 9, 3, words),
        answer: square_mul::<9>,
    },
    Subject {
        name: "mul_sym3",
        operation: 26,
        words_in: 6 + lent::WORDS,
        words_out: lent::WORDS_OUT,
        branches: lent::AtLeast::names(6),
        input: on_slices,
        answer: symmetric_mul,
    },
    Subject {
        name: "quad_form",
        operation: 27,
        words_in: 6 + lent::WORDS,
        words_out: 2,
        branches: QuadForm::NAMES,
        input: on_slices,
        answer: quad_form,
    },
    Subject {
        name: "norm_fro",
        operation: 28,
        words_in: 6,
        words_out: 2,
        branches: NormFro::NAMES,
        input: |random, number, words, _| match number {
            0 => put(words, &ONE_TO_SIX),
            _ => fill_words(random, words),
        },
        answer: norm_fro,
    },
];

/// The matrix and the vector of the crate's own tests.
const ONE_TO_SIX: [f64; 6] = [1.0, 2.0, 3.0, 4.0, 5.0, 6.0];
const VECTOR: [f64; 3] = [-2.0, -7.0, 3.0];

type Answer = fn(&[u64], &mut [u64], &mut Hits);

fn square<const S: usize>(words: &[u64]) -> DenseMatrixN<S, f64> {
    DenseMatrixN {
        data: numbers(words),
    }
}

fn symmetric<const S: usize>(words: &[u64]) -> DenseMatrixSymN<S, f64> {
    DenseMatrixSymN {
        data: numbers(words),
    }
}

/// A row or a column: mostly one of a matrix or next to it, and now and then a far one.
fn line(random: &mut Random) -> u64 {
    match random.below(8) {
        0 => random.word(),
        _ => random.below(4),
    }
}

/// The first inputs: rows and columns from 0 to 3 on the matrix 1, 2, 3, ...
fn listed_lines(number: u64, words: &mut [u64], from: usize) -> bool {
    if number >= 16 {
        return false;
    }
    words[0] = number / 4;
    words[1] = number % 4;
    for (i, word) in words[from..].iter_mut().enumerate() {
        *word = bits((i + 1) as f64);
    }
    true
}

// ---- places: row, column, a number to write, the matrix; code and place, code and number, code and matrix

branches!(Places {
    Diagonal = "0: on the diagonal",
    Above = "0: above the diagonal",
    Below = "0: below the diagonal",
    Row = "8: row outside",
    Column = "8: column outside",
    Both = "8: both outside",
    Far = "8: a row of 2^32 or more",
    Nan = "read: NaN",
    Infinite = "read: infinite",
    MinusZero = "read: -0",
    Subnormal = "read: subnormal",
    WritesNan = "written: NaN",
});

const fn places(name: &'static str, operation: u8, size: usize, answer: Answer) -> Subject {
    Subject {
        name,
        operation,
        words_in: 3 + size,
        words_out: 5 + size,
        branches: Places::NAMES,
        input: |random, number, words, _| {
            if !listed_lines(number, words, 2) {
                words[0] = line(random);
                words[1] = line(random);
                fill_words(random, &mut words[2..]);
            }
        },
        answer,
    }
}

fn places_of(mut a: impl DenseMatrixMut<f64>, input: &[u64], out: &mut [u64], hits: &mut Hits) {
    let n = a.size().0;
    let place = (input[0] as usize, input[1] as usize);
    let x = number(input[2]);
    count_place(n, place, hits);
    if place.0 < n && place.1 < n {
        let read = a[place];
        count_number(read, x, hits);
        out[..5].copy_from_slice(&[DONE, a.index_linear(place) as u64, DONE, bits(read), DONE]);
        a[place] = x;
    } else {
        out[..5].copy_from_slice(&[OUTSIDE, 0, OUTSIDE, 0, OUTSIDE]);
    }
    put(&mut out[5..], a.data());
}

fn count_place(n: usize, (row, column): (usize, usize), hits: &mut Hits) {
    hits.hit(match (row < n, column < n) {
        (true, true) if row < column => Places::Above,
        (true, true) if row > column => Places::Below,
        (true, true) => Places::Diagonal,
        (false, true) => Places::Row,
        (true, false) => Places::Column,
        (false, false) => Places::Both,
    } as usize);
    if row >> 32 != 0 {
        hits.hit(Places::Far as usize);
    }
}

fn count_number(read: f64, written: f64, hits: &mut Hits) {
    let mut hit = |branch: Places| hits.hit(branch as usize);
    match read.to_bits() {
        SIGN => hit(Places::MinusZero),
        x if read != 0.0 && x % SIGN < HIDDEN => hit(Places::Subnormal),
        _ if read.is_nan() => hit(Places::Nan),
        _ if read.is_infinite() => hit(Places::Infinite),
        _ => {}
    }
    if written.is_nan() {
        hit(Places::WritesNan);
    }
}

// ---- moves: two columns, the matrix; identity, transpose, code and flipped, code and swapped

branches!(Moves {
    FlipFirst = "flip: column 1",
    FlipSecond = "flip: column 2",
    FlipOutside = "flip: 8",
    Swap12 = "swap: columns 1 and 2",
    Swap21 = "swap: columns 2 and 1",
    SwapNone = "swap: a column with itself",
    SwapFirst = "swap: 8, by the first",
    SwapSecond = "swap: 8, by the second",
    SwapBoth = "swap: 8, by both",
    Nan = "NaN among the numbers",
    MinusZero = "-0 among the numbers",
    FlipThird = "flip: column 3",
    Swap13 = "swap: columns 1 and 3",
    Swap31 = "swap: columns 3 and 1",
    Swap23 = "swap: columns 2 and 3",
    Swap32 = "swap: columns 3 and 2",
});

const fn moves(
    name: &'static str,
    operation: u8,
    size: usize,
    branches: &'static [&'static str],
    answer: Answer,
) -> Subject {
    Subject {
        name,
        operation,
        words_in: 2 + size,
        words_out: 2 + 4 * size,
        branches,
        input: |random, number, words, _| {
            if !listed_lines(number, words, 2) {
                words[0] = line(random);
                words[1] = line(random);
                fill_words(random, &mut words[2..]);
            }
        },
        answer,
    }
}

fn moves_of<const S: usize>(input: &[u64], out: &mut [u64], hits: &mut Hits) {
    let n = DenseMatrixN::<S, f64>::N;
    let (i, j) = (input[0] as usize, input[1] as usize);
    let given = square::<S>(&input[2..]);

    let mut a = given.clone();
    a.set_identity();
    put(out, &a.data);

    let mut a = given.clone();
    a.transpose_in_place();
    put(&mut out[S..], &a.data);

    let mut a = given.clone();
    let flips = i < n;
    if flips {
        a.flip_column(i);
    }
    out[2 * S] = if flips { DONE } else { OUTSIDE };
    put(&mut out[2 * S + 1..], &a.data);

    let mut a = given.clone();
    let swaps = i < n && j < n;
    if swaps {
        a.swap_columns(i, j);
    }
    out[3 * S + 1] = if swaps { DONE } else { OUTSIDE };
    put(&mut out[3 * S + 2..], &a.data);

    count_moves(n, i, j, &given.data, hits);
}

fn count_moves(n: usize, i: usize, j: usize, numbers: &[f64], hits: &mut Hits) {
    let mut hit = |branch: Moves| hits.hit(branch as usize);
    hit(match i {
        _ if i >= n => Moves::FlipOutside,
        0 => Moves::FlipFirst,
        1 => Moves::FlipSecond,
        _ => Moves::FlipThird,
    });
    hit(match (i, j) {
        _ if i >= n && j >= n => Moves::SwapBoth,
        _ if i >= n => Moves::SwapFirst,
        _ if j >= n => Moves::SwapSecond,
        (0, 1) => Moves::Swap12,
        (1, 0) => Moves::Swap21,
        (0, 2) => Moves::Swap13,
        (2, 0) => Moves::Swap31,
        (1, 2) => Moves::Swap23,
        (2, 1) => Moves::Swap32,
        _ => Moves::SwapNone,
    });
    if numbers.iter().any(|x| x.is_nan()) {
        hit(Moves::Nan);
    }
    if numbers.iter().any(|x| x.to_bits() == SIGN) {
        hit(Moves::MinusZero);
    }
}

// ---- scaled: a factor, the matrix, another that is written over; code and scaled, copied

branches!(Scaled {
    Done = "0",
    Factor = "5: by the factor",
    Answer = "7",
    MinusZero = "0: -0 in the answer",
    Subnormal = "0: subnormal in the answer",
    NanCopied = "a NaN copied",
    Matrix1 = "5: by place 1 of the matrix",
    Matrix2 = "5: by place 2 of the matrix",
    Matrix3 = "5: by place 3 of the matrix",
    Matrix4 = "5: by place 4 of the matrix",
    Matrix5 = "5: by place 5 of the matrix",
    Matrix6 = "5: by place 6 of the matrix",
});

const fn scaled(name: &'static str, operation: u8, size: usize, answer: Answer) -> Subject {
    Subject {
        name,
        operation,
        words_in: 1 + 2 * size,
        words_out: 1 + 2 * size,
        branches: first(Scaled::NAMES, Scaled::Matrix1 as usize + size),
        input: |random, _, words, _| {
            let used = words.len() / 2 + 1;
            fill_words(random, &mut words[..used]);
            fill_words(random, &mut words[used..]);
        },
        answer,
    }
}

fn scaled_of<const S: usize>(input: &[u64], out: &mut [u64], hits: &mut Hits) {
    let c = number(input[0]);
    let b = symmetric::<S>(&input[1..]);

    let mut a = symmetric::<S>(&input[1 + S..]);
    a.scaled_from(c, &b);
    out[0] = if !c.is_finite() || !all_finite(&b.data) {
        INPUT_NOT_FINITE
    } else if !all_finite(&a.data) {
        ANSWER_NOT_FINITE
    } else {
        DONE
    };
    if out[0] != DONE {
        a = DenseMatrixSymN::zeros();
    }
    put(&mut out[1..], &a.data);
    count_scaled(c, &b.data, out[0], &a.data, hits);

    let mut a = symmetric::<S>(&input[1 + S..]);
    a.copy_from(&b);
    put(&mut out[1 + S..], &a.data);
}

fn count_scaled(c: f64, b: &[f64], code: u64, answer: &[f64], hits: &mut Hits) {
    let mut hit = |branch: Scaled| hits.hit(branch as usize);
    if b.iter().any(|x| x.is_nan()) {
        hit(Scaled::NanCopied);
    }
    match code {
        DONE => {
            hit(Scaled::Done);
            if answer.iter().any(|x| x.to_bits() == SIGN) {
                hit(Scaled::MinusZero);
            }
            if answer.iter().any(|x| x.is_subnormal()) {
                hit(Scaled::Subnormal);
            }
        }
        INPUT_NOT_FINITE if !c.is_finite() => hit(Scaled::Factor),
        INPUT_NOT_FINITE => {
            let place = first_not_finite(b).expect("a place that is refused");
            hits.hit(Scaled::Matrix1 as usize + place);
        }
        _ => hit(Scaled::Answer),
    }
}

// ---- products, on lent slices

fn square_mul<const S: usize>(input: &[u64], out: &mut [u64], hits: &mut Hits) {
    let n = DenseMatrixN::<S, f64>::N;
    let a = square::<S>(input);
    let slices = &input[S..];
    lent::answer(Wants::Exactly(n), &a.data, slices, out, hits, |y, x| {
        a.mul(y, x)
    });
    if out[0] == DONE {
        let x = Slices::of(slices).input;
        let minus_zero = |r: usize, c: usize| (a[(r, c)] * x[c]).to_bits() == SIGN;
        if (0..n).any(|r| (0..n).all(|c| minus_zero(r, c))) {
            hits.hit(lent::Exactly::FromZero as usize);
        }
    }
}

/// The slices of `mul` and `quad_form`, of which both are inputs.
fn on_slices(random: &mut Random, number: u64, words: &mut [u64], _: &mut Hits) {
    match number {
        0 => lent::list(&ONE_TO_SIX, &VECTOR, &VECTOR, words),
        _ => lent::fill(random, 6, 3, words),
    }
}

fn symmetric_mul(input: &[u64], out: &mut [u64], hits: &mut Hits) {
    let a = symmetric::<6>(input);
    lent::answer(
        Wants::AtLeast(3),
        &a.data,
        &input[6..],
        out,
        hits,
        |y, x| a.mul(y, x),
    );
}

branches!(QuadForm {
    Done = "0",
    ShortY = "1: y short",
    ShortX = "1: x short",
    ShortBoth = "1: both short",
    Matrix = "5: by the matrix",
    Y = "5: by y",
    X = "5: by x",
    Answer = "7",
    LongY = "0: y long",
    LongX = "0: x long",
    PastY = "0: NaN or infinity past y's three",
    PastX = "0: NaN or infinity past x's three",
    Zero = "0: +0 from products that are -0",
});

fn quad_form(input: &[u64], out: &mut [u64], hits: &mut Hits) {
    let a = symmetric::<6>(input);
    let s = Slices::of(&input[6..]);
    let (y, x) = (&s.output[..s.output_length], &s.input[..s.input_length]);
    let mut hit = |branch: QuadForm| hits.hit(branch as usize);
    out.fill(0);
    out[0] = if y.len() < 3 || x.len() < 3 {
        hit(match (y.len() < 3, x.len() < 3) {
            (true, true) => QuadForm::ShortBoth,
            (true, false) => QuadForm::ShortY,
            _ => QuadForm::ShortX,
        });
        INPUT_LENGTH
    } else if !all_finite(&a.data) || !all_finite(&y[..3]) || !all_finite(&x[..3]) {
        hit(match (all_finite(&a.data), all_finite(&y[..3])) {
            (false, _) => QuadForm::Matrix,
            (_, false) => QuadForm::Y,
            _ => QuadForm::X,
        });
        INPUT_NOT_FINITE
    } else {
        let answer = a.quad_form(y, x);
        if answer.is_finite() {
            out[1] = bits(answer);
            count_quad_form(&a, y, x, hits);
            DONE
        } else {
            hit(QuadForm::Answer);
            ANSWER_NOT_FINITE
        }
    };
}

/// A good answer: what lies past the three numbers of each slice, and a sum of -0 alone.
fn count_quad_form(a: &DenseMatrixSymN<6, f64>, y: &[f64], x: &[f64], hits: &mut Hits) {
    hits.hit(QuadForm::Done as usize);
    let product = |i: usize| {
        let row = std::array::from_fn::<f64, 3, _>(|j| a[(i, j)] * x[j]);
        (y[i] * (row[0] + row[1] + row[2])).to_bits()
    };
    for (branch, met) in [
        (QuadForm::LongY, y.len() > 3),
        (QuadForm::LongX, x.len() > 3),
        (QuadForm::PastY, !all_finite(&y[3..])),
        (QuadForm::PastX, !all_finite(&x[3..])),
        (QuadForm::Zero, (0..3).all(|i| product(i) == SIGN)),
    ] {
        if met {
            hits.hit(branch as usize);
        }
    }
}

branches!(NormFro {
    Done = "0",
    Matrix1 = "5: by place 1 of the matrix",
    Matrix2 = "5: by place 2 of the matrix",
    Matrix3 = "5: by place 3 of the matrix",
    Matrix4 = "5: by place 4 of the matrix",
    Matrix5 = "5: by place 5 of the matrix",
    Matrix6 = "5: by place 6 of the matrix",
    Answer = "7",
    Vanished = "0: squares that vanish",
});

fn norm_fro(input: &[u64], out: &mut [u64], hits: &mut Hits) {
    let a = symmetric::<6>(input);
    let mut hit = |branch: NormFro| hits.hit(branch as usize);
    out.fill(0);
    if let Some(place) = first_not_finite(&a.data) {
        out[0] = INPUT_NOT_FINITE;
        hits.hit(NormFro::Matrix1 as usize + place);
        return;
    }
    let answer = a.norm_fro();
    if !answer.is_finite() {
        out[0] = ANSWER_NOT_FINITE;
        return hit(NormFro::Answer);
    }
    out[1] = bits(answer);
    hit(NormFro::Done);
    if answer == 0.0 && a.data.iter().any(|x| *x != 0.0) {
        hit(NormFro::Vanished);
    }
}
