//! Calls on lent slices: a matrix, an output of which so many places are lent, and an input.
//!
//! Words in: the matrix, the output's length, the input's length, and eight places of each. Words out: the code, and all eight
//! places of the output afterwards.

use crate::codes::{ANSWER_NOT_FINITE, DONE, INPUT_LENGTH, INPUT_NOT_FINITE, OUTPUT_LENGTH};
use crate::numbers::{all_finite, fill_words, first_not_finite, not_finite, numbers, put, whole};
use crate::random::Random;
use crate::subject::{branches, first, Hits};

/// The words of the slices.
pub const WORDS: usize = 2 + 2 * PLACES;
pub const WORDS_OUT: usize = 1 + PLACES;
const PLACES: usize = 8;

/// The lengths that a call takes.
#[derive(Clone, Copy)]
pub enum Wants {
    Exactly(usize),
    AtLeast(usize),
}

impl Wants {
    fn size(self) -> usize {
        match self {
            Self::Exactly(n) | Self::AtLeast(n) => n,
        }
    }

    fn takes(self, length: usize) -> bool {
        match self {
            Self::Exactly(n) => length == n,
            Self::AtLeast(n) => length >= n,
        }
    }
}

// Of a call that wants a length exactly, and of one that wants a length at least.
branches!(pub Exactly {
    Done = "0",
    InputShort = "1: input short",
    InputLong = "1: input long",
    OutputShort = "2: output short",
    OutputLong = "2: output long",
    Both = "2: both lengths wrong",
    Input = "5: by the input",
    Answer = "7",
    Spoilt = "0: NaN in the old output",
    FromZero = "0: products all -0, their sum +0",
    Matrix1 = "5: by place 1 of the matrix",
    Matrix2 = "5: by place 2 of the matrix",
    Matrix3 = "5: by place 3 of the matrix",
    Matrix4 = "5: by place 4 of the matrix",
    Matrix5 = "5: by place 5 of the matrix",
    Matrix6 = "5: by place 6 of the matrix",
    Matrix7 = "5: by place 7 of the matrix",
    Matrix8 = "5: by place 8 of the matrix",
    Matrix9 = "5: by place 9 of the matrix",
});

branches!(pub AtLeast {
    Done = "0",
    InputShort = "1: input short",
    OutputShort = "2: output short",
    Both = "2: both lengths wrong",
    Input = "5: by the input",
    Answer = "7",
    Spoilt = "0: NaN in the old output",
    InputLong = "0: input long",
    OutputLong = "0: output long",
    Past = "0: NaN or infinity past what counts",
    MinusZero = "0: -0 in the answer",
    Matrix1 = "5: by place 1 of the matrix",
    Matrix2 = "5: by place 2 of the matrix",
    Matrix3 = "5: by place 3 of the matrix",
    Matrix4 = "5: by place 4 of the matrix",
    Matrix5 = "5: by place 5 of the matrix",
    Matrix6 = "5: by place 6 of the matrix",
});

impl Exactly {
    /// The branches for a matrix of so many places.
    pub const fn names(places: usize) -> &'static [&'static str] {
        first(Self::NAMES, Self::Matrix1 as usize + places)
    }
}

impl AtLeast {
    pub const fn names(places: usize) -> &'static [&'static str] {
        first(Self::NAMES, Self::Matrix1 as usize + places)
    }
}

pub struct Slices {
    pub output: [f64; PLACES],
    pub output_length: usize,
    pub input: [f64; PLACES],
    pub input_length: usize,
}

impl Slices {
    pub fn of(words: &[u64]) -> Self {
        Self {
            output_length: words[0] as usize,
            input_length: words[1] as usize,
            output: numbers(&words[2..]),
            input: numbers(&words[2 + PLACES..]),
        }
    }
}

/// Fills a matrix of so many places and the slices of a call of size n.
pub fn fill(random: &mut Random, places: usize, n: usize, words: &mut [u64]) {
    let mut used = [0; 40];
    let used = &mut used[..places + n];
    fill_words(random, used);
    words[..places].copy_from_slice(&used[..places]);
    let slices = &mut words[places..];
    for k in 0..2 {
        let length = match random.below(8) {
            0 => whole(random, 0, 8),
            1 => n as i64 - 1,
            2 => n as i64 + 1,
            _ => n as i64,
        };
        slices[k] = length as u64;
        let others = &mut slices[2 + k * PLACES..2 + (k + 1) * PLACES];
        fill_words(random, others);
        for word in others {
            if random.below(8) == 0 {
                *word = not_finite(random);
            }
        }
    }
    slices[2 + PLACES..2 + PLACES + n].copy_from_slice(&used[places..]);
}

/// Puts in a matrix, and slices that are lent whole.
pub fn list(matrix: &[f64], output: &[f64], input: &[f64], words: &mut [u64]) {
    words.fill(0);
    put(words, matrix);
    let slices = &mut words[matrix.len()..];
    slices[0] = output.len() as u64;
    slices[1] = input.len() as u64;
    put(&mut slices[2..], output);
    put(&mut slices[2 + PLACES..], input);
}

/// Fills in the answer by the crate's call, which runs where nothing is refused before it.
pub fn answer(
    wants: Wants,
    matrix: &[f64],
    words: &[u64],
    out: &mut [u64],
    hits: &mut Hits,
    call: impl FnOnce(&mut [f64], &[f64]),
) {
    let given = Slices::of(words);
    let n = wants.size();
    let mut output = given.output;
    let code = if !wants.takes(given.output_length) {
        OUTPUT_LENGTH
    } else if !wants.takes(given.input_length) {
        INPUT_LENGTH
    } else if !all_finite(matrix) || !all_finite(&given.input[..n]) {
        INPUT_NOT_FINITE
    } else {
        call(
            &mut output[..given.output_length],
            &given.input[..given.input_length],
        );
        if all_finite(&output[..n]) {
            DONE
        } else {
            ANSWER_NOT_FINITE
        }
    };
    if code != DONE {
        output = given.output;
    }
    out[0] = code;
    put(&mut out[1..], &output);
    match wants {
        Wants::Exactly(n) => count_exactly(n, matrix, &given, code, hits),
        Wants::AtLeast(n) => count_at_least(n, matrix, &given, code, &output, hits),
    }
}

fn count_exactly(n: usize, matrix: &[f64], given: &Slices, code: u64, hits: &mut Hits) {
    let mut hit = |branch: Exactly| hits.hit(branch as usize);
    match code {
        OUTPUT_LENGTH if given.input_length != n => hit(Exactly::Both),
        OUTPUT_LENGTH if given.output_length < n => hit(Exactly::OutputShort),
        OUTPUT_LENGTH => hit(Exactly::OutputLong),
        INPUT_LENGTH if given.input_length < n => hit(Exactly::InputShort),
        INPUT_LENGTH => hit(Exactly::InputLong),
        INPUT_NOT_FINITE => match first_not_finite(matrix) {
            Some(place) => hits.hit(Exactly::Matrix1 as usize + place),
            None => hit(Exactly::Input),
        },
        DONE => {
            hit(Exactly::Done);
            if !all_finite(&given.output[..n]) {
                hit(Exactly::Spoilt);
            }
        }
        _ => hit(Exactly::Answer),
    }
}

fn count_at_least(
    n: usize,
    matrix: &[f64],
    given: &Slices,
    code: u64,
    output: &[f64],
    hits: &mut Hits,
) {
    let mut hit = |branch: AtLeast| hits.hit(branch as usize);
    match code {
        OUTPUT_LENGTH if given.input_length < n => hit(AtLeast::Both),
        OUTPUT_LENGTH => hit(AtLeast::OutputShort),
        INPUT_LENGTH => hit(AtLeast::InputShort),
        INPUT_NOT_FINITE => match first_not_finite(matrix) {
            Some(place) => hits.hit(AtLeast::Matrix1 as usize + place),
            None => hit(AtLeast::Input),
        },
        DONE => {
            hit(AtLeast::Done);
            if !all_finite(&given.output[..n]) {
                hit(AtLeast::Spoilt);
            }
            if given.input_length > n {
                hit(AtLeast::InputLong);
            }
            if given.output_length > n {
                hit(AtLeast::OutputLong);
            }
            if !all_finite(&given.input[n..given.input_length]) {
                hit(AtLeast::Past);
            }
            if output[..n].iter().any(|x| x.to_bits() == 1 << 63) {
                hit(AtLeast::MinusZero);
            }
        }
        _ => hit(AtLeast::Answer),
    }
}
