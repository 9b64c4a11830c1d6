//! The record step and the tally once more, written straight in Rust for nothing but speed: those of whoever
//! needs no proof. The kernels are the reference's.

use reference::codes::{ANSWER_NOT_FINITE, COUNT_TOO_LARGE, INPUT_NOT_FINITE, KIND, NOT_ZERO};
use reference::kinds::{refused, row_of, Answer, Kind, Worked, ROWS};
use reference::record::{
    ANSWER_BYTES, CODE_AT, COUNT_AT, KIND_AT, NUMBERS_AT, REQUEST_BYTES, SETTLED_AT,
};
use reference::rotations::MOST;
use std::array::from_fn;

/// A number is finite where these are not all set.
const EXPONENT: u64 = 0x7FF << 52;

/// A request's way stands behind its kind. The first of the kinds have two, and are scaled in the way 0.
const WAY_AT: usize = KIND_AT + 1;
const SCALED_KINDS: u8 = 4;

pub fn answer(request: &[u8; REQUEST_BYTES], out: &mut [u8; ANSWER_BYTES]) {
    out[..=KIND_AT].copy_from_slice(&request[..=KIND_AT]);
    match judged(request) {
        Ok(worked) => put(&worked, out),
        Err(refused) => {
            out[CODE_AT] = refused.code;
            out[COUNT_AT] = refused.pivot;
            out[SETTLED_AT..].fill(0);
        }
    }
}

fn judged(request: &[u8; REQUEST_BYTES]) -> Answer {
    let Some(kind) = Kind::of(request[KIND_AT]) else {
        return Err(refused(KIND));
    };
    let (head, numbers) = request.split_at(NUMBERS_AT);
    let word = |i: usize| numbers[8 * i..8 * i + 8].try_into().expect("eight bytes");
    let words: [u64; 12] = from_fn(|i| u64::from_le_bytes(word(i)));
    let (nine, three) = words.split_at(9);
    let unused = nine[kind.nine..].iter().chain(&three[kind.three..]);
    let scales = request[KIND_AT] <= SCALED_KINDS;
    let fits = request[WAY_AT] <= u8::from(scales) && head[WAY_AT + 1..] == [0; 2];
    if !fits || unused.fold(0, |all, word| all | word) != 0 {
        return Err(refused(NOT_ZERO));
    }
    if words.iter().any(|word| word & EXPONENT == EXPONENT) {
        return Err(refused(INPUT_NOT_FINITE));
    }
    let nine = from_fn(|i| f64::from_bits(words[i]));
    let three = from_fn(|i| f64::from_bits(words[9 + i]));
    if scales && request[WAY_AT] == 0 {
        return scaled(kind, nine);
    }
    kind.answer(&nine, &three)
}

/// The answer to the matrix divided by the power of two under its largest magnitude, with the values multiplied back.
fn scaled(kind: &Kind, nine: [f64; 9]) -> Answer {
    let largest = nine
        .iter()
        .fold(0.0, |largest: f64, x| largest.max(x.abs()));
    let power = power_under(largest);
    let inverse = 1.0 / power;
    // the smallest powers have none
    let divided = |x| {
        if inverse.is_finite() {
            x * inverse
        } else {
            x / power
        }
    };
    let mut worked = kind.answer(&nine.map(divided), &[0.0; 3])?;
    for value in &mut worked.values {
        *value *= power;
    }
    if worked.values.iter().all(|value| value.is_finite()) {
        return Ok(worked);
    }
    Err(refused(ANSWER_NOT_FINITE))
}

/// 1 for 0. The digits of a subnormal are its pattern.
fn power_under(largest: f64) -> f64 {
    let bits = largest.to_bits();
    match bits & EXPONENT {
        0 if bits == 0 => 1.0,
        0 => f64::from_bits(1 << bits.ilog2()),
        field => f64::from_bits(field),
    }
}

fn put(worked: &Worked, out: &mut [u8; ANSWER_BYTES]) {
    out[CODE_AT] = 0;
    out[COUNT_AT] = worked.count;
    out[SETTLED_AT] = u8::from(worked.settled);
    let (values, left) = (worked.values.iter(), worked.left.iter());
    let numbers = values.chain(left).chain(&worked.right);
    let places = out[NUMBERS_AT..].chunks_exact_mut(8);
    for (place, x) in places.zip(numbers) {
        place.copy_from_slice(&x.to_bits().to_le_bytes());
    }
}

/// The counts of a tally: ten of each row, then two for each number of rotations, the foreign records and
/// the bytes left over.
pub const COUNTS: usize = LEFT_AT + 1;
const COLUMNS: usize = 10;
const TURNS_AT: usize = COLUMNS * ROWS;
const FOREIGN_AT: usize = TURNS_AT + 2 * (MOST as usize + 1);
const LEFT_AT: usize = FOREIGN_AT + 1;

/// Answers more in a tally, and its code.
pub fn tally(counts: &mut [u64; COUNTS], answers: &[u8]) -> u8 {
    let mut records = answers.chunks_exact(ANSWER_BYTES);
    let left = records.remainder().len() as u64;
    if records.all(|answer| count(counts, answer)) && add(&mut counts[LEFT_AT], left) {
        return 0;
    }
    counts.fill(0);
    COUNT_TOO_LARGE as u8
}

fn add(count: &mut u64, more: u64) -> bool {
    let (sum, passes) = count.overflowing_add(more);
    *count = sum;
    !passes
}

/// Says whether all fits.
fn count(counts: &mut [u64; COUNTS], answer: &[u8]) -> bool {
    let [kind, code, turns, mark] = from_fn(|i| answer[KIND_AT + i]);
    let row = row_of(kind);
    let place = match code {
        0 | 1 => code,
        3..=7 => code - 1,
        9 => 7,
        _ => return add(&mut counts[FOREIGN_AT], 1),
    };
    if code > 0 {
        return add(&mut counts[COLUMNS * row + usize::from(place)], 1);
    }
    let turning = matches!(row, 2 | 4);
    if row == 0 || mark > 1 || turns > if turning { MOST as u8 } else { 0 } {
        return add(&mut counts[FOREIGN_AT], 1);
    }
    let turned = TURNS_AT + 2 * usize::from(turns) + usize::from(row == 4);
    add(&mut counts[COLUMNS * row], 1)
        && add(&mut counts[COLUMNS * row + 9 - usize::from(mark)], 1)
        && (!turning || add(&mut counts[turned], 1))
}
