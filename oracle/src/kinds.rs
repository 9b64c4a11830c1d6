//! The eight kinds of request: the numbers that each uses, and its answer by the crate's own modules.

use crate::algebra::DenseMatrixSymN;
use crate::cholesky::{self, Size, Sym};
use crate::codes::{ANSWER_NOT_FINITE, DONE};
use crate::eigen;
use crate::numbers::all_finite;
use crate::powers::{power_of, times};
use crate::subject::Subject;
use crate::subjects;
use crate::svd;

pub struct Kind {
    pub name: &'static str,
    /// So many of the nine numbers are used, and so many of the last three.
    pub nine: usize,
    pub three: usize,
    /// Whether its answers count rotations.
    pub counts: bool,
    /// Whether its matrix is scaled unless the request says no.
    pub scales: bool,
    /// The subject that has the same call: its inputs and branches are the kind's too.
    subject: &'static str,
    work: fn(&[f64; 9], &[f64; 3]) -> Answer,
}

/// The kinds, from 1 on.
pub const KINDS: [Kind; 8] = [
    kind("eigen 2x2", 3, 0, false, "eigen2", eigen2).scaled(),
    kind("eigen 3x3", 6, 0, true, "eigen_jacobi", eigen3).scaled(),
    kind("SVD 2x2", 4, 0, false, "svd2", svd2).scaled(),
    kind("SVD 3x3", 9, 0, true, "svd3", svd3).scaled(),
    kind("Cholesky 2x2", 3, 0, false, "factor2", factor::<3>),
    kind("Cholesky 3x3", 6, 0, false, "factor3", factor::<6>),
    kind("solve 2x2", 3, 2, false, "factor_and_solve2", solve::<3, 2>),
    kind("solve 3x3", 6, 3, false, "factor_and_solve3", solve::<6, 3>),
];

/// The ways of a request: with 0 a matrix that can be scaled is, and with 1 it is worked as it is given.
pub const DEFAULT: u8 = 0;
pub const AS_GIVEN: u8 = 1;

/// A table of records has a row for each kind, behind one for all numbers that are none.
pub const ROWS: usize = KINDS.len() + 1;
pub const OTHER: usize = 0;

pub fn row_of(kind: u8) -> usize {
    Kind::of(kind).map_or(OTHER, |_| usize::from(kind))
}

const fn kind(
    name: &'static str,
    nine: usize,
    three: usize,
    counts: bool,
    subject: &'static str,
    work: fn(&[f64; 9], &[f64; 3]) -> Answer,
) -> Kind {
    Kind {
        name,
        nine,
        three,
        counts,
        scales: false,
        subject,
        work,
    }
}

impl Kind {
    const fn scaled(self) -> Self {
        Self {
            scales: true,
            ..self
        }
    }

    /// The kind with a number, where there is one.
    pub fn of(number: u8) -> Option<&'static Self> {
        const ALL: &[Kind] = &KINDS;
        ALL.get(usize::from(number).checked_sub(1)?)
    }

    pub fn subject(&self) -> &'static Subject {
        subjects::named(self.subject).expect("a subject of that name")
    }

    /// The subject that looks at the mark of the same call, where the kind rotates. The mark of the others is 1.
    pub fn mark(&self) -> Option<&'static Subject> {
        subjects::named(&format!("{}_mark", self.subject))
    }

    /// So many of the subject's words come before the record's numbers: an old factor, which a record does not have.
    pub fn before(&self) -> usize {
        self.subject().words_in - self.nine - self.three
    }

    /// Whether the number in this place is used, counted from 0 through the nine and then the three.
    pub fn uses(&self, place: usize) -> bool {
        place < self.nine || (9..9 + self.three).contains(&place)
    }

    /// Whether a request may say so.
    pub fn has_way(&self, way: u8) -> bool {
        way == DEFAULT || self.scales && way == AS_GIVEN
    }

    /// The answer to numbers of which the used ones are finite, in the way that is the default.
    pub fn default_answer(&self, nine: &[f64; 9], three: &[f64; 3]) -> Answer {
        if !self.scales {
            return self.answer(nine, three);
        }
        let k = power_of(nine);
        let worked = self.answer(&divided(nine, k), three)?;
        let values = worked.values.map(|x| times(x, k));
        if !all_finite(&values) {
            return Err(refused(ANSWER_NOT_FINITE));
        }
        Ok(Worked { values, ..worked })
    }

    /// The answer to the numbers as they are.
    pub fn answer(&self, nine: &[f64; 9], three: &[f64; 3]) -> Answer {
        (self.work)(nine, three)
    }
}

/// Each number divided by 2^k.
pub fn divided(nine: &[f64; 9], k: i64) -> [f64; 9] {
    nine.map(|x| times(x, -k))
}

/// What stands in an answer of code 0. Places that a kind does not fill are +0.
pub struct Worked {
    pub count: u8,
    pub settled: bool,
    pub values: [f64; 3],
    pub left: [f64; 9],
    pub right: [f64; 9],
}

/// What stands in a refused one: besides the code, the number of the pivot that was refused, or 0.
pub struct Refused {
    pub code: u8,
    pub pivot: u8,
}

pub type Answer = Result<Worked, Refused>;

pub fn refused(code: u64) -> Refused {
    Refused {
        code: code as u8,
        pivot: 0,
    }
}

/// An answer with no count of rotations, and settled, as each of the factors is.
fn worked(values: &[f64], left: &[f64], right: &[f64]) -> Worked {
    Worked {
        count: 0,
        settled: true,
        values: padded(values),
        left: padded(left),
        right: padded(right),
    }
}

fn padded<const N: usize>(numbers: &[f64]) -> [f64; N] {
    std::array::from_fn(|i| numbers.get(i).copied().unwrap_or(0.0))
}

fn first<const K: usize>(numbers: &[f64]) -> [f64; K] {
    std::array::from_fn(|i| numbers[i])
}

fn eigen2(nine: &[f64; 9], _: &[f64; 3]) -> Answer {
    let a = first(nine);
    match eigen::call2(a, true) {
        Some((values, vectors)) => Ok(Worked {
            settled: eigen::mark2(a),
            ..worked(&values, &vectors, &[])
        }),
        None => Err(refused(ANSWER_NOT_FINITE)),
    }
}

fn eigen3(nine: &[f64; 9], _: &[f64; 3]) -> Answer {
    let end = eigen::run(first(nine), |_, _| {});
    if !end.is_finite(true) {
        return Err(refused(ANSWER_NOT_FINITE));
    }
    Ok(Worked {
        count: end.count as u8,
        settled: end.mark(),
        ..worked(&end.values, &end.v.data, &[])
    })
}

fn svd2(nine: &[f64; 9], _: &[f64; 3]) -> Answer {
    let a = first(nine);
    match svd::call2(a) {
        Some((values, u, v)) => Ok(Worked {
            settled: svd::mark2(a),
            ..worked(&values, &u, &v)
        }),
        None => Err(refused(ANSWER_NOT_FINITE)),
    }
}

fn svd3(nine: &[f64; 9], _: &[f64; 3]) -> Answer {
    let end = svd::run(*nine, |_, _, _| {});
    if !end.is_finite() {
        return Err(refused(ANSWER_NOT_FINITE));
    }
    Ok(Worked {
        count: end.count as u8,
        settled: end.mark(),
        ..worked(&end.values, &end.u.data, &end.v.data)
    })
}

fn factor<const S: usize>(nine: &[f64; 9], _: &[f64; 3]) -> Answer
where
    Sym<S>: Size,
{
    let a = DenseMatrixSymN { data: first(nine) };
    match cholesky::factored::<S>(&Sym::zeros(), &a) {
        (DONE, _, l) => Ok(worked(&[], &l.data, &[])),
        (code, pivot, _) => Err(with_pivot(code, pivot)),
    }
}

fn solve<const S: usize, const N: usize>(nine: &[f64; 9], three: &[f64; 3]) -> Answer
where
    Sym<S>: Size,
{
    let a = DenseMatrixSymN { data: first(nine) };
    match cholesky::solved::<S, N>(&a, &first(three)) {
        Ok((l, x)) => Ok(worked(&x, &l.data, &[])),
        Err((code, pivot)) => Err(with_pivot(code, pivot)),
    }
}

fn with_pivot(code: u64, pivot: u64) -> Refused {
    Refused {
        pivot: pivot as u8,
        ..refused(code)
    }
}
