//! Jobs of the row call, by a seed alone: rows of all lengths, and of matrices of all sorts.

use crate::codes::{ANSWER_NOT_FINITE, DONE, INPUT_NOT_FINITE};
use crate::numbers::numbers;
use crate::random::Random;
use crate::row::{single, Job, Matrix, Single, MOST, ROOM};
use crate::subject::Hits;
use crate::subjects;
use crate::svd;

/// What becomes of a matrix: it is answered, settled or with one of the two reasons for the mark 0, or it is refused.
#[derive(Clone, Copy, PartialEq)]
pub enum Sort {
    Settled,
    Blind,
    Unsettled,
    Nan,
    Infinite,
    Overflow,
}

/// Those that stand alone in a row, each in each place, among matrices that are settled.
const ALONE: [Sort; 5] = [
    Sort::Blind,
    Sort::Unsettled,
    Sort::Nan,
    Sort::Infinite,
    Sort::Overflow,
];

const REFUSED: [Sort; 3] = [Sort::Nan, Sort::Infinite, Sort::Overflow];

impl Sort {
    /// By what the single call gives for the matrix.
    pub fn of(matrix: &Matrix, answer: &Single) -> Self {
        let given = numbers::<9>(matrix);
        match answer {
            [INPUT_NOT_FINITE, ..] if given.iter().any(|x| x.is_nan()) => Self::Nan,
            [INPUT_NOT_FINITE, ..] => Self::Infinite,
            [ANSWER_NOT_FINITE, ..] => Self::Overflow,
            [DONE, _, 1, ..] => Self::Settled,
            _ if svd::run(given, |_, _, _| {}).settled => Self::Blind,
            _ => Self::Unsettled,
        }
    }

    pub fn is_refused(self) -> bool {
        REFUSED.contains(&self)
    }
}

/// An input of the single call, or one that its mark turns on. About half of the latter are listed: those with the lower numbers.
fn any(random: &mut Random) -> Matrix {
    const NUMBERS: u64 = 512;
    let name = ["svd3", "svd3_mark"][random.below(2) as usize];
    let subject = subjects::named(name).expect("a subject of that name");
    let mut matrix = [0; 9];
    let mut uncounted = Hits(vec![0; subject.branches.len()]);
    let number = random.below(NUMBERS);
    (subject.input)(random, number, &mut matrix, &mut uncounted);
    matrix
}

/// One of this sort.
fn of(sort: Sort, random: &mut Random) -> Matrix {
    loop {
        let matrix = any(random);
        if Sort::of(&matrix, &single(&matrix)) == sort {
            return matrix;
        }
    }
}

fn of_lengths(random: &mut Random, matrices: usize, answers: usize) -> Job {
    Job {
        matrices: (0..matrices).map(|_| any(random)).collect(),
        answers,
    }
}

fn of_sorts(random: &mut Random, sorts: impl Iterator<Item = Sort>) -> Job {
    let matrices: Vec<Matrix> = sorts.map(|sort| of(sort, random)).collect();
    let answers = matrices.len();
    Job { matrices, answers }
}

/// A full row of settled ones, but for one place.
fn with_one(random: &mut Random, place: usize, sort: Sort) -> Job {
    let mut sorts = [Sort::Settled; MOST];
    sorts[place] = sort;
    of_sorts(random, sorts.into_iter())
}

/// The listed jobs, and then others at random.
pub fn jobs(count: u64, seed: u64) -> impl Iterator<Item = Job> {
    let mut random = Random::new(seed);
    let mut listed = listed(&mut random).into_iter();
    (0..count).map(move |_| listed.next().unwrap_or_else(|| any_job(&mut random)))
}

/// Rows of each length; of each two lengths that differ by one, or of which one is too long; each sort alone in each place of a full row;
/// and rows of each length that are refused in all places.
fn listed(random: &mut Random) -> Vec<Job> {
    let mut all = Vec::new();
    for n in 0..=ROOM {
        all.push(of_lengths(random, n, n));
    }
    for n in 0..ROOM {
        for m in [n + 1, ROOM] {
            all.push(of_lengths(random, n, m));
            all.push(of_lengths(random, m, n));
        }
    }
    for sort in ALONE {
        for place in 0..MOST {
            all.push(with_one(random, place, sort));
        }
    }
    for n in 1..=MOST {
        let in_turn = (n..2 * n).map(|i| REFUSED[i % REFUSED.len()]);
        all.push(of_sorts(random, in_turn));
    }
    all
}

/// A job of any lengths, which are most often equal.
fn any_job(random: &mut Random) -> Job {
    let [n, other] = [0; 2].map(|_| random.below(ROOM as u64 + 1) as usize);
    let m = if random.below(8) == 0 { other } else { n };
    of_lengths(random, n, m)
}

/// The golden list: few jobs that meet each case.
pub fn golden() -> Vec<Job> {
    const SEED: u64 = 1;
    let random = &mut Random::new(SEED);
    let mut with_all = with_one(random, 62, Sort::Overflow);
    with_all.matrices[1] = of(Sort::Blind, random);
    with_all.matrices[30] = of(Sort::Unsettled, random);
    vec![
        of_lengths(random, 0, 0),
        of_sorts(random, [Sort::Nan].into_iter()),
        of_sorts(random, [Sort::Settled, Sort::Infinite].into_iter()),
        with_one(random, 0, Sort::Nan),
        with_one(random, MOST - 1, Sort::Infinite),
        with_all,
        of_lengths(random, ROOM, ROOM),
        of_lengths(random, ROOM, MOST),
        of_lengths(random, MOST, ROOM),
    ]
}

/// A job that the end of the input cuts off: its last byte is missing.
pub fn part() -> Vec<u8> {
    let mut bytes = of_lengths(&mut Random::new(0), 2, 2).bytes();
    bytes.pop();
    bytes
}
