//! The row call, from the words of the request: lent rows of matrices and of answers, and each place holds what the single call
//! gives for its matrix. A job of the program that makes the call is a row of each, in bytes.

use crate::codes::{DONE, ROWS_UNEQUAL, ROW_TOO_LONG};
use crate::subject::Hits;
use crate::subjects;

/// So many places a row may have. The program has room for one more, so that every refusal can be seen.
pub const MOST: usize = 64;
pub const ROOM: usize = MOST + 1;

/// An answer has its code, its count, its mark, and then so many numbers.
const HEAD: usize = 3;
const NUMBERS: usize = 30;

/// In bytes the numbers begin here.
const NUMBERS_AT: usize = 8;
pub const PLACE_BYTES: usize = NUMBERS_AT + 8 * NUMBERS;

/// What a job is answered by: the code, and all places.
pub const FILLED_BYTES: usize = 1 + ROOM * PLACE_BYTES;

/// The patterns of a matrix.
pub type Matrix = [u64; 9];

/// The words of an answer, in the order of the subject `svd3`.
pub type Single = [u64; HEAD + NUMBERS];

/// What the single call gives.
pub fn single(matrix: &Matrix) -> Single {
    let subject = subjects::named("svd3").expect("the single call");
    let mut answer = [0; HEAD + NUMBERS];
    let mut uncounted = Hits(vec![0; subject.branches.len()]);
    (subject.answer)(matrix, &mut answer, &mut uncounted);
    answer
}

/// What the program puts into a place before the call: a code and a count that no call gives, a mark that the places beside it do not
/// have, and the next numbers above 0, counted through all places.
fn found(place: usize) -> Single {
    const FIRST_CODE: usize = 30;
    const FIRST_COUNT: usize = 130;
    let mut answer = [0; HEAD + NUMBERS];
    let head = [FIRST_CODE + place, FIRST_COUNT + place, place % 2];
    let numbers = 1 + NUMBERS * place..;
    for (word, n) in answer.iter_mut().zip(head.into_iter().chain(numbers)) {
        *word = n as u64;
    }
    answer
}

/// So many matrices are lent, and so many answers.
pub struct Job {
    pub matrices: Vec<Matrix>,
    pub answers: usize,
}

/// What the call leaves: with code 0 the first places are filled, as many as there are matrices.
pub struct Filled {
    pub code: u64,
    pub answers: [Single; ROOM],
}

impl Job {
    pub fn bytes(&self) -> Vec<u8> {
        let mut bytes = vec![self.matrices.len() as u8, self.answers as u8];
        for matrix in &self.matrices {
            bytes.extend(matrix.iter().flat_map(|word| word.to_le_bytes()));
        }
        bytes
    }

    /// The code goes by the lengths alone, and only with code 0 a place is touched.
    pub fn filled(&self) -> Filled {
        let mut answers = std::array::from_fn(found);
        let code = match self.matrices.len() {
            n if n != self.answers => ROWS_UNEQUAL,
            n if n > MOST => ROW_TOO_LONG,
            _ => DONE,
        };
        if code == DONE {
            for (answer, matrix) in answers.iter_mut().zip(&self.matrices) {
                *answer = single(matrix);
            }
        }
        Filled { code, answers }
    }
}

impl Filled {
    pub fn bytes(&self) -> Vec<u8> {
        let mut bytes = vec![self.code as u8];
        for answer in &self.answers {
            let (head, numbers) = answer.split_at(HEAD);
            bytes.extend(head.iter().map(|word| *word as u8));
            bytes.extend([0; NUMBERS_AT - HEAD]);
            bytes.extend(numbers.iter().flat_map(|word| word.to_le_bytes()));
        }
        bytes
    }
}
