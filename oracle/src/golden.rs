//! The golden list of the operations: for each one of the probe its subjects' inputs, with the right answers. The list is fixed.

use crate::codes::{
    ANSWER_NOT_FINITE, DONE, INPUT_LENGTH, INPUT_NOT_FINITE, NAN_PIVOT, OUTPUT_LENGTH, OUTSIDE,
    PIVOT,
};
use crate::random::Random;
use crate::subject::{Hits, Subject};
use crate::subjects;
use std::fs::File;
use std::io::{self, BufWriter, Write};

/// Of each subject the inputs of this seed, with the operation's number added.
const SEED: u64 = 1;

/// The first inputs are taken as they come: so many words of them and their answers, but not fewer nor more inputs than this. The
/// most takes three rounds of the probe.
const WORDS: usize = 2048;
const LEAST: usize = 48;
const MOST: usize = 300;

/// Then come inputs that reach a branch which those before reached fewer than so many times. The search ends with this many inputs.
const TIMES: u64 = 3;
const INPUTS: u64 = 1 << 20;

/// The last operation's job has no count, and its items end with so many bytes of a further one.
const PART: usize = 3;

/// An item with its answer.
struct Case {
    input: Vec<u64>,
    answer: Vec<u64>,
}

/// Writes the probe's input and its output, prints a line for each operation, and says whether each branch and each code is met.
pub fn write(input: &str, output: &str) -> io::Result<bool> {
    let mut input = BufWriter::new(File::create(input)?);
    let mut output = BufWriter::new(File::create(output)?);
    let mut all: Vec<&Subject> = subjects::all().collect();
    all.sort_by_key(|subject| subject.operation);
    // subjects of one operation share its job
    let jobs: Vec<&[&Subject]> = all.chunk_by(|a, b| a.operation == b.operation).collect();
    let (mut total, mut whole) = (0, true);
    for (place, job) in jobs.iter().enumerate() {
        let mut cases = Vec::new();
        for subject in *job {
            let (own, hits) = cases_of(subject);
            whole &= show(subject, &own, &hits);
            cases.extend(own);
        }
        total += cases.len();
        let last = place + 1 == jobs.len();
        let count = if last { 0 } else { cases.len() as u32 };
        let (n, m) = (job[0].words_in as u8, job[0].words_out as u8);
        input.write_all(&[job[0].operation, n, m, 0])?;
        input.write_all(&count.to_le_bytes())?;
        for case in &cases {
            write_words(&mut input, &case.input)?;
            write_words(&mut output, &case.answer)?;
        }
    }
    input.write_all(&[1; PART])?;
    println!("{} operations, {total} cases", jobs.len());
    input.flush().and(output.flush()).map(|()| whole)
}

fn write_words(output: &mut impl Write, words: &[u64]) -> io::Result<()> {
    words
        .iter()
        .try_for_each(|word| output.write_all(&word.to_le_bytes()))
}

/// The cases of an operation, and how often each branch is reached by them.
fn cases_of(subject: &Subject) -> (Vec<Case>, Hits) {
    let mut random = Random::new(SEED + u64::from(subject.operation));
    let mut hits = Hits(vec![0; subject.branches.len()]);
    let mut cases = Vec::new();
    let first = (WORDS / (subject.words_in + subject.words_out)).clamp(LEAST, MOST);
    for number in 0..INPUTS {
        let mut case = Case {
            input: vec![0; subject.words_in],
            answer: vec![0; subject.words_out],
        };
        let before = hits.0.clone();
        (subject.input)(&mut random, number, &mut case.input, &mut hits);
        (subject.answer)(&case.input, &mut case.answer, &mut hits);
        let seldom = |(b, a): (&u64, &u64)| a > b && *b < TIMES;
        if cases.len() < first || before.iter().zip(&hits.0).any(seldom) {
            cases.push(case);
        } else {
            hits.0 = before;
        }
        if cases.len() >= first && hits.0.iter().all(|count| *count >= TIMES) {
            break;
        }
    }
    (cases, hits)
}

/// Prints the operation's line, and each branch and code that is missing or not its own; says whether there is none.
fn show(subject: &Subject, cases: &[Case], hits: &Hits) -> bool {
    let mut faults = Vec::new();
    for (branch, count) in subject.branches.iter().zip(&hits.0) {
        if *count == 0 {
            faults.push(format!("never reached: {branch}"));
        }
    }
    let (places, codes) = codes_of(subject);
    for place in places {
        for code in codes {
            if !cases.iter().any(|case| case.answer[*place] == *code) {
                faults.push(format!("code {code} is never given at word {place}"));
            }
        }
        let other = |case: &&Case| !codes.contains(&case.answer[*place]);
        if let Some(case) = cases.iter().find(other) {
            let code = case.answer[*place];
            faults.push(format!(
                "code {code} at word {place} is not the operation's"
            ));
        }
    }
    println!(
        "{:3} {:<28} {:4} cases, {:2} branches, codes {codes:?}",
        subject.operation,
        subject.name,
        cases.len(),
        subject.branches.len()
    );
    for fault in &faults {
        println!("{}: {fault}", subject.name);
    }
    faults.is_empty()
}

/// The words of an answer that are codes, and the codes that the operation gives there. A step refuses nothing and has none.
fn codes_of(subject: &Subject) -> (&'static [usize], &'static [u64]) {
    const JUDGED: &[u64] = &[DONE, INPUT_NOT_FINITE, ANSWER_NOT_FINITE];
    const ON_SLICES: &[u64] = &[
        DONE,
        INPUT_LENGTH,
        OUTPUT_LENGTH,
        INPUT_NOT_FINITE,
        ANSWER_NOT_FINITE,
    ];
    match subject.operation {
        1..=11 | 52..=58 | 66..=72 => (&[], &[]),
        16..=19 => (&[0, 2, 4], &[DONE, OUTSIDE]),
        20 => (&[8, 13], &[DONE, OUTSIDE]),
        21 => (&[18, 28], &[DONE, OUTSIDE]),
        24..=26 | 34 | 35 => (&[0], ON_SLICES),
        27 => (
            &[0],
            &[DONE, INPUT_LENGTH, INPUT_NOT_FINITE, ANSWER_NOT_FINITE],
        ),
        22 | 23 | 28 | 48..=51 | 59 | 64 | 65 => (&[0], JUDGED),
        32 => (&[0], &[DONE, INPUT_NOT_FINITE, PIVOT]),
        33 => (&[0], &[DONE, INPUT_NOT_FINITE, PIVOT, NAN_PIVOT]),
        36 => (&[0], &[DONE, INPUT_NOT_FINITE, PIVOT, ANSWER_NOT_FINITE]),
        37 => (
            &[0],
            &[DONE, INPUT_NOT_FINITE, PIVOT, NAN_PIVOT, ANSWER_NOT_FINITE],
        ),
        38 => (&[0], &[DONE, PIVOT, NAN_PIVOT]),
        other => panic!("say here which codes operation {other} gives"),
    }
}
