//! Which branches the requests of a file reach: of each kind's own tests, and of the definitions behind it.

use crate::codes::{ANSWER_NOT_FINITE, DONE};
use crate::float::SIGN;
use crate::kinds::{Kind, AS_GIVEN, DEFAULT};
use crate::numbers::number;
use crate::places::of_its_subject;
use crate::random::Random;
use crate::record::{answer, Request, CODE_AT, COUNT_AT, NUMBERS_AT, REQUEST_BYTES, SETTLED_AT};
use crate::scalings::{self, possible, Scaling};
use crate::stream::read_record;
use crate::subject::{Hits, Subject};
use crate::ways::{in_way, worked_on};
use std::io::{self, Read};

/// The hits of one kind.
struct Reached {
    of: &'static Kind,
    /// In each of its ways.
    ways: Vec<Runs>,
    /// Of what a scaling meets.
    scaling: Hits,
    /// For the way, each reserved byte, and each number that is not used, the requests where nothing but this is refused.
    not_zero: [u64; 3],
    unused: [u64; 12],
    /// Of those that are solved, how many have a -0 in the solution.
    minus_zero: u64,
}

/// The hits of one way.
struct Runs {
    /// Of the subject with the same call.
    subject: Hits,
    /// Of the subject of its mark, where there is one.
    mark: Hits,
    /// For each number that is used, the requests where nothing but this is not finite.
    not_finite: [u64; 12],
}

/// Prints how often each branch was reached, and says whether each was that a record can reach. Each answer is also held to the
/// subject's, which in turn holds its run of steps to the crate's own call.
pub fn show(input: &mut impl Read) -> io::Result<bool> {
    let mut kinds: Vec<Reached> = (1..=8).map(Reached::new).collect();
    let mut bytes = [0; REQUEST_BYTES];
    while read_record(input, &mut bytes)? == REQUEST_BYTES {
        let request = Request::of(&bytes);
        let place = usize::from(request.kind).wrapping_sub(1);
        if let Some(reached) = kinds.get_mut(place) {
            reached.count(&request);
        }
    }
    let missed: usize = kinds.iter().map(Reached::print).sum();
    println!("branches: {missed} never hit");
    Ok(missed == 0)
}

/// No hits of a subject's branches.
fn none(subject: Option<&Subject>) -> Hits {
    Hits(vec![0; subject.map_or(0, |one| one.branches.len())])
}

impl Reached {
    fn new(kind: u8) -> Self {
        let of = Kind::of(kind).expect("a known kind");
        let ways = (DEFAULT..=AS_GIVEN).filter(|way| of.has_way(*way));
        Self {
            of,
            ways: ways.map(|_| Runs::new(of)).collect(),
            scaling: Hits(vec![0; Scaling::NAMES.len()]),
            not_zero: [0; 3],
            unused: [0; 12],
            minus_zero: 0,
        }
    }

    fn count(&mut self, request: &Request) {
        let words: Vec<u64> = request.nine.into_iter().chain(request.three).collect();
        let used = |i: usize| self.of.uses(i);
        let unused: Vec<usize> = (0..12).filter(|i| !used(*i) && words[*i] != 0).collect();
        let [first, second] = request.reserved;
        let set = [!self.of.has_way(request.way), first != 0, second != 0];
        let set: Vec<usize> = (0..3).filter(|i| set[*i]).collect();
        match (&set[..], &unused[..]) {
            ([], []) => {}
            ([byte], []) => return self.not_zero[*byte] += 1,
            ([], [place]) => return self.unused[*place] += 1,
            _ => return,
        }
        let finite = |i: usize| number(words[i]).is_finite();
        let places: Vec<usize> = (0..12).filter(|i| used(*i) && !finite(*i)).collect();
        if let [place] = &places[..] {
            self.ways[usize::from(request.way)].not_finite[*place] += 1;
        }
        self.ask_subject(request);
        if let Some(mark) = self.of.mark() {
            self.ask_mark(request, mark);
        }
    }

    /// The code and the count are those of the numbers that are worked on, unless a value overflows when it is multiplied back.
    fn ask_subject(&mut self, request: &Request) {
        let subject = self.of.subject();
        let worked = worked_on(request);
        let mut input = vec![0; self.of.before()];
        input.extend_from_slice(&worked.nine[..self.of.nine]);
        input.extend_from_slice(&worked.three[..self.of.three]);
        let mut right = vec![0; subject.words_out];
        let runs = &mut self.ways[usize::from(request.way)];
        (subject.answer)(&input, &mut right, &mut runs.subject);
        let answer = answer(&request.bytes());
        let code = u64::from(answer[CODE_AT]);
        if scalings::count(self.of, request, &mut self.scaling) {
            return assert_eq!((code, right[0]), (ANSWER_NOT_FINITE, DONE), "{input:X?}");
        }
        assert_eq!(code, right[0], "not {}'s code, of {input:X?}", subject.name);
        let values = answer[NUMBERS_AT..].chunks_exact(8).take(3);
        let minus_zero = SIGN.to_le_bytes();
        self.minus_zero += u64::from(values.into_iter().any(|value| value == minus_zero));
        // the pivot's number, or the count of a 3x3 run; a 2x2 call has its mark there
        if subject.name != "eigen2" && subject.name != "svd2" {
            let count = u64::from(answer[COUNT_AT]);
            assert_eq!(
                count, right[1],
                "not {}'s count, of {input:X?}",
                subject.name
            );
        }
    }

    /// The mark is the one of its subject, which goes by the rotations one by one; or 0 if the answer is refused.
    fn ask_mark(&mut self, request: &Request, subject: &Subject) {
        let worked = worked_on(request);
        let input = &worked.nine[..self.of.nine];
        let mut right = vec![0; subject.words_out];
        let runs = &mut self.ways[usize::from(request.way)];
        (subject.answer)(input, &mut right, &mut runs.mark);
        let place = 1 + usize::from(self.of.counts);
        let answer = answer(&request.bytes());
        let due = if u64::from(answer[CODE_AT]) == DONE {
            right[place]
        } else {
            0
        };
        let mark = u64::from(answer[SETTLED_AT]);
        assert_eq!(mark, due, "not the mark, of {input:X?}");
    }

    /// Prints the counts, and says how many are 0 that need not be.
    fn print(&self) -> usize {
        let mut lines: Vec<(String, u64)> = Vec::new();
        let names = (5..).map(|byte| format!("4: by byte {byte} alone"));
        lines.extend(names.zip(self.not_zero));
        for i in (0..12).filter(|i| !self.of.uses(*i)) {
            lines.push((format!("4: by {} alone", place(i)), self.unused[i]));
        }
        for (way, runs) in self.ways.iter().enumerate() {
            let prefix = ["scaled: ", ""][if self.of.scales { way } else { 1 }];
            let of_way = runs.lines(self.of, prefix.is_empty());
            lines.extend(of_way.map(|(name, count)| (format!("{prefix}{name}"), count)));
        }
        let met = Scaling::NAMES.iter().zip(&self.scaling.0).enumerate();
        for (branch, (name, count)) in met.filter(|_| self.of.scales) {
            if possible(self.of, branch) {
                lines.push((format!("scaled: {name}"), *count));
            }
        }
        if self.of.three > 0 {
            lines.push((String::from("0: -0 in the solution"), self.minus_zero));
        }
        for (name, count) in &lines {
            println!("{}: {name:<44} {count}", self.of.name);
        }
        lines.iter().filter(|(_, count)| *count == 0).count()
    }
}

impl Runs {
    fn new(of: &Kind) -> Self {
        Self {
            subject: none(Some(of.subject())),
            mark: none(of.mark()),
            not_finite: [0; 12],
        }
    }

    /// The counts, by name; where the matrix is scaled without those that no such matrix reaches.
    fn lines(&self, of: &Kind, as_given: bool) -> impl Iterator<Item = (String, u64)> {
        let mut lines = Vec::new();
        for i in (0..12).filter(|i| of.uses(*i)) {
            lines.push((format!("5: by {} alone", place(i)), self.not_finite[i]));
        }
        let subject = of.subject().branches.iter().zip(&self.subject.0);
        let mark = of.mark().map_or(&[][..], |mark| mark.branches);
        for (branch, count) in subject.chain(mark.iter().zip(&self.mark.0)) {
            if of_records(branch) && (as_given || of_scaled(of, branch)) {
                lines.push((String::from(*branch), *count));
            }
        }
        lines.into_iter()
    }
}

/// Inputs of the kind's subject, each of which reaches a branch that those before it reached fewer than so many times. The search
/// ends when each branch has so many, or after that many inputs in all: a branch that is then missing shows in `show`. The signs
/// behind a NaN pivot are not searched for.
pub fn reaching(kind: u8, times: u64) -> Vec<Request> {
    const INPUTS: u64 = 1 << 18;
    let mut random = Random::new(u64::from(kind));
    let mut reached = Reached::new(kind);
    let mut kept = Vec::new();
    for _ in 0..INPUTS {
        let request = of_its_subject(&mut random, kind, u64::MAX);
        let asked = in_way(&request, AS_GIVEN);
        let way = usize::from(asked.way);
        let before = reached.ways[way].subject.0.clone();
        reached.ask_subject(&asked);
        let counts = before.iter().zip(&reached.ways[way].subject.0);
        let branches = reached.of.subject().branches.iter();
        let mut sought = branches.zip(counts).filter(|(branch, _)| is_sought(branch));
        if sought.any(|(_, (b, a))| a > b && *b < times) {
            kept.push(request);
        } else {
            reached.ways[way].subject.0 = before;
        }
        let branches = reached.of.subject().branches.iter();
        let mut left = branches.zip(&reached.ways[way].subject.0);
        if left.all(|(branch, count)| *count >= times || !is_sought(branch)) {
            break;
        }
    }
    kept
}

fn place(i: usize) -> String {
    match i {
        0..9 => format!("number {} of the nine", i + 1),
        _ => format!("number {} of the three", i - 8),
    }
}

/// Whether a record can reach a subject's branch. It has no old factor, and what its generator counts are no branches.
fn of_records(branch: &str) -> bool {
    !branch.contains("old factor") && !branch.starts_with("input: ")
}

/// Whether a matrix can reach it whose largest magnitude is from 1 up to 2, as far as is known.
fn of_scaled(of: &Kind, branch: &str) -> bool {
    match branch {
        // of numbers under 2 nothing overflows on the way
        "7" | "theta NaN" | "polar: the size overflows" | "polar: the size is NaN" => false,
        "7: the mark is 0" | "7: behind a blind rotation" => false,
        // a search found none of more than 10 rotations if symmetric, and of 13 if not
        "13 to 24 rotations" => of.name == "SVD 3x3",
        _ if branch.starts_with("25 rotations") => false,
        // a 2x2 matrix with these numbers on its diagonal would be small as a whole
        "blind: subnormal beside the diagonal" => false,
        "not blind: 0 beside the diagonal" | "not blind: -0 beside the diagonal" => false,
        // a rotation of a symmetric 3x3 matrix has 2^-44 beside the diagonal, and not more than 4 between the two numbers on it
        "theta with an infinite square" | "theta infinite" => of.name != "eigen 3x3",
        _ => true,
    }
}

/// Whether inputs are searched for that reach it. The four cases of a NaN pivot are not: `listed` has them one by one, and as often.
fn is_sought(branch: &str) -> bool {
    of_records(branch) && !branch.starts_with("9: L21")
}
