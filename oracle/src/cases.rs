//! The cases that jobs of the row call meet: codes by the lengths of the rows, and what becomes of a matrix by its place.

use crate::codes::{DONE, ROWS_UNEQUAL, ROW_TOO_LONG};
use crate::jobs::Sort;
use crate::row::{Filled, Job, Single, MOST, ROOM};
use std::collections::HashSet;
use std::ops::RangeInclusive;

/// A case that is met in several ways: by a length, or by a place.
struct Case {
    name: &'static str,
    ways: RangeInclusive<usize>,
    met: fn(&Seen) -> Vec<usize>,
}

/// The lengths that are not too long, and the places of the longest.
const LENGTHS: RangeInclusive<usize> = 0..=MOST;
const PLACES: RangeInclusive<usize> = 0..=MOST - 1;

const CASES: [Case; 15] = [
    case("0, each length", LENGTHS, |seen| {
        when(seen.code == DONE, seen.n)
    }),
    case("0, each length, refused in all places", 1..=MOST, |seen| {
        when(seen.are_refused(seen.n), seen.n)
    }),
    case("0, full, no two answers alike", MOST..=MOST, |seen| {
        when(seen.no_two_alike(), seen.n)
    }),
    case("0, settled in each place", PLACES, |seen| {
        seen.places(Sort::Settled)
    }),
    case("0, blind in each place", PLACES, |seen| {
        seen.places(Sort::Blind)
    }),
    case("0, unsettled in each place", PLACES, |seen| {
        seen.places(Sort::Unsettled)
    }),
    case("0, full, a NaN alone in each place", PLACES, |seen| {
        seen.alone(Sort::Nan)
    }),
    case("0, full, an infinity alone in each place", PLACES, |seen| {
        seen.alone(Sort::Infinite)
    }),
    case("0, full, a 7 alone in each place", PLACES, |seen| {
        seen.alone(Sort::Overflow)
    }),
    case("10, each number of answers", 0..=ROOM, |seen| {
        when(seen.is_unequal(), seen.m)
    }),
    case("10, one matrix more than answers", LENGTHS, |seen| {
        when(seen.is_unequal() && seen.n == seen.m + 1, seen.m)
    }),
    case("10, one answer more than matrices", LENGTHS, |seen| {
        when(seen.is_unequal() && seen.m == seen.n + 1, seen.n)
    }),
    case("10, 65 matrices and fewer answers", LENGTHS, |seen| {
        when(seen.is_unequal() && seen.n == ROOM, seen.m)
    }),
    case("10, 65 answers and fewer matrices", LENGTHS, |seen| {
        when(seen.is_unequal() && seen.m == ROOM, seen.n)
    }),
    case("11, 65 of both", ROOM..=ROOM, |seen| {
        when(seen.code == ROW_TOO_LONG, seen.n)
    }),
];

const fn case(
    name: &'static str,
    ways: RangeInclusive<usize>,
    met: fn(&Seen) -> Vec<usize>,
) -> Case {
    Case { name, ways, met }
}

fn when(met: bool, way: usize) -> Vec<usize> {
    Vec::from_iter(met.then_some(way))
}

/// A job by its lengths, its code, and, with code 0, what became of its matrices.
struct Seen<'a> {
    n: usize,
    m: usize,
    code: u64,
    sorts: Vec<Sort>,
    filled: &'a [Single],
}

impl<'a> Seen<'a> {
    fn of(job: &Job, filled: &'a Filled) -> Self {
        let n = job.matrices.len();
        let places = if filled.code == DONE { n } else { 0 };
        let filled_places = &filled.answers[..places];
        let pairs = job.matrices.iter().zip(filled_places);
        Self {
            n,
            m: job.answers,
            code: filled.code,
            sorts: pairs
                .map(|(matrix, answer)| Sort::of(matrix, answer))
                .collect(),
            filled: filled_places,
        }
    }

    fn is_unequal(&self) -> bool {
        self.code == ROWS_UNEQUAL
    }

    fn places(&self, sort: Sort) -> Vec<usize> {
        let all = self.sorts.iter().enumerate();
        all.filter(|(_, other)| **other == sort)
            .map(|(place, _)| place)
            .collect()
    }

    /// Whether so many are refused.
    fn are_refused(&self, count: usize) -> bool {
        self.sorts.iter().filter(|sort| sort.is_refused()).count() == count
    }

    /// The place of this sort in a full row, where nothing else is refused.
    fn alone(&self, sort: Sort) -> Vec<usize> {
        if self.n == MOST && self.are_refused(1) {
            return self.places(sort);
        }
        Vec::new()
    }

    fn no_two_alike(&self) -> bool {
        let unlike: HashSet<&Single> = self.filled.iter().collect();
        unlike.len() == self.n
    }
}

/// How often each case was met in each way.
pub struct Met(Vec<Vec<u64>>);

impl Met {
    pub fn nothing() -> Self {
        let ways = CASES.iter().map(|case| case.ways.clone().count());
        Self(ways.map(|count| vec![0; count]).collect())
    }

    pub fn count(&mut self, job: &Job, filled: &Filled) {
        let seen = Seen::of(job, filled);
        for (case, counts) in CASES.iter().zip(&mut self.0) {
            for way in (case.met)(&seen) {
                if case.ways.contains(&way) {
                    counts[way - case.ways.start()] += 1;
                }
            }
        }
    }

    /// Whether each case was met in some way.
    pub fn each_case(&self) -> bool {
        self.0
            .iter()
            .all(|counts| counts.iter().any(|count| *count > 0))
    }

    /// Prints the cases. A branch is a case met in one way: says how many there are, and how many were never hit.
    pub fn print(&self) -> (usize, usize) {
        let (mut branches, mut missed) = (0, 0);
        for (case, counts) in CASES.iter().zip(&self.0) {
            let never = counts.iter().filter(|count| **count == 0).count();
            let (all, times) = (counts.len(), counts.iter().sum::<u64>());
            println!(
                "rows: {:<42} {times} times, {} of {all}",
                case.name,
                all - never
            );
            branches += all;
            missed += never;
        }
        (branches, missed)
    }
}
