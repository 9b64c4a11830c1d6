//! How often each kind was answered with each code, from a file of requests and one with their answers.

use crate::codes::{ANSWER_NOT_FINITE, DONE, INPUT_LENGTH, KIND, NAN_PIVOT, OF_RECORDS, PIVOT};
use crate::kinds::{row_of, Kind, DEFAULT, KINDS, OTHER, ROWS};
use crate::record::{ANSWER_BYTES, CODE_AT, COUNT_AT, KIND_AT, REQUEST_BYTES, SETTLED_AT, WAY_AT};
use crate::rotations::MOST;
use crate::stream::read_record;
use crate::tally::{Answer, Row, Tally};
use std::fs::File;
use std::io::{self, BufReader};

/// Whether a kind can be answered with a code.
fn possible(row: usize, code: u64) -> bool {
    match code {
        // 3 comes before every code but 1, and has all other kinds
        KIND => row == OTHER,
        // the end of the input is not looked at for its kind, and its answer has a 0 there
        INPUT_LENGTH => row == OTHER,
        // no kernel but the factors has pivots
        PIVOT => row >= 5,
        // A factor has a finite first root above 0, so the numbers below it are finite or infinite and never NaN. Where L21 is
        // infinite, or its square is, the second pivot is -infinity, which is refused with 6. So only a third pivot can be NaN.
        NAN_PIVOT => pivots(row) == 3,
        // a factor of which each pivot is a number above 0 is finite
        ANSWER_NOT_FINITE => row != OTHER && row != 5 && row != 6,
        // each kind has reserved bytes, a used number, and an answer
        _ => row != OTHER,
    }
}

/// The codes that hand back a pivot's number, and what that pivot is.
const OF_PIVOTS: [(u64, &str); 2] = [(PIVOT, "pivots <= 0"), (NAN_PIVOT, "NaN pivots")];

/// A 2x2 factor has two pivots, and a 3x3 one three.
fn pivots(row: usize) -> usize {
    match row {
        5 | 7 => 2,
        6 | 8 => 3,
        _ => 0,
    }
}

/// Whether answers of a kind can be unsettled: those of the kinds that rotate. A factor's never are.
fn rotates(row: usize) -> bool {
    (1..=4).contains(&row)
}

/// So many faults are shown.
const SHOWN: usize = 40;

/// Whether a cell must be met, may be, or cannot be.
#[derive(Clone, Copy, PartialEq)]
enum Cell {
    Due,
    Open,
    Never,
}

fn due(possible: bool) -> Cell {
    if possible {
        Cell::Due
    } else {
        Cell::Never
    }
}

/// A line of the table: a kind, of which there are two where its matrix can be scaled.
#[derive(Clone, Copy)]
struct Line {
    row: usize,
    scaled: bool,
}

/// All lines, those of unknown kinds last.
fn lines() -> Vec<Line> {
    let scales = |row: usize| row != OTHER && KINDS[row - 1].scales;
    let of_row = |row: usize| {
        let ways: &[bool] = if scales(row) {
            &[true, false]
        } else {
            &[false]
        };
        ways.iter().map(move |scaled| Line {
            row,
            scaled: *scaled,
        })
    };
    (1..ROWS).chain([OTHER]).flat_map(of_row).collect()
}

impl Line {
    fn name(self) -> String {
        match self.row {
            OTHER => String::from("other"),
            row => {
                let way = if self.scaled { ", scaled" } else { "" };
                format!("{row} {}{way}", KINDS[row - 1].name)
            }
        }
    }

    fn counts(self) -> bool {
        self.row != OTHER && KINDS[self.row - 1].counts
    }

    /// So many rotations are known of a matrix that is scaled: the search of `search` found no more.
    fn rotations(self, rotations: usize) -> Cell {
        let known = if self.row == 2 { 10 } else { 13 };
        if self.scaled && rotations > known {
            Cell::Open
        } else {
            Cell::Due
        }
    }

    /// Whether the most rotations can be too few.
    fn unsettled_at_most(self) -> Cell {
        match self.counts() {
            true if self.scaled => Cell::Open,
            counts => due(counts),
        }
    }
}

/// Counts of answers.
struct Table {
    /// Of requests that are scaled, and of all others.
    scaled: Tally,
    tally: Tally,
    /// Of each code of pivots, by the pivot's number.
    pivots: [[[u64; 4]; OF_PIVOTS.len()]; ROWS],
    /// Of the unsettled answers, those with the most rotations, as they are given and scaled. Each of the others has a blind one.
    unsettled_at_most: [[u64; 2]; ROWS],
    /// What is not right, or was never met.
    faults: Vec<String>,
}

/// Prints the table, and says whether all is well: each answer stands beside its request, none has what it cannot have, and each
/// cell that can be met is.
pub fn show(requests: &str, answers: &str) -> io::Result<bool> {
    let mut table = Table {
        scaled: Tally::default(),
        tally: Tally::default(),
        pivots: [[[0; 4]; OF_PIVOTS.len()]; ROWS],
        unsettled_at_most: [[0; 2]; ROWS],
        faults: Vec::new(),
    };
    table.read(requests, answers)?;
    table.print_cells();
    table.print_pivots();
    table.print_marks();
    table.print_rotations();
    for fault in table.faults.iter().take(SHOWN) {
        println!("table: {fault}");
    }
    if table.faults.len() > SHOWN {
        println!("table: {} faults in all", table.faults.len());
    }
    Ok(table.faults.is_empty())
}

impl Table {
    fn read(&mut self, requests: &str, answers: &str) -> io::Result<()> {
        let mut requests = BufReader::with_capacity(1 << 16, File::open(requests)?);
        let mut answers = BufReader::with_capacity(1 << 16, File::open(answers)?);
        let mut request = [0; REQUEST_BYTES];
        let mut answer = [0; ANSWER_BYTES];
        for number in 0u64.. {
            let given = read_record(&mut requests, &mut request)?;
            let got = read_record(&mut answers, &mut answer)?;
            let due = if given == 0 { 0 } else { ANSWER_BYTES };
            if got != due {
                let fault = format!("{got} bytes of answer {number}, where {due} are due");
                self.faults.push(fault);
                return Ok(());
            }
            if given == 0 {
                return Ok(());
            }
            if given < REQUEST_BYTES {
                request = [0; REQUEST_BYTES];
            }
            if request[..=KIND_AT] != answer[..=KIND_AT] {
                let fault = format!("answer {number} has another event or kind than its request");
                self.faults.push(fault);
            }
            let scales = Kind::of(request[KIND_AT]).is_some_and(|kind| kind.scales);
            self.count(&answer, scales && request[WAY_AT] == DEFAULT);
        }
        Ok(())
    }

    fn count(&mut self, answer: &Answer, scaled: bool) {
        let (row, code) = (row_of(answer[KIND_AT]), u64::from(answer[CODE_AT]));
        let tally = if scaled {
            &mut self.scaled
        } else {
            &mut self.tally
        };
        let (count, foreign) = (answer[COUNT_AT], tally.foreign);
        tally.count(answer).expect("a count of 64 bits");
        let is_foreign = tally.foreign > foreign;
        let at_most = code == DONE && answer[SETTLED_AT] == 0 && u64::from(count) == MOST;
        self.unsettled_at_most[row][usize::from(scaled)] += u64::from(at_most);
        let of_pivots = OF_PIVOTS.iter().position(|(one, _)| *one == code);
        let counts: &mut [u64] = match of_pivots {
            Some(place) => &mut self.pivots[row][place],
            None if code == DONE => &mut [0; 256],
            None => &mut [0],
        };
        match counts.get_mut(usize::from(count)) {
            Some(counted) if !is_foreign => *counted += 1,
            _ => self
                .faults
                .push(format!("kind {row}, code {code} with {count} in byte 6")),
        }
    }

    fn row(&self, line: Line) -> Row {
        let tally = if line.scaled {
            &self.scaled
        } else {
            &self.tally
        };
        tally.rows[line.row]
    }

    /// A cell as it is printed: a dash where there is none that must be.
    fn cell(&mut self, name: String, count: u64, cell: Cell) -> String {
        match (count, cell) {
            (0, Cell::Due) => self.faults.push(format!("{name} was never met")),
            (0, _) => return String::from("-"),
            (_, Cell::Never) => self.faults.push(format!("{name} cannot be, and was met")),
            _ => {}
        }
        count.to_string()
    }

    fn print_cells(&mut self) {
        let heads = OF_RECORDS.map(|code| format!("{code:>8}"));
        println!("{:<20}{}", "kind", heads.concat());
        for line in lines() {
            let (name, row) = (line.name(), self.row(line));
            let mut text = format!("{name:<20}");
            for (column, code) in OF_RECORDS.into_iter().enumerate() {
                let can_be = due(possible(line.row, code));
                let cell = self.cell(format!("{name}, code {code}"), row.codes[column], can_be);
                text += &format!("{cell:>8}");
            }
            println!("{text}");
        }
    }

    fn print_pivots(&mut self) {
        for line in lines().into_iter().filter(|line| pivots(line.row) > 0) {
            for (place, (code, what)) in OF_PIVOTS.into_iter().enumerate() {
                let mut text = format!("{:<20}{what}", line.name());
                // a pivot before the third is never NaN
                let first = if code == NAN_PIVOT { 3 } else { 1 };
                for pivot in 0..4 {
                    let can_be = due((first..=pivots(line.row)).contains(&pivot));
                    let count = self.pivots[line.row][place][pivot];
                    let name = format!("{}, code {code}, pivot {pivot}", line.name());
                    let cell = self.cell(name, count, can_be);
                    if can_be == Cell::Due {
                        text += &format!("  {pivot}: {cell}");
                    }
                }
                if possible(line.row, code) {
                    println!("{text}");
                }
            }
        }
    }

    fn print_marks(&mut self) {
        for line in lines().into_iter().filter(|line| line.row != OTHER) {
            let (name, of) = (line.name(), self.row(line));
            let at_most = self.unsettled_at_most[line.row][usize::from(line.scaled)];
            let mut text = format!("{name:<20}marks");
            for (what, count, can_be) in [
                ("settled", of.settled, Cell::Due),
                ("unsettled", of.unsettled - at_most, due(rotates(line.row))),
                ("unsettled after 25", at_most, line.unsettled_at_most()),
            ] {
                let cell = self.cell(format!("{name}, {what}"), count, can_be);
                text += &format!("  {what}: {cell}");
            }
            println!("{text}");
        }
    }

    fn print_rotations(&mut self) {
        for line in lines().into_iter().filter(|line| line.counts()) {
            let (name, of) = (line.name(), self.row(line));
            let mut text = format!("{name:<20}rotations");
            for (rotations, count) in of.turns.into_iter().enumerate() {
                let can_be = line.rotations(rotations);
                let cell = self.cell(format!("{name}, {rotations} rotations"), count, can_be);
                text += &format!("  {rotations}: {cell}");
            }
            println!("{text}");
        }
    }
}
