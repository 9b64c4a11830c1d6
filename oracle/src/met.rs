//! What the records of answer files meet: each cell of a tally, and each reason why a record is foreign or is not.

use crate::codes::{DONE, OF_RECORDS};
use crate::kinds::{Kind, KINDS, OTHER, ROWS};
use crate::record::ANSWER_BYTES;
use crate::rotations::MOST;
use crate::stream::read_record;
use crate::tally::{Answer, Head, Tally, TooLarge};
use std::io::{self, Read};

/// A reason that holds by one byte of the head.
struct Reason {
    name: &'static str,
    /// The byte, where it holds.
    byte: fn(&Head) -> Option<u8>,
    /// Whether it can hold by such a byte.
    possible: fn(u8) -> bool,
}

const REASONS: [Reason; 9] = [
    Reason {
        name: "foreign by its code",
        byte: |head| alone(head, 0).then_some(head.code),
        possible: |byte| !OF_RECORDS.contains(&u64::from(byte)),
    },
    Reason {
        name: "foreign by its kind alone",
        byte: |head| alone(head, 1).then_some(head.kind),
        possible: |byte| Kind::of(byte).is_none(),
    },
    Reason {
        name: "foreign by its mark alone",
        byte: |head| alone(head, 2).then_some(head.mark),
        possible: |byte| byte > 1,
    },
    Reason {
        name: "foreign by its rotations alone, kind 2",
        byte: |head| (alone(head, 3) && head.kind == 2).then_some(head.turns),
        possible: |byte| u64::from(byte) > MOST,
    },
    Reason {
        name: "foreign by its rotations alone, kind 4",
        byte: |head| (alone(head, 3) && head.kind == 4).then_some(head.turns),
        possible: |byte| u64::from(byte) > MOST,
    },
    Reason {
        name: "foreign by its rotations alone, others",
        byte: |head| (alone(head, 3) && !head.turns_count()).then_some(head.turns),
        possible: |byte| byte > 0,
    },
    Reason {
        name: "refused, of any kind",
        byte: |head| is_refused(head).then_some(head.kind),
        possible: |_| true,
    },
    Reason {
        name: "refused, with any mark",
        byte: |head| is_refused(head).then_some(head.mark),
        possible: |_| true,
    },
    Reason {
        name: "refused, with any byte 6",
        byte: |head| is_refused(head).then_some(head.turns),
        possible: |_| true,
    },
];

/// Whether this and nothing else makes it foreign.
fn alone(head: &Head, place: usize) -> bool {
    let by = head.foreign_by();
    by[place] && by.iter().filter(|one| **one).count() == 1
}

fn is_refused(head: &Head) -> bool {
    !head.is_answered() && !head.foreign_by()[0]
}

/// How often each was met: the reasons by their byte.
pub struct Met {
    pub tally: Tally,
    pub records: u64,
    reasons: [[u64; 256]; REASONS.len()],
}

impl Met {
    pub fn nothing() -> Self {
        Self {
            tally: Tally::default(),
            records: 0,
            reasons: [[0; 256]; REASONS.len()],
        }
    }

    pub fn count(&mut self, answer: &Answer) -> Result<(), TooLarge> {
        let head = Head::of(answer);
        for (reason, bytes) in REASONS.iter().zip(&mut self.reasons) {
            if let Some(byte) = (reason.byte)(&head) {
                bytes[usize::from(byte)] += 1;
            }
        }
        self.records += 1;
        self.tally.count(answer)
    }

    pub fn add(&mut self, more: &Self) -> Result<(), TooLarge> {
        let bytes = self.reasons.as_flattened_mut().iter_mut();
        for (count, more) in bytes.zip(more.reasons.as_flattened()) {
            *count += more;
        }
        self.records += more.records;
        self.tally.add(&more.tally)
    }

    /// Prints each reason and each cell that was never met, and says how many were not.
    pub fn print(&self) -> usize {
        let mut missed = 0;
        for (reason, bytes) in REASONS.iter().zip(&self.reasons) {
            let possible = (0..=u8::MAX).filter(|byte| (reason.possible)(*byte));
            let (there, not): (Vec<u8>, Vec<u8>) =
                possible.partition(|byte| bytes[usize::from(*byte)] > 0);
            let (all, records) = (there.len() + not.len(), bytes.iter().sum::<u64>());
            println!(
                "{:<40} {records} records, {} of {all} bytes",
                reason.name,
                there.len()
            );
            missed += not.len();
        }
        for (name, count) in self.cells() {
            if count == 0 {
                println!("{name:<40} never met");
                missed += 1;
            }
        }
        missed
    }

    /// The cells that a record can be counted in: all but those of answers of no kind, which are foreign.
    fn cells(&self) -> Vec<(String, u64)> {
        let mut cells = vec![
            (String::from("foreign"), self.tally.foreign),
            (String::from("left over"), self.tally.left_over),
        ];
        for (number, row) in self.tally.rows.iter().enumerate() {
            for (code, count) in OF_RECORDS.into_iter().zip(row.codes) {
                if number != OTHER || code != DONE {
                    cells.push((format!("kind {number}, code {code}"), count));
                }
            }
        }
        for number in 1..ROWS {
            let row = &self.tally.rows[number];
            cells.push((format!("kind {number}, settled"), row.settled));
            cells.push((format!("kind {number}, unsettled"), row.unsettled));
            if KINDS[number - 1].counts {
                let turns = row.turns.into_iter().enumerate();
                cells.extend(
                    turns.map(|(n, count)| (format!("kind {number}, {n} rotations"), count)),
                );
            }
        }
        cells
    }
}

/// Prints what the answers of a file meet, and says whether that is all.
pub fn show(input: &mut impl Read) -> io::Result<bool> {
    let mut met = Met::nothing();
    let mut answer = [0; ANSWER_BYTES];
    loop {
        let there = read_record(input, &mut answer)?;
        let counted = match there {
            ANSWER_BYTES => met.count(&answer),
            part => break met.tally.end(part),
        };
        counted.map_err(TooLarge::error)?;
    }
    .map_err(TooLarge::error)?;
    let missed = met.print();
    println!("heads: {} records, {missed} never met", met.records);
    Ok(missed == 0)
}
