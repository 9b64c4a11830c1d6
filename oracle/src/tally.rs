//! The tally of an answer file, from the words of the request: for each kind the number of each code, and of settled and
//! unsettled answers; for kinds 2 and 4 how many made so many rotations; the foreign records; and the bytes left over.

use crate::codes::{COUNT_TOO_LARGE, DONE, OF_RECORDS};
use crate::kinds::{row_of, Kind, KINDS, OTHER, ROWS};
use crate::record::{ANSWER_BYTES, CODE_AT, COUNT_AT, KIND_AT, SETTLED_AT};
use crate::rotations::MOST;
use crate::stream::read_record;
use std::io::{self, Read};

pub type Answer = [u8; ANSWER_BYTES];

/// What is refused with 14: a count would pass 64 bits.
#[derive(Debug)]
pub struct TooLarge;

impl TooLarge {
    pub fn error(self) -> io::Error {
        io::Error::other(format!("a count would pass 64 bits ({COUNT_TOO_LARGE})"))
    }
}

/// The bytes of an answer that are looked at. `turns` are its rotations, if its code is 0.
#[derive(Clone, Copy)]
pub struct Head {
    pub kind: u8,
    pub code: u8,
    pub turns: u8,
    pub mark: u8,
}

impl Head {
    pub fn of(answer: &Answer) -> Self {
        Self {
            kind: answer[KIND_AT],
            code: answer[CODE_AT],
            turns: answer[COUNT_AT],
            mark: answer[SETTLED_AT],
        }
    }

    pub fn is_answered(&self) -> bool {
        u64::from(self.code) == DONE
    }

    /// Whether an answer of its kind counts rotations.
    pub fn turns_count(&self) -> bool {
        Kind::of(self.kind).is_some_and(|kind| kind.counts)
    }

    /// What makes it foreign: its code; or with code 0 its kind, its mark, its rotations.
    pub fn foreign_by(&self) -> [bool; 4] {
        let most = if self.turns_count() { MOST } else { 0 };
        [
            !OF_RECORDS.contains(&u64::from(self.code)),
            self.is_answered() && Kind::of(self.kind).is_none(),
            self.is_answered() && self.mark > 1,
            self.is_answered() && u64::from(self.turns) > most,
        ]
    }
}

/// The records of one kind, or of all that are none.
#[derive(Clone, Copy, Default)]
pub struct Row {
    pub codes: [u64; OF_RECORDS.len()],
    pub settled: u64,
    pub unsettled: u64,
    /// How many made 0 rotations, 1, and so on, where the kind counts them.
    pub turns: [u64; MOST as usize + 1],
}

#[derive(Clone, Copy, Default)]
pub struct Tally {
    pub rows: [Row; ROWS],
    pub foreign: u64,
    pub left_over: u64,
}

fn add(count: &mut u64, more: u64) -> Result<(), TooLarge> {
    *count = count.checked_add(more).ok_or(TooLarge)?;
    Ok(())
}

/// The kinds that count rotations, by their numbers.
fn turning() -> impl Iterator<Item = usize> {
    (1..ROWS).filter(|row| KINDS[row - 1].counts)
}

impl Tally {
    /// The tally of a file that is read to its end.
    pub fn read(input: &mut impl Read) -> io::Result<Self> {
        let mut tally = Self::default();
        let mut answer = [0; ANSWER_BYTES];
        loop {
            let there = read_record(input, &mut answer)?;
            let counted = match there {
                ANSWER_BYTES => tally.count(&answer),
                part => return tally.end(part).map(|()| tally).map_err(TooLarge::error),
            };
            counted.map_err(TooLarge::error)?;
        }
    }

    /// One record more.
    pub fn count(&mut self, answer: &Answer) -> Result<(), TooLarge> {
        let head = Head::of(answer);
        if head.foreign_by().contains(&true) {
            return add(&mut self.foreign, 1);
        }
        let row = &mut self.rows[row_of(head.kind)];
        let column = OF_RECORDS.iter().position(|c| *c == u64::from(head.code));
        add(&mut row.codes[column.expect("a code of records")], 1)?;
        if !head.is_answered() {
            return Ok(());
        }
        let marked = [&mut row.unsettled, &mut row.settled];
        for (mark, count) in marked.into_iter().enumerate() {
            add(count, u64::from(usize::from(head.mark) == mark))?;
        }
        if head.turns_count() {
            add(&mut row.turns[usize::from(head.turns)], 1)?;
        }
        Ok(())
    }

    /// So many bytes behind the last whole record.
    pub fn end(&mut self, part: usize) -> Result<(), TooLarge> {
        add(&mut self.left_over, part as u64)
    }

    /// Another tally more.
    pub fn add(&mut self, more: &Self) -> Result<(), TooLarge> {
        let more = more.counts();
        let places = self.places();
        let mut pairs = places.into_iter().zip(more);
        pairs.try_for_each(|(count, more)| add(count, more))
    }

    /// All counts in the order in which the calls have them.
    pub fn counts(&self) -> Vec<u64> {
        let mut tally = *self;
        tally.places().into_iter().map(|count| *count).collect()
    }

    fn places(&mut self) -> Vec<&mut u64> {
        let (mut first, mut turns) = (Vec::new(), Vec::new());
        for row in &mut self.rows {
            first.extend(&mut row.codes);
            first.extend([&mut row.settled, &mut row.unsettled]);
            turns.push(row.turns.iter_mut());
        }
        for _ in 0..=MOST {
            for row in turning() {
                first.extend(turns[row].next());
            }
        }
        first.extend([&mut self.foreign, &mut self.left_over]);
        first
    }

    /// Each column added up over all rows, and then all records.
    fn totals(&self) -> Result<(Vec<u64>, u64), TooLarge> {
        let rows = self.rows.map(|row| row.columns());
        let total = |column: usize| {
            rows.iter()
                .try_fold(0u64, |sum, row| sum.checked_add(row[column]))
        };
        let totals: Option<Vec<u64>> = (0..rows[0].len()).map(total).collect();
        let totals = totals.ok_or(TooLarge)?;
        let codes = totals[..OF_RECORDS.len()].iter();
        let records = codes
            .chain([&self.foreign])
            .try_fold(0u64, |sum, n| sum.checked_add(*n));
        Ok((totals, records.ok_or(TooLarge)?))
    }

    /// The listing, as the program writes it.
    pub fn listing(&self) -> Result<String, TooLarge> {
        let (totals, records) = self.totals()?;
        let codes = OF_RECORDS.map(|code| format!("\tcode {code}"));
        let mut text = format!("kind{}\tsettled\tunsettled\n", codes.concat());
        for row in 1..ROWS {
            text += &line(&row.to_string(), &self.rows[row].columns());
        }
        text += &line("other", &self.rows[OTHER].columns());
        text += &line("total", &totals);
        text += &line("records", &[records]);
        text += &line("foreign", &[self.foreign]);
        text += &line("left over", &[self.left_over]);
        let kinds: Vec<String> = turning().map(|kind| format!("\tkind {kind}")).collect();
        text += &format!("turns{}\n", kinds.concat());
        for turns in 0..=MOST as usize {
            let made: Vec<u64> = turning().map(|row| self.rows[row].turns[turns]).collect();
            text += &line(&turns.to_string(), &made);
        }
        Ok(text)
    }
}

impl Row {
    /// What stands in its line.
    fn columns(&self) -> Vec<u64> {
        [&self.codes[..], &[self.settled, self.unsettled]].concat()
    }
}

fn line(name: &str, counts: &[u64]) -> String {
    let fields: Vec<String> = counts.iter().map(|count| format!("\t{count}")).collect();
    format!("{name}{}\n", fields.concat())
}
