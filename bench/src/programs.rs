//! The program beside the oracle's, as processes that read a file and write one, against the file's size.

use crate::clock;
use crate::memory::peak;
use crate::race::{race_as, How, Race};
use crate::records::night;
use reference::record::{Request, ANSWER_BYTES};
use std::fmt;
use std::fs::{self, File, OpenOptions};
use std::process::Command;

/// Numbers of records, and of rounds.
const SIZES: [(usize, usize); 4] = [(1_000, 101), (10_000, 51), (100_000, 15), (1_000_000, 7)];

/// The rounds of the empty file, whose time is the program's start.
const STARTS: usize = 101;

const REQUESTS: &str = "target/bench/requests";
const OURS: &str = "target/bench/answers";
const THEIRS: &str = "target/bench/answers-of-oracle";

const ORACLE: [&str; 2] = ["target/oracle/oracle", "answers"];

/// The proved build, as the tests start it.
const PROVED: [&str; 2] = ["tests/lib/run-proved", "target/bin/answers"];

/// The nanoseconds of both programs on an empty file, and what files of each size took.
pub struct Files {
    pub start: Race,
    pub sizes: Vec<Size>,
}

/// A file's size in records, the nanoseconds of both programs a record, and the peaks of memory in kB: of
/// the program that is timed, and of the proved build.
pub struct Size {
    pub records: usize,
    pub race: Race,
    pub memory: [u64; 2],
}

fn run(words: &[&str], output: &str) -> Result<u64, String> {
    let failed = |why: &dyn std::fmt::Display| format!("{}: {why}", words[0]);
    let input = File::open(REQUESTS).map_err(|why| failed(&why))?;
    // an old answer is written over, since to make room for a new one takes time
    let output = OpenOptions::new()
        .write(true)
        .create(true)
        .truncate(false)
        .open(output);
    let output = output.map_err(|why| failed(&why))?;
    let mut command = Command::new(words[0]);
    let status = command
        .args(&words[1..])
        .stdin(input)
        .stdout(output)
        .status();
    match status.map_err(|why| failed(&why))? {
        status if status.success() => Ok(0),
        status => Err(failed(&status)),
    }
}

/// Whether both programs wrote the same answers, and as many as there are records.
fn same_answers(records: usize) -> Result<bool, String> {
    let read = |path| fs::read(path).map_err(|why| format!("{path}: {why}"));
    let (ours, theirs) = (read(OURS)?, read(THEIRS)?);
    Ok(ours.len() == records * ANSWER_BYTES && ours == theirs)
}

/// Both programs on these requests.
fn race_of_programs(
    program: &[&str],
    rounds: usize,
    what: &str,
    requests: &[Request],
) -> Result<Race, String> {
    let records = requests.len();
    let bytes: Vec<u8> = requests.iter().flat_map(Request::bytes).collect();
    fs::write(REQUESTS, bytes).map_err(|why| format!("{REQUESTS}: {why}"))?;
    remove(&[OURS, THEIRS]);
    let ours = || run(program, OURS);
    let theirs = || run(&ORACLE, THEIRS);
    let how = How {
        rounds,
        clock: clock::of_children,
    };
    let race = race_as(&how, what, "oracle", records.max(1), ours, theirs)?;
    if !same_answers(records)? {
        return Err(format!("{what}: the answers differ from the oracle's"));
    }
    Ok(race)
}

fn remove(paths: &[&str]) {
    for path in paths {
        // what is not there needs no removing
        let _ = fs::remove_file(path);
    }
}

/// `program` are the words that start the program on this processor.
pub fn all(program: &[&str], tell: &mut dyn FnMut(&dyn fmt::Display)) -> Result<Files, String> {
    let start = race_of_programs(program, STARTS, "program, empty file", &[])?;
    tell(&start);
    let (most, _) = SIZES[SIZES.len() - 1];
    let requests = night(most);
    let mut sizes = Vec::new();
    for (records, rounds) in SIZES {
        let what = format!("program, {records} records");
        let race = race_of_programs(program, rounds, &what, &requests[..records])?;
        let answers = records * ANSWER_BYTES;
        let memory = [
            peak(program, REQUESTS, answers)?,
            peak(&PROVED, REQUESTS, answers)?,
        ];
        let size = Size {
            records,
            race,
            memory,
        };
        tell(&size);
        sizes.push(size);
    }
    remove(&[REQUESTS, OURS, THEIRS]);
    Ok(Files { start, sizes })
}

impl fmt::Display for Size {
    fn fmt(&self, f: &mut fmt::Formatter) -> fmt::Result {
        let [here, proved] = self.memory;
        write!(
            f,
            "{}; peak memory {here} kB, as proved {proved} kB",
            self.race
        )
    }
}

impl Size {
    /// Nanoseconds of the whole file, ours and theirs.
    pub fn whole(&self) -> [f64; 2] {
        [self.race.ours(), self.race.theirs()].map(|time| time * self.records as f64)
    }
}

impl Files {
    /// Nanoseconds a record with the start taken off, ours and theirs, for each size.
    pub fn a_record(&self) -> impl Iterator<Item = [f64; 2]> + '_ {
        let start = [self.start.ours(), self.start.theirs()];
        self.sizes.iter().map(move |size| {
            let whole = size.whole();
            [0, 1].map(|side| (whole[side] - start[side]) / size.records as f64)
        })
    }
}
