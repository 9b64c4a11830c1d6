//! Compares the proved build, behind the probe, with Rust and the crate's own modules, bit for bit, and answers records by them.

mod algebra;
mod cases;
mod cholesky;
mod codes;
mod driver;
mod eigen;
mod exact;
mod float;
mod golden;
mod heads;
mod in_place;
mod jobs;
mod kinds;
mod lent;
mod listed;
mod marks;
mod matrix;
mod met;
mod modules;
mod nights;
mod numbers;
mod places;
mod powers;
mod random;
mod reached;
mod record;
mod requests;
mod root;
mod rotations;
mod row;
mod rows;
mod scaled;
mod scalings;
mod search;
mod shapes;
mod stream;
mod subject;
mod subjects;
mod svd;
mod table;
mod tallies;
mod tally;
mod ways;

use std::io::{self, BufReader, BufWriter, Read, Write};
use std::process::ExitCode;
use tally::{Tally, TooLarge};

fn main() -> ExitCode {
    let words: Vec<String> = std::env::args().skip(1).collect();
    let words: Vec<&str> = words.iter().map(String::as_str).collect();
    let done = match &words[..] {
        ["subjects"] => Some(Ok(list_subjects())),
        ["operations", input, output] => Some(golden::write(input, output)),
        ["powers", count, seed] => powers(count, seed),
        _ => with_records(&words)
            .or_else(|| with_tallies(&words))
            .or_else(|| with_rows(&words))
            .or_else(|| with_subject(&words)),
    };
    match done {
        Some(Ok(true)) => ExitCode::SUCCESS,
        Some(Ok(false)) => ExitCode::FAILURE,
        Some(Err(error)) => {
            eprintln!("oracle: {}: {error}", words[0]);
            ExitCode::FAILURE
        }
        None => {
            usage();
            ExitCode::from(2)
        }
    }
}

fn usage() {
    eprintln!("usage: oracle subjects");
    eprintln!("       oracle SUBJECT COUNT SEED [PROBE-COMMAND...]");
    eprintln!("       oracle operations INPUT OUTPUT");
    eprintln!("       oracle powers COUNT SEED");
    eprintln!("       oracle search-eigen COUNT SEED");
    eprintln!("       oracle search-scaled COUNT SEED");
    eprintln!("       oracle requests COUNT SEED > REQUESTS");
    eprintln!("       oracle golden > REQUESTS");
    eprintln!("       oracle answers < REQUESTS > ANSWERS");
    eprintln!("       oracle branches < REQUESTS");
    eprintln!("       oracle table REQUESTS ANSWERS");
    eprintln!("       oracle tally < ANSWERS > LISTING");
    eprintln!("       oracle tallies COUNT SEED PROGRAM-COMMAND...");
    eprintln!("       oracle golden-answers > ANSWERS");
    eprintln!("       oracle heads < ANSWERS");
    eprintln!("       oracle rows COUNT SEED PROGRAM-COMMAND...");
    eprintln!("       oracle golden-rows INPUT OUTPUT");
}

/// Prints the name of each subject, and says whether there are any.
fn list_subjects() -> bool {
    for subject in subjects::all() {
        println!("{}", subject.name);
    }
    subjects::all().count() > 0
}

/// Whether the products with powers of two are right.
fn powers(count: &str, seed: &str) -> Option<io::Result<bool>> {
    Some(Ok(exact::show(count.parse().ok()?, seed.parse().ok()?)))
}

/// Does what the words ask for, where that is of records, and says whether all is well.
fn with_records(words: &[&str]) -> Option<io::Result<bool>> {
    Some(match words {
        ["answers"] => answers().map(|()| true),
        ["requests", count, seed] => {
            write_requests(count.parse().ok()?, seed.parse().ok()?).map(|()| true)
        }
        ["golden"] => golden_requests().map(|()| true),
        ["branches"] => reached::show(&mut io::stdin().lock()),
        ["table", requests, answers] => table::show(requests, answers),
        _ => return None,
    })
}

/// The same of tallies.
fn with_tallies(words: &[&str]) -> Option<io::Result<bool>> {
    let mut input = BufReader::with_capacity(1 << 16, io::stdin());
    Some(match words {
        ["tally"] => tally(&mut input).map(|()| true),
        ["golden-answers"] => golden_answers().map(|()| true),
        ["heads"] => met::show(&mut input),
        ["tallies", count, seed, program @ ..] if !program.is_empty() => {
            tallies::run(count.parse().ok()?, seed.parse().ok()?, program)
        }
        _ => return None,
    })
}

/// The same of rows.
fn with_rows(words: &[&str]) -> Option<io::Result<bool>> {
    Some(match words {
        ["golden-rows", input, output] => rows::write_golden(input, output),
        ["rows", count, seed, program @ ..] if !program.is_empty() => {
            rows::run(count.parse().ok()?, seed.parse().ok()?, program)
        }
        _ => return None,
    })
}

fn tally(input: &mut impl Read) -> io::Result<()> {
    let listing = Tally::read(input)?.listing().map_err(TooLarge::error)?;
    stream::standard_output()?.write_all(listing.as_bytes())
}

fn golden_answers() -> io::Result<()> {
    heads::write_golden(&mut BufWriter::new(stream::standard_output()?))
}

fn answers() -> io::Result<()> {
    stream::answers(&mut io::stdin().lock(), &mut stream::standard_output()?)
}

fn write_requests(count: u64, seed: u64) -> io::Result<()> {
    let output = stream::standard_output()?;
    requests::write(count, seed, &mut BufWriter::with_capacity(1 << 16, output))
}

fn golden_requests() -> io::Result<()> {
    requests::write_golden(&mut BufWriter::new(stream::standard_output()?))
}

/// The same of a subject.
fn with_subject(words: &[&str]) -> Option<io::Result<bool>> {
    let [name, count, seed, probe @ ..] = words else {
        return None;
    };
    let (count, seed) = (count.parse().ok()?, seed.parse().ok()?);
    match *name {
        "search-eigen" => search::eigen(count, seed),
        "search-scaled" => search::scaled(count, seed),
        _ => return with_named(name, count, seed, probe),
    }
    Some(Ok(true))
}

fn with_named(name: &str, count: u64, seed: u64, probe: &[&str]) -> Option<io::Result<bool>> {
    let subject = subjects::named(name)?;
    Some(if probe.is_empty() {
        Ok(driver::survey(subject, count, seed))
    } else {
        driver::run(subject, count, seed, probe)
    })
}
