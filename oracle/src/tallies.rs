//! Runs a program that tallies on files of answers, and compares its listings.

use crate::driver::start;
use crate::heads::{files, AnswerFile};
use crate::met::Met;
use crate::tally::TooLarge;
use std::io::{self, BufWriter, Read, Write};
use std::process::ChildStdin;
use std::thread;

/// So many differences are shown.
const SHOWN: usize = 10;

/// Prints what the records of all files meet, and says whether all is well: no listing differs, and each cell and reason was met.
pub fn run(count: u64, seed: u64, program: &[&str]) -> io::Result<bool> {
    let (mut total, mut number, mut differences) = (Met::nothing(), 0, 0);
    for file in files(count, seed) {
        let name = file.name.clone();
        let (met, listing) =
            listed(file, program).map_err(|e| io::Error::other(format!("{name}: {e}")))?;
        let right = met.tally.listing().map_err(TooLarge::error)?;
        if listing != right.as_bytes() {
            differences += 1;
            if differences <= SHOWN {
                show_difference(&name, &right, &listing);
            }
        }
        total.add(&met).map_err(TooLarge::error)?;
        number += 1;
    }
    let missed = total.print();
    println!(
        "tallies: {number} files, {} records, {differences} differences, {missed} never met",
        total.records
    );
    Ok(differences == 0 && missed == 0)
}

/// What a file's records meet, and what the program writes.
fn listed(file: AnswerFile, program: &[&str]) -> io::Result<(Met, Vec<u8>)> {
    let mut child = start(program)?;
    let input = child.stdin.take().expect("a pipe");
    let mut output = child.stdout.take().expect("a pipe");
    let feeder = thread::spawn(move || feed(file, input));
    let mut listing = Vec::new();
    output.read_to_end(&mut listing)?;
    let met = feeder.join().expect("the feeder ends")?;
    match child.wait()? {
        status if status.success() => Ok((met, listing)),
        status => Err(io::Error::other(format!("the program ended with {status}"))),
    }
}

fn feed(file: AnswerFile, pipe: ChildStdin) -> io::Result<Met> {
    let mut pipe = BufWriter::with_capacity(1 << 16, pipe);
    let mut met = Met::nothing();
    for answer in file.answers {
        met.count(&answer).map_err(TooLarge::error)?;
        pipe.write_all(&answer)?;
    }
    pipe.write_all(&file.part)?;
    met.tally.end(file.part.len()).map_err(TooLarge::error)?;
    pipe.flush()?;
    Ok(met)
}

/// The first line that is another.
fn show_difference(name: &str, right: &str, listing: &[u8]) {
    let listing = String::from_utf8_lossy(listing);
    let (mut right, mut got) = (right.split_inclusive('\n'), listing.split_inclusive('\n'));
    loop {
        match (right.next(), got.next()) {
            (None, None) => return,
            (right, got) if right == got => {}
            (right, got) => {
                let [right, got] = [right, got].map(|line| line.unwrap_or("no line"));
                return println!("{name}: expected {right:?}, got {got:?}");
            }
        }
    }
}
