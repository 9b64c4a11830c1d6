//! Runs a program that makes the row call on jobs, and compares its answers as they come.

use crate::cases::Met;
use crate::driver::{start, SHOWN};
use crate::jobs::{golden, jobs, part};
use crate::row::{Job, FILLED_BYTES, PLACE_BYTES};
use std::fs;
use std::io::{self, BufReader, BufWriter, Read, Write};
use std::process::{ChildStdin, ChildStdout};
use std::thread;

/// Prints the cases and says whether all is well: some job, no difference, and each case met in each way.
pub fn run(count: u64, seed: u64, program: &[&str]) -> io::Result<bool> {
    let mut child = start(program)?;
    let input = child.stdin.take().expect("a pipe");
    let output = child.stdout.take().expect("a pipe");
    // the jobs are made twice, as the inputs of a subject are
    let feeder = thread::spawn(move || feed(count, seed, input));
    let compared = compare(count, seed, output);
    let fed = feeder.join().expect("the feeder ends");
    let status = child.wait()?;
    let (differences, met) = compared?;
    fed?;
    if !status.success() {
        return Err(io::Error::other(format!("the program ended with {status}")));
    }
    let (branches, missed) = met.print();
    println!(
        "rows: {count} jobs, {differences} differences, {branches} branches, {missed} never hit"
    );
    Ok(count > 0 && differences == 0 && missed == 0)
}

fn feed(count: u64, seed: u64, pipe: ChildStdin) -> io::Result<()> {
    let mut pipe = BufWriter::with_capacity(1 << 16, pipe);
    for job in jobs(count, seed) {
        pipe.write_all(&job.bytes())?;
    }
    pipe.write_all(&part())?;
    pipe.flush()
}

fn compare(count: u64, seed: u64, pipe: ChildStdout) -> io::Result<(u64, Met)> {
    let mut pipe = BufReader::with_capacity(1 << 16, pipe);
    let (mut differences, mut met) = (0, Met::nothing());
    let mut got = vec![0; FILLED_BYTES];
    for (number, job) in jobs(count, seed).enumerate() {
        let filled = job.filled();
        met.count(&job, &filled);
        pipe.read_exact(&mut got)
            .map_err(|e| io::Error::other(format!("no answer to job {number}: {e}")))?;
        let right = filled.bytes();
        if got != right {
            differences += 1;
            if differences <= SHOWN {
                show_difference(number, &job, &right, &got);
            }
        }
    }
    if pipe.read(&mut [0])? != 0 {
        return Err(io::Error::other("more answers than jobs"));
    }
    Ok((differences, met))
}

/// The first byte that is another: the code, or a byte of a place.
fn show_difference(number: usize, job: &Job, right: &[u8], got: &[u8]) {
    let at = (0..right.len())
        .find(|at| right[*at] != got[*at])
        .expect("a difference");
    let what = match at.checked_sub(1) {
        None => String::from("the code"),
        Some(at) => format!("byte {} of place {}", at % PLACE_BYTES, at / PLACE_BYTES),
    };
    println!(
        "rows: job {number}, {} matrices and {} answers: {what}: expected {}, got {}",
        job.matrices.len(),
        job.answers,
        right[at],
        got[at]
    );
}

/// Writes the golden list, and says whether its jobs meet each case.
pub fn write_golden(input: &str, output: &str) -> io::Result<bool> {
    let (mut jobs, mut answers, mut met) = (Vec::new(), Vec::new(), Met::nothing());
    for job in golden() {
        let filled = job.filled();
        met.count(&job, &filled);
        jobs.extend(job.bytes());
        answers.extend(filled.bytes());
    }
    jobs.extend(part());
    fs::write(input, jobs)?;
    fs::write(output, answers)?;
    met.print();
    Ok(met.each_case())
}
