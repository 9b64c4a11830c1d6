//! Runs the probe on a subject's inputs and compares its answers as they come.

use crate::random::Random;
use crate::subject::{Hits, Subject};
use std::io::{self, BufReader, BufWriter, Read, Write};
use std::process::{Child, ChildStdin, ChildStdout, Command, Stdio};
use std::thread;

/// So many differences are shown.
pub const SHOWN: u64 = 10;

/// Prints the counts and says whether all is well: some input, no difference, and each branch hit.
pub fn run(subject: &'static Subject, count: u64, seed: u64, probe: &[&str]) -> io::Result<bool> {
    let mut child = start(probe)?;
    let input = child.stdin.take().expect("a pipe");
    let output = child.stdout.take().expect("a pipe");
    // The inputs are made twice, here and where the answers are compared: neither side waits for
    // the other but by the pipes, and nothing is kept.
    let feeder = thread::spawn(move || feed(subject, count, seed, input));
    let compared = compare(subject, count, seed, output);
    let fed = feeder.join().expect("the feeder ends");
    let status = child.wait()?;
    let (differences, hits) = compared?;
    fed?;
    if !status.success() {
        return Err(io::Error::other(format!("the probe ended with {status}")));
    }
    let missed = show(subject, &hits);
    println!(
        "{}: {count} inputs, {differences} differences, {} branches, {missed} never hit",
        subject.name,
        subject.branches.len()
    );
    Ok(count > 0 && differences == 0 && missed == 0)
}

/// Prints the counts of so many inputs, with nothing to compare, and says whether there were any and each branch was hit.
pub fn survey(subject: &Subject, count: u64, seed: u64) -> bool {
    let mut random = Random::new(seed);
    let mut hits = Hits(vec![0; subject.branches.len()]);
    let mut words = vec![0; subject.words_in];
    let mut right = vec![0; subject.words_out];
    for number in 0..count {
        (subject.input)(&mut random, number, &mut words, &mut hits);
        (subject.answer)(&words, &mut right, &mut hits);
    }
    show(subject, &hits) == 0 && count > 0
}

/// Starts a program with pipes for what it reads and writes.
pub fn start(words: &[&str]) -> io::Result<Child> {
    Command::new(words[0])
        .args(&words[1..])
        .stdin(Stdio::piped())
        .stdout(Stdio::piped())
        .spawn()
}

fn feed(subject: &Subject, count: u64, seed: u64, pipe: ChildStdin) -> io::Result<()> {
    let mut pipe = BufWriter::with_capacity(1 << 16, pipe);
    let mut random = Random::new(seed);
    let mut unused = Hits(vec![0; subject.branches.len()]);
    let mut words = vec![0; subject.words_in];
    let (n, m) = (subject.words_in as u8, subject.words_out as u8);
    pipe.write_all(&[subject.operation, n, m, 0, 0, 0, 0, 0])?;
    for number in 0..count {
        (subject.input)(&mut random, number, &mut words, &mut unused);
        for word in &words {
            pipe.write_all(&word.to_le_bytes())?;
        }
    }
    pipe.flush()
}

fn compare(subject: &Subject, count: u64, seed: u64, pipe: ChildStdout) -> io::Result<(u64, Hits)> {
    let mut pipe = BufReader::with_capacity(1 << 16, pipe);
    let mut random = Random::new(seed);
    let mut hits = Hits(vec![0; subject.branches.len()]);
    let mut words = vec![0; subject.words_in];
    let mut right = vec![0; subject.words_out];
    let mut got = vec![0; subject.words_out];
    let mut differences = 0;
    for number in 0..count {
        (subject.input)(&mut random, number, &mut words, &mut hits);
        (subject.answer)(&words, &mut right, &mut hits);
        read_words(&mut pipe, &mut got)
            .map_err(|e| io::Error::other(format!("no answer to input {number}: {e}")))?;
        if got != right {
            differences += 1;
            if differences <= SHOWN {
                show_difference(subject, &words, &right, &got);
            }
        }
    }
    if pipe.read(&mut [0])? != 0 {
        return Err(io::Error::other("more answers than inputs"));
    }
    Ok((differences, hits))
}

fn read_words(pipe: &mut impl Read, words: &mut [u64]) -> io::Result<()> {
    for word in words {
        let mut bytes = [0; 8];
        pipe.read_exact(&mut bytes)?;
        *word = u64::from_le_bytes(bytes);
    }
    Ok(())
}

fn show_difference(subject: &Subject, input: &[u64], right: &[u64], got: &[u64]) {
    let name = subject.name;
    let [input, right, got] = [input, right, got].map(|words| {
        let words: Vec<String> = words.iter().map(|w| format!("{w:016X}")).collect();
        words.join(" ")
    });
    println!("{name}: input {input}, expected {right}, got {got}");
}

/// Prints each branch's count, and counts those that were never hit.
fn show(subject: &Subject, hits: &Hits) -> usize {
    let mut missed = 0;
    for (branch, hit) in subject.branches.iter().zip(&hits.0) {
        println!("{}: {branch:<36} {hit}", subject.name);
        if *hit == 0 {
            missed += 1;
        }
    }
    missed
}
