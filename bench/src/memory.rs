//! The most memory that a program held while it answered.

use std::fs::{self, File};
use std::io::{self, Read};
use std::process::{Child, ChildStdin, Command, Stdio};
use std::thread;

/// In kB. The requests come through a pipe that stays open until all answers are there, so that the
/// program still lives when it is asked.
pub fn peak(words: &[&str], requests: &str, answers: usize) -> Result<u64, String> {
    let mut command = Command::new(words[0]);
    let command = command
        .args(&words[1..])
        .stdin(Stdio::piped())
        .stdout(Stdio::piped());
    let mut child = command
        .spawn()
        .map_err(|why| format!("{}: {why}", words[0]))?;
    let held = watched(&mut child, requests, answers);
    child.wait().map_err(|why| format!("{}: {why}", words[0]))?;
    held.map_err(|why| format!("{}: {why}", words[0]))
}

fn watched(child: &mut Child, requests: &str, answers: usize) -> Result<u64, String> {
    let mut input = child.stdin.take().expect("a pipe");
    let mut output = child.stdout.take().expect("a pipe");
    thread::scope(|scope| {
        let feeder = scope.spawn(|| feed(&mut input, requests));
        let taken = take(&mut output, answers);
        let held = high_water(child.id());
        feeder.join().expect("no panic")?;
        taken?;
        held
    })
}

fn feed(input: &mut ChildStdin, requests: &str) -> Result<(), String> {
    let mut requests = File::open(requests).map_err(|why| why.to_string())?;
    io::copy(&mut requests, input).map_err(|why| why.to_string())?;
    Ok(())
}

fn take(output: &mut impl Read, answers: usize) -> Result<(), String> {
    let mut piece = vec![0; 1 << 16];
    let mut left = answers;
    while left > 0 {
        let most = left.min(piece.len());
        match output.read(&mut piece[..most]) {
            Ok(0) => return Err("too few answers".to_string()),
            Ok(some) => left -= some,
            Err(why) => return Err(why.to_string()),
        }
    }
    Ok(())
}

fn high_water(process: u32) -> Result<u64, String> {
    let told = fs::read_to_string(format!("/proc/{process}/status")).unwrap_or_default();
    let line = told.lines().find_map(|line| line.strip_prefix("VmHWM:"));
    let number = line.and_then(|line| line.split_whitespace().next());
    let number = number.and_then(|number| number.parse().ok());
    number.ok_or_else(|| "its memory is not told".to_string())
}
