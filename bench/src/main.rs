//! Times the proved functions beside what does the same work in Rust or in hardware, and prints a line for
//! each. `bench [--write] PROGRAM..` from the repository's root, where PROGRAM are the words that start the
//! program on this processor; with --write the table and the picture in docs/ are made anew.

mod clock;
#[cfg(clarabel)]
mod document;
mod inputs;
#[cfg(clarabel)]
mod kernels;
mod machine;
#[cfg(clarabel)]
mod memory;
#[cfg(clarabel)]
mod picture;
#[cfg(clarabel)]
mod programs;
mod race;
#[cfg(clarabel)]
mod records;
mod roots;
#[cfg(clarabel)]
mod straight;
#[cfg(clarabel)]
mod tallies;

use race::Race;
use std::process::ExitCode;

fn main() -> ExitCode {
    let words: Vec<String> = std::env::args().skip(1).collect();
    let words: Vec<&str> = words.iter().map(String::as_str).collect();
    let machine = machine::kind();
    match measured(&words, &machine) {
        Ok(()) => ExitCode::SUCCESS,
        Err(why) => {
            eprintln!("bench: {why}");
            ExitCode::FAILURE
        }
    }
}

/// All that is measured, in the order of the lines.
#[cfg(clarabel)]
fn measured(words: &[&str], machine: &str) -> Result<(), String> {
    let (write, program) = match words {
        ["--write", program @ ..] => (true, program),
        program => (false, program),
    };
    let mut races = Vec::new();
    let mut tell = |race: Race| {
        println!("{race}, {machine}");
        races.push(race);
    };
    roots::all(&mut tell)?;
    kernels::all(&mut tell)?;
    records::codec(&mut tell)?;
    records::all(&mut tell)?;
    records::ways(&mut tell)?;
    tallies::all(&mut tell)?;
    let files = programs::all(program, &mut |line| println!("{line}, {machine}"))?;
    if write {
        document::write(&races, &files, machine)?;
        picture::write(&races, &files, machine)?;
    }
    Ok(())
}

/// Only what is not held beside the crate or the oracle.
#[cfg(not(clarabel))]
fn measured(_: &[&str], machine: &str) -> Result<(), String> {
    roots::all(&mut |race: Race| println!("{race}, {machine}"))
}
