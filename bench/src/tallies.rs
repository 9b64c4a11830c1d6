//! The tally of a night's answers: the C entry beside the oracle's, beside one written straight in Rust, and beside a reading of the
//! same bytes from a file.

use crate::race::{race, Race};
use crate::records::night;
use crate::straight::{self, COUNTS};
use reference::record::{answer, ANSWER_BYTES};
use reference::tally::Tally;
use std::fs::{self, File};
use std::hint::black_box;
use std::io::{Read, Seek};

/// So many answers are counted in a turn.
const ANSWERS: usize = 4096;

/// The program reads so many bytes at most, and so many whole answers are in them.
const READ: usize = 65536;
const AT_ONCE: usize = READ / ANSWER_BYTES * ANSWER_BYTES;

const FILE: &str = "target/bench/answers-to-read";

/// Takes the counts and how many there are, and answers' bytes.
type Step = unsafe extern "C" fn(*mut u64, usize, *const u8, usize) -> u8;

extern "C" {
    fn zanikory_tally_file(counts: *mut u64, n: usize, answers: *const u8, m: usize) -> u8;
}

/// It stands behind a call of the same shape, so that both sides pay for one.
#[inline(never)]
unsafe extern "C" fn straight_step(counts: *mut u64, _: usize, answers: *const u8, m: usize) -> u8 {
    // SAFETY: the caller lends the counts of a tally and so many bytes, which do not overlap.
    let (counts, answers) =
        unsafe { (&mut *counts.cast(), std::slice::from_raw_parts(answers, m)) };
    straight::tally(counts, answers)
}

/// A turn: as many at once as the program counts. The compiler cannot see which function it calls.
#[inline(never)]
fn counted(step: Step, answers: &[u8]) -> Vec<u64> {
    let step = black_box(step);
    let mut counts = vec![0; COUNTS];
    for some in answers.chunks(AT_ONCE) {
        // SAFETY: each step takes any bytes, and adds to the counts of a tally.
        let code = unsafe { step(counts.as_mut_ptr(), COUNTS, some.as_ptr(), some.len()) };
        assert!(code == 0, "a tally is refused with {code}");
    }
    counts
}

/// The same by the oracle.
#[inline(never)]
fn counted_by_oracle(answers: &[u8]) -> Vec<u64> {
    let mut tally = Tally::default();
    for one in black_box(answers).chunks_exact(ANSWER_BYTES) {
        let one = one.try_into().expect("an answer's bytes");
        tally.count(one).expect("a count of 64 bits");
    }
    tally.counts()
}

fn folded(counts: Vec<u64>) -> u64 {
    counts
        .iter()
        .fold(0, |fold, count| fold.rotate_left(1) ^ count)
}

/// Reads a file from its start to its end, and says how many bytes there were.
fn bytes_read(mut file: &File) -> u64 {
    let mut room = [0; READ];
    file.rewind().expect("a file");
    let mut bytes = 0;
    loop {
        match black_box(&mut file).read(&mut room).expect("a file") {
            0 => return bytes,
            more => bytes += more as u64,
        }
        black_box(&room);
    }
}

pub fn all(tell: &mut dyn FnMut(Race)) -> Result<(), String> {
    const WHAT: &str = "tally, a night";
    let requests = night(ANSWERS);
    let answers: Vec<u8> = requests
        .iter()
        .flat_map(|request| answer(&request.bytes()))
        .collect();
    let ours = || folded(counted(zanikory_tally_file, &answers));
    let straight = || folded(counted(straight_step, &answers));
    let oracle = || folded(counted_by_oracle(&answers));
    tell(race(WHAT, "straight", ANSWERS, ours, straight)?);
    tell(race(WHAT, "oracle", ANSWERS, ours, oracle)?);
    fs::write(FILE, &answers).map_err(|why| format!("{FILE}: {why}"))?;
    let file = File::open(FILE).map_err(|why| format!("{FILE}: {why}"))?;
    let read = || bytes_read(&file);
    // the sides do not do the same work here, and both say how many bytes there were
    let bytes = || match counted(zanikory_tally_file, &answers)[COUNTS - 1] {
        0 => answers.len() as u64,
        left => left,
    };
    tell(race(WHAT, "reading", ANSWERS, bytes, read)?);
    fs::remove_file(FILE).map_err(|why| format!("{FILE}: {why}"))
}
