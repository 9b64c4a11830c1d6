//! The proved root beside the processor's own.

use crate::inputs;
use crate::race::{race, Race};
use std::hint::black_box;

/// So many numbers stay in the nearest cache, and a turn over them is far longer than a tick of the clock.
const NUMBERS: usize = 4096;

type Root = unsafe extern "C" fn(f64) -> f64;

extern "C" {
    fn zanikory_root(x: f64) -> f64;
}

/// The processor's own root behind a call of the same shape, so that both sides pay for one.
#[inline(never)]
extern "C" fn hardware_root(x: f64) -> f64 {
    x.sqrt()
}

/// Folds the bits of all answers into one word, so that each answer is needed. Both sides run through
/// this one loop, and the compiler cannot see which function it calls.
#[inline(never)]
fn roots(function: Root, numbers: &[f64]) -> u64 {
    let function = black_box(function);
    let mut fold = 0u64;
    for &x in numbers {
        // SAFETY: both functions take every double.
        fold = fold.rotate_left(1) ^ unsafe { function(x) }.to_bits();
    }
    fold
}

/// Each root is of a number to which the root before it was added, so that it must wait for that one: as
/// in a rotation, where a root follows from another.
#[inline(never)]
fn chain(function: Root, numbers: &[f64]) -> u64 {
    let function = black_box(function);
    // SAFETY: both functions take every double.
    let last = numbers.iter().fold(0.0, |root, &x| unsafe { function(x + root) });
    last.to_bits()
}

type Loop = fn(Root, &[f64]) -> u64;

fn race_of_roots(what: &str, calls: Loop, numbers: &[f64]) -> Result<Race, String> {
    let ours = || calls(zanikory_root, numbers);
    let theirs = || calls(hardware_root, numbers);
    race(what, "hardware", numbers.len(), ours, theirs)
}

pub fn all(tell: &mut dyn FnMut(Race)) -> Result<(), String> {
    tell(race_of_roots("root", roots, &inputs::normals(NUMBERS))?);
    let numbers = inputs::from_one_to_two(NUMBERS);
    tell(race_of_roots("root, in a chain", chain, &numbers)?);
    let numbers = inputs::half_subnormals(NUMBERS);
    tell(race_of_roots("root, half subnormals", roots, &numbers)?);
    Ok(())
}
