//! What the oracle compares: an operation of the probe, inputs for it, and the answers that are right.

use crate::random::Random;

/// How often each branch was hit, by its place in the subject's list.
pub struct Hits(pub Vec<u64>);

impl Hits {
    pub fn hit(&mut self, branch: usize) {
        self.0[branch] += 1;
    }
}

pub struct Subject {
    pub name: &'static str,
    /// The probe's operation, and its words in and out.
    pub operation: u8,
    pub words_in: usize,
    pub words_out: usize,
    /// The branches to count: those of the definition, and the kinds of input.
    pub branches: &'static [&'static str],
    /// Fills in the input with this number. It is called twice for each number, so it goes by the random numbers alone.
    pub input: fn(&mut Random, u64, &mut [u64], &mut Hits),
    /// Fills in the right answer.
    pub answer: fn(&[u64], &mut [u64], &mut Hits),
}

/// The first so many of a list whose last branches a small size does not have.
pub const fn first(names: &'static [&'static str], count: usize) -> &'static [&'static str] {
    names.split_at(count).0
}

/// Names for branches, each with the text that a run prints.
macro_rules! branches {
    ($vis:vis $name:ident { $($case:ident = $text:literal,)* }) => {
        // some are hit by their number; a run shows one that nothing hits
        #[allow(dead_code)]
        #[derive(Clone, Copy)]
        $vis enum $name {
            $($case,)*
        }

        impl $name {
            $vis const NAMES: &'static [&'static str] = &[$($text,)*];
        }
    };
}

pub(crate) use branches;
