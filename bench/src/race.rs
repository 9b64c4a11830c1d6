//! Two sides that do the same work, timed in turn within one run, so that a slow moment of the machine
//! falls on both.

use crate::clock;
use std::fmt;

/// How many rounds there are, and which clock says how long a turn took, in nanoseconds.
pub struct How {
    pub rounds: usize,
    pub clock: fn() -> f64,
}

/// For calls within this program.
const CALLS: How = How {
    rounds: 101,
    clock: clock::of_thread,
};

/// What was timed, beside what, and the nanoseconds of one call on each side, round by round.
pub struct Race {
    pub what: String,
    pub beside: &'static str,
    rounds: Vec<(f64, f64)>,
}

/// The least, the median and the most of some numbers.
pub struct Spread {
    pub least: f64,
    pub median: f64,
    pub most: f64,
}

/// A turn takes at least so many nanoseconds, since to look at the clock takes some hundred.
const LEAST_TURN: f64 = 200_000.0;

/// Runs both sides in turn, where a side makes `calls` calls within this program; in a turn that would be
/// short it makes them several times.
pub fn race(
    what: &str,
    beside: &'static str,
    calls: usize,
    ours: impl Fn() -> u64,
    theirs: impl Fn() -> u64,
) -> Result<Race, String> {
    let (our_time, _) = turn(CALLS.clock, &|| Ok(ours()))?;
    let (their_time, _) = turn(CALLS.clock, &|| Ok(theirs()))?;
    let times = (LEAST_TURN / our_time.min(their_time)).ceil() as usize;
    let ours = || Ok(folded(times, &ours));
    let theirs = || Ok(folded(times, &theirs));
    race_as(&CALLS, what, beside, calls * times, ours, theirs)
}

fn folded(times: usize, side: impl Fn() -> u64) -> u64 {
    (0..times).fold(0, |fold, _| fold.rotate_left(1) ^ side())
}

/// Runs both sides in turn. A side makes `calls` calls and hands back a fold of its answers' bits; it is
/// an error if the two sides' folds differ, since they then did not do the same work.
pub fn race_as(
    how: &How,
    what: &str,
    beside: &'static str,
    calls: usize,
    ours: impl Fn() -> Result<u64, String>,
    theirs: impl Fn() -> Result<u64, String>,
) -> Result<Race, String> {
    let mut rounds = Vec::new();
    // the first round fills the caches and wakes the processor, and is not counted
    for round in 0..=how.rounds {
        let (our_time, our_fold) = turn(how.clock, &ours)?;
        let (their_time, their_fold) = turn(how.clock, &theirs)?;
        if our_fold != their_fold {
            return Err(format!("{what}: the answers differ from {beside}"));
        }
        if round > 0 {
            rounds.push((our_time / calls as f64, their_time / calls as f64));
        }
    }
    Ok(Race {
        what: what.to_string(),
        beside,
        rounds,
    })
}

fn turn(clock: fn() -> f64, side: &impl Fn() -> Result<u64, String>) -> Result<(f64, u64), String> {
    let start = clock();
    let fold = side()?;
    Ok((clock() - start, fold))
}

impl Race {
    /// Nanoseconds of one call of ours.
    pub fn ours(&self) -> f64 {
        self.spread(|round| round.0).median
    }

    /// Nanoseconds of one call of theirs.
    pub fn theirs(&self) -> f64 {
        self.spread(|round| round.1).median
    }

    /// How many times longer ours takes, in each round: a ratio is of two turns that stood next to each
    /// other, and the median is taken of these.
    pub fn ratio(&self) -> Spread {
        self.spread(|round| round.0 / round.1)
    }

    fn spread(&self, part: impl Fn(&(f64, f64)) -> f64) -> Spread {
        let mut parts: Vec<f64> = self.rounds.iter().map(part).collect();
        parts.sort_by(f64::total_cmp);
        Spread {
            least: parts[0],
            median: parts[parts.len() / 2],
            most: parts[parts.len() - 1],
        }
    }
}

/// Nanoseconds, to a tenth where that says something.
pub fn nanoseconds(x: f64) -> String {
    if x < 100.0 {
        format!("{x:.1}")
    } else {
        format!("{x:.0}")
    }
}

/// To three digits where it is below 100.
pub fn ratio_in_words(x: f64) -> String {
    if x < 10.0 {
        format!("{x:.2}")
    } else {
        format!("{x:.1}")
    }
}

impl fmt::Display for Race {
    fn fmt(&self, f: &mut fmt::Formatter) -> fmt::Result {
        let (ours, theirs) = (nanoseconds(self.ours()), nanoseconds(self.theirs()));
        let ratio = self.ratio();
        let [least, median, most] = [ratio.least, ratio.median, ratio.most].map(ratio_in_words);
        let (what, beside, rounds) = (&self.what, self.beside, self.rounds.len());
        write!(
            f,
            "{what}: {ours} ns, {beside} {theirs} ns, ratio {median} "
        )?;
        write!(
            f,
            "(median of {rounds} interleaved rounds, {least}..{most})"
        )
    }
}
