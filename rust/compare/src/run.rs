//! Cases until there are calls enough.

use std::panic::{catch_unwind, AssertUnwindSafe};
use std::time::{Duration, Instant};

use crate::cases;
use crate::lent::Implementation;
use crate::pair::{Difference, Pair};
use crate::tally::Tally;

/// When to stop.
#[derive(Clone, Copy, Debug)]
pub struct Until {
    pub calls: u64,
    pub time: Option<Duration>,
}

impl Until {
    /// A fifth of it, for the run with a fresh seed.
    pub fn a_fifth(self) -> Until {
        Until { calls: self.calls / 5, time: self.time.map(|time| time / 5) }
    }
}

/// A difference, and where it was met.
#[derive(Clone, Debug)]
pub struct Found {
    pub case: u64,
    /// The calls on which both agreed before.
    pub calls: u64,
    /// An implementation or the comparison itself panicked.
    pub panicked: bool,
    pub difference: Difference,
}

/// Runs cases 0, 1, 2 and on; the first difference ends it. Each case is told before it is run.
pub fn run(
    left: &dyn Implementation,
    right: &dyn Implementation,
    seed: u64,
    until: Until,
    mut tell: impl FnMut(u64),
) -> Result<Tally, Found> {
    let start = Instant::now();
    let mut pair = Pair::new(left, right);
    let in_time = || until.time.is_none_or(|time| start.elapsed() < time);
    let mut case = 0;
    while pair.tally.calls() < until.calls && in_time() {
        tell(case);
        one_case(&mut pair, seed, case)?;
        case += 1;
    }
    Ok(pair.tally)
}

/// Runs one case alone.
pub fn run_case(left: &dyn Implementation, right: &dyn Implementation, seed: u64, case: u64) -> Result<Tally, Found> {
    let mut pair = Pair::new(left, right);
    one_case(&mut pair, seed, case)?;
    Ok(pair.tally)
}

/// A panic in an implementation is a difference too, and has to be told with its case.
fn one_case(pair: &mut Pair, seed: u64, case: u64) -> Result<(), Found> {
    let outcome = catch_unwind(AssertUnwindSafe(|| cases::run(pair, seed, case)));
    let panicked = outcome.is_err();
    let difference = match outcome {
        Ok(Ok(())) => return Ok(()),
        Ok(Err(difference)) => difference,
        Err(_) => Difference { words: String::from("a panic: its message stands above") },
    };
    Err(Found { case, calls: pair.tally.calls(), panicked, difference })
}
