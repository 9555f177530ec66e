//! Shows that the comparison can fail: each wrong variant has to be found, and the variant without a fault may not be.

use crate::implementations::Second;
use crate::lent::Implementation;
use crate::run::{run, Found, Until};
use crate::wrong::{Fault, Wrong, FAULTS, SEEN_IN_BOTH};

/// What became of one variant.
pub struct Tried {
    pub fault: Fault,
    pub words: &'static str,
    /// Whether both implementations had the fault.
    pub in_both: bool,
    outcome: Result<(), Found>,
}

impl Tried {
    /// Where it was found, if it was: a panic is not a finding.
    pub fn found(&self) -> Option<&Found> {
        self.outcome.as_ref().err().filter(|found| !found.panicked)
    }
}

/// The variant without a fault: all calls have to agree.
pub fn control(seed: u64, until: Until) -> Result<(), Found> {
    agree(&Second, &Wrong { fault: None }, seed, until)
}

/// Each variant in turn against the second implementation, then some against themselves; told as they are tried.
pub fn try_each(seed: u64, until: Until, mut tell: impl FnMut(&Tried)) {
    for &(fault, words) in FAULTS {
        let wrong = Wrong { fault: Some(fault) };
        tell(&Tried { fault, words, in_both: false, outcome: agree(&Second, &wrong, seed, until) });
    }
    for &(fault, words) in FAULTS.iter().filter(|(fault, _)| SEEN_IN_BOTH.contains(fault)) {
        let wrong = Wrong { fault: Some(fault) };
        tell(&Tried { fault, words, in_both: true, outcome: agree(&wrong, &wrong, seed, until) });
    }
}

fn agree(left: &dyn Implementation, right: &dyn Implementation, seed: u64, until: Until) -> Result<(), Found> {
    run(left, right, seed, until, |_| ()).map(|_| ())
}
