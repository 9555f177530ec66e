//! Deliberately wrong implementations: the comparison has to find each of them.
//!
//! [`Wrong`] does what the second implementation does, built from that one's parts, but for one [`Fault`]. Without a
//! fault it has to agree: so what is found is the fault, and nothing else.

mod bands;
mod calls;
mod cells;
mod fault;
mod file;
mod refusals;
mod sizes;
mod update;

pub use fault::{Fault, FAULTS, SEEN_IN_BOTH};

/// The second implementation with a fault, or none.
#[derive(Clone, Copy, Debug)]
pub struct Wrong {
    pub fault: Option<Fault>,
}

impl Wrong {
    fn has(self, fault: Fault) -> bool {
        self.fault == Some(fault)
    }
}
