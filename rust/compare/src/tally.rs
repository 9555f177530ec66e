//! How often each call gave each number.

use std::fmt;

use crate::calls::{Answer, Call, CALL_NAMES, MAY_GIVE};

#[derive(Clone, Debug, Default)]
pub struct Tally {
    /// By call, then by number.
    met: [[u64; 10]; 6],
    pub networks: u64,
    /// Accepted readings that were compared with a fresh run.
    pub fresh_runs: u64,
    /// Pictures that were written straight into the area after a load.
    pub pictures_written: u64,
}

impl Tally {
    pub fn note(&mut self, call: Call, answer: Answer) {
        self.met[call.index()][usize::from(answer.number)] += 1;
    }

    pub fn calls(&self) -> u64 {
        self.met.iter().flatten().sum()
    }

    /// What no call gave, of what it may give.
    pub fn not_met(&self) -> Vec<String> {
        let mut missing = Vec::new();
        for (call, name) in CALL_NAMES.iter().enumerate() {
            for &number in MAY_GIVE[call] {
                if self.met[call][usize::from(number)] == 0 {
                    missing.push(format!("{name} {number}"));
                }
            }
        }
        missing
    }
}

/// A line for each call, a column for each number; a dot where the call may not give it.
impl fmt::Display for Tally {
    fn fmt(&self, f: &mut fmt::Formatter<'_>) -> fmt::Result {
        write!(f, "{:<14}{:>8}", "call", "accepted")?;
        for number in 1..=9 {
            write!(f, "{number:>7}")?;
        }
        for (call, name) in CALL_NAMES.iter().enumerate() {
            write!(f, "\n{name:<14}{:>8}", self.met[call][0])?;
            for number in 1..=9 {
                match MAY_GIVE[call].contains(&number) {
                    true => write!(f, "{:>7}", self.met[call][usize::from(number)])?,
                    false => write!(f, "{:>7}", ".")?,
                }
            }
        }
        Ok(())
    }
}
