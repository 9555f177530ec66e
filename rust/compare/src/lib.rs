//! Drives two implementations of the calls through the same seeded inputs and compares every number, count, state,
//! byte and sum.
//!
//! * [`calls`]: the trait of the calls, and a call with its answer
//! * [`lent`]: the buffers lent to a call, with fences around them, and what makes a call on them
//! * [`implementations`]: the second implementation and the archive as `Calls`
//! * [`served`]: a program at the other end of two pipes
//! * [`serve`]: such a program, and [`message`]: what the two send each other
//! * [`pair`]: one call made on both, and how they differ
//! * [`generate`]: seeded networks, damage, states, sums and arguments
//! * [`cases`]: what is done with them, case by case
//! * [`run`]: cases until there are calls enough
//! * [`wrong`] and [`self_test`]: deliberately wrong implementations, each of which has to be found

// The calls have as many arguments as they have.
#![allow(clippy::too_many_arguments)]

pub mod calls;
pub mod cases;
pub mod generate;
pub mod implementations;
pub mod lent;
pub mod message;
pub mod pair;
pub mod rng;
pub mod run;
pub mod self_test;
pub mod serve;
pub mod served;
pub mod tally;
pub mod wrong;
