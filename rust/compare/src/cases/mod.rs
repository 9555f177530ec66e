//! What is done with the inputs, case by case. Each case is made of a few calls up to a few hundred.

mod arbitrary;
mod damaged;
mod extremes;
mod history;
mod limits;
mod replacement;

use crate::generate::network::{self, Style, CHANNELS, DEEP, LARGE, SMALL, TALL};
use crate::pair::{Difference, Pair};
use crate::rng::Rng;

/// What a case has at hand.
pub struct Context<'a, 'b> {
    pub pair: &'a mut Pair<'b>,
    pub rng: &'a mut Rng,
    /// How many times all kinds of cases have been gone through.
    pub round: usize,
}

type Case = fn(&mut Context) -> Result<(), Difference>;

/// One round. Cheap cases that find most stand first; histories and arbitrary buffers come most often.
const ROUND: [Case; 40] = [
    |c| history::run(c, SMALL),
    |c| arbitrary::run(c, SMALL),
    |c| history::run(c, DEEP),
    damaged::single_faults,
    |c| history::run(c, TALL),
    damaged::double_faults,
    |c| arbitrary::run(c, DEEP),
    |c| history::run(c, SMALL),
    replacement::run,
    |c| history::run(c, CHANNELS),
    extremes::run,
    |c| history::run(c, SMALL),
    damaged::cuts,
    |c| arbitrary::run(c, TALL),
    |c| history::run(c, SMALL),
    damaged::overfull,
    |c| history::run(c, DEEP),
    |c| arbitrary::run(c, SMALL),
    damaged::any_bytes,
    |c| history::run(c, SMALL),
    limits::run,
    |c| arbitrary::run(c, CHANNELS),
    |c| history::run(c, DEEP),
    damaged::double_faults,
    |c| history::run(c, SMALL),
    extremes::run,
    |c| arbitrary::run(c, DEEP),
    |c| history::run(c, SMALL),
    damaged::too_long,
    |c| history::run(c, SMALL),
    damaged::picture_too_big,
    |c| history::run(c, SMALL),
    |c| arbitrary::run(c, SMALL),
    |c| history::run(c, DEEP),
    |c| history::run(c, CHANNELS),
    |c| history::run(c, SMALL),
    |c| arbitrary::run(c, SMALL),
    |c| history::run(c, TALL),
    |c| history::run(c, DEEP),
    |c| if c.round % 4 == 0 { history::run(c, LARGE) } else { history::run(c, SMALL) },
];

/// Runs the case of this number; with the seed it determines everything that is done.
pub fn run(pair: &mut Pair, seed: u64, number: u64) -> Result<(), Difference> {
    let mut rng = Rng::of_case(seed, number);
    let kinds = ROUND.len() as u64;
    let mut context = Context { pair, rng: &mut rng, round: (number / kinds) as usize };
    ROUND[(number % kinds) as usize](&mut context)
}

impl Context<'_, '_> {
    /// A network of this style, counted.
    fn draw(&mut self, style: Style) -> Vec<u8> {
        self.pair.tally.networks += 1;
        network::draw(self.rng, style)
    }
}
