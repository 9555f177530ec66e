//! Times, and the calls that are timed.

use std::time::Instant;

use clew::raw::{self, State};
use second::Network;

const RUNS: usize = 15;

/// The best of fifteen runs, each of as many turns as take five milliseconds, in microseconds a turn.
pub fn best(mut turn: impl FnMut()) -> f64 {
    let start = Instant::now();
    turn();
    let turns = (0.005 / start.elapsed().as_secs_f64().max(1e-9)).ceil().max(1.0) as usize;
    let mut least = f64::MAX;
    for _ in 0..RUNS {
        let start = Instant::now();
        for _ in 0..turns {
            turn();
        }
        least = least.min(start.elapsed().as_secs_f64() / turns as f64);
    }
    least * 1e6
}

/// A network that is loaded, with its picture in the area and every tensor computed.
pub struct Kept {
    pub network: Network,
    file: Vec<u8>,
    sums: Vec<u32>,
    pub area: Vec<u8>,
    all_stale: State,
    clean: State,
}

impl Kept {
    pub fn new(file: &[u8]) -> Kept {
        let network = second::decode(file).expect("a network that is taken");
        let mut sums = vec![0; network.sums_needed()];
        let mut area = vec![0; network.area_bytes()];
        let picture = crate::networks::picture(network.picture.bytes());
        area[..picture.len()].copy_from_slice(&picture);
        let mut all_stale = [0; 34];
        assert_eq!(raw::load(file, &mut sums, &area, &mut all_stale), 0, "the archive takes it too");
        let mut kept = Kept { network, file: file.to_vec(), sums, area, all_stale, clean: [0; 34] };
        kept.update(all_stale);
        kept
    }

    fn update(&mut self, mut state: State) -> u32 {
        let (number, count) = raw::update(&self.file, &self.sums, &mut self.area, &mut state);
        assert_eq!(number, 0);
        count
    }

    /// Every row of every layer.
    pub fn fresh(&mut self) -> u32 {
        self.update(self.all_stale)
    }

    /// What follows from `count` picture rows from row `first` on.
    pub fn after_rows(&mut self, first: u16, count: u16) -> u32 {
        let mut state = self.clean;
        state[0] = first;
        state[1] = first + count;
        self.update(state)
    }

    /// A clean state: nothing is recomputed, so this is the decoding and the tests.
    pub fn nothing(&mut self) -> u32 {
        self.update(self.clean)
    }
}
