//! The second implementation and the archive, as `Calls`.

use crate::calls::{Calls, Sizes, State};
use second::{state_from_numbers, state_to_numbers, Outcome};

/// The second implementation.
pub struct Second;

/// Writes the outcome's state and gives its number. Only update may report a count.
fn taken(outcome: Outcome, state: &mut State) -> u8 {
    assert_eq!(outcome.count, 0, "this call reports count 0");
    *state = state_to_numbers(&outcome.state);
    outcome.number
}

impl Calls for Second {
    fn name(&self) -> String {
        String::from("second")
    }

    fn load(&self, network: &[u8], sums: &mut [u32], area: &[u8], state: &mut State) -> u8 {
        taken(second::load(network, sums, area), state)
    }

    fn change_rows(
        &self,
        network: &[u8],
        sums: &[u32],
        area: &mut [u8],
        state: &mut State,
        first: usize,
        count: usize,
        rows: &[u8],
    ) -> u8 {
        let given = state_from_numbers(state);
        taken(second::change_rows(network, sums, area, given, first, count, rows), state)
    }

    fn replace_layer(
        &self,
        network: &mut [u8],
        sums: &mut [u32],
        area: &[u8],
        state: &mut State,
        layer: usize,
        record: &[u8],
    ) -> u8 {
        let given = state_from_numbers(state);
        taken(second::replace_layer(network, sums, area, given, layer, record), state)
    }

    fn update(&self, network: &[u8], sums: &[u32], area: &mut [u8], state: &mut State) -> (u8, u32) {
        let outcome = second::update(network, sums, area, state_from_numbers(state));
        *state = state_to_numbers(&outcome.state);
        (outcome.number, outcome.count)
    }

    fn read(&self, network: &[u8], sums: &[u32], area: &[u8], state: &State, out: &mut [u8]) -> u8 {
        let outcome = second::read(network, sums, area, state_from_numbers(state), out);
        let mut handed_back = *state;
        let number = taken(outcome, &mut handed_back);
        assert_eq!(handed_back, *state, "a reading leaves the state");
        number
    }

    fn sizes(&self, network: &[u8]) -> (u8, Sizes) {
        let sizes = second::sizes(network);
        (sizes.number, sizes.to_numbers())
    }
}

/// The archive, through the wrapper's raw calls.
#[cfg(feature = "archive")]
pub struct Archive;

#[cfg(feature = "archive")]
impl Calls for Archive {
    fn name(&self) -> String {
        String::from("archive")
    }

    fn load(&self, network: &[u8], sums: &mut [u32], area: &[u8], state: &mut State) -> u8 {
        clew::raw::load(network, sums, area, state)
    }

    fn change_rows(
        &self,
        network: &[u8],
        sums: &[u32],
        area: &mut [u8],
        state: &mut State,
        first: usize,
        count: usize,
        rows: &[u8],
    ) -> u8 {
        clew::raw::change_rows(network, sums, area, state, first, count, rows)
    }

    fn replace_layer(
        &self,
        network: &mut [u8],
        sums: &mut [u32],
        area: &[u8],
        state: &mut State,
        layer: usize,
        record: &[u8],
    ) -> u8 {
        clew::raw::replace_layer(network, sums, area, state, layer, record)
    }

    fn update(&self, network: &[u8], sums: &[u32], area: &mut [u8], state: &mut State) -> (u8, u32) {
        clew::raw::update(network, sums, area, state)
    }

    fn read(&self, network: &[u8], sums: &[u32], area: &[u8], state: &State, out: &mut [u8]) -> u8 {
        clew::raw::read(network, sums, area, state, out)
    }

    fn sizes(&self, network: &[u8]) -> (u8, Sizes) {
        clew::raw::sizes(network)
    }
}
