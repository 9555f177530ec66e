//! The calls as a trait, and one call with its answer as values.

use std::fmt;

/// First and end of the band of tensor 0, then of tensor 1, and so on.
pub type State = [u16; 34];

/// The all-stale state, 1,0 everywhere.
pub const ALL_STALE: State = {
    let mut state = [0; 34];
    let mut at = 0;
    while at < 34 {
        state[at] = 1;
        at += 2;
    }
    state
};

/// The four sizes: bytes of the picture, stored sums, bytes of the area and of a reading.
pub type Sizes = [u32; 4];

/// An implementation of the six calls. Each gives its number; update gives its count too, and sizes the four sizes.
pub trait Calls {
    fn name(&self) -> String;

    fn load(&self, network: &[u8], sums: &mut [u32], area: &[u8], state: &mut State) -> u8;

    fn change_rows(
        &self,
        network: &[u8],
        sums: &[u32],
        area: &mut [u8],
        state: &mut State,
        first: usize,
        count: usize,
        rows: &[u8],
    ) -> u8;

    fn replace_layer(
        &self,
        network: &mut [u8],
        sums: &mut [u32],
        area: &[u8],
        state: &mut State,
        layer: usize,
        record: &[u8],
    ) -> u8;

    fn update(&self, network: &[u8], sums: &[u32], area: &mut [u8], state: &mut State) -> (u8, u32);

    fn read(&self, network: &[u8], sums: &[u32], area: &[u8], state: &State, out: &mut [u8]) -> u8;

    fn sizes(&self, network: &[u8]) -> (u8, Sizes);
}

/// A call without its buffers: those are in [`Lent`](crate::lent::Lent), rows, record and reading slice too.
#[derive(Clone, Copy, Debug, PartialEq, Eq)]
pub enum Call {
    Load,
    ChangeRows { first: usize, count: usize },
    ReplaceLayer { layer: usize },
    Update,
    Read,
    Sizes,
}

pub const CALL_NAMES: [&str; 6] = ["load", "change_rows", "replace_layer", "update", "read", "sizes"];

impl Call {
    /// Which of [`CALL_NAMES`] it is.
    pub fn index(self) -> usize {
        match self {
            Call::Load => 0,
            Call::ChangeRows { .. } => 1,
            Call::ReplaceLayer { .. } => 2,
            Call::Update => 3,
            Call::Read => 4,
            Call::Sizes => 5,
        }
    }

    pub fn name(self) -> &'static str {
        CALL_NAMES[self.index()]
    }

    /// The numbers that it is given besides its buffers; 0 where it has none.
    pub fn numbers(self) -> [usize; 2] {
        match self {
            Call::ChangeRows { first, count } => [first, count],
            Call::ReplaceLayer { layer } => [layer, 0],
            _ => [0, 0],
        }
    }

    /// The call that has this index and these numbers.
    pub fn of(index: usize, [first, second]: [usize; 2]) -> Option<Call> {
        let rows = Call::ChangeRows { first, count: second };
        let layer = Call::ReplaceLayer { layer: first };
        [Call::Load, rows, layer, Call::Update, Call::Read, Call::Sizes].get(index).copied()
    }
}

/// The numbers that each of [`CALL_NAMES`] may give: sizes tests 1 to 3, load 1 to 4, the others 1 to 6 and then their
/// own.
pub const MAY_GIVE: [&[u8]; 6] = [
    &[0, 1, 2, 3, 4],
    &[0, 1, 2, 3, 4, 5, 6, 7],
    &[0, 1, 2, 3, 4, 5, 6, 7, 9],
    &[0, 1, 2, 3, 4, 5, 6],
    &[0, 1, 2, 3, 4, 5, 6, 7, 8],
    &[0, 1, 2, 3],
];

impl fmt::Display for Call {
    fn fmt(&self, f: &mut fmt::Formatter<'_>) -> fmt::Result {
        match self {
            Call::ChangeRows { first, count } => write!(f, "{} first {first} count {count}", self.name()),
            Call::ReplaceLayer { layer } => write!(f, "{} layer {layer}", self.name()),
            _ => write!(f, "{}", self.name()),
        }
    }
}

/// What a call answers besides what it writes: calls that have no count or sizes have 0s there.
#[derive(Clone, Copy, Debug, Default, PartialEq, Eq)]
pub struct Answer {
    pub number: u8,
    pub count: u32,
    pub sizes: Sizes,
}

impl Answer {
    pub fn accepted(self) -> bool {
        self.number == 0
    }
}

impl From<u8> for Answer {
    fn from(number: u8) -> Answer {
        Answer { number, ..Answer::default() }
    }
}

impl fmt::Display for Answer {
    fn fmt(&self, f: &mut fmt::Formatter<'_>) -> fmt::Result {
        write!(f, "number {} count {} sizes {:?}", self.number, self.count, self.sizes)
    }
}

#[cfg(test)]
mod tests {
    use super::*;

    #[test]
    fn index_and_numbers_give_the_call() {
        for (index, numbers) in [[0, 0], [3, 4], [5, 0], [0, 0], [0, 0], [0, 0]].into_iter().enumerate() {
            let call = Call::of(index, numbers).expect("a call for each name");
            assert_eq!((call.index(), call.numbers()), (index, numbers));
        }
        assert_eq!(Call::of(CALL_NAMES.len(), [0, 0]), None);
    }
}
