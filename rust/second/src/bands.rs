//! Stale bands, the state, reach and growth.

use crate::network::{Kind, Layer, Network};

/// The state has a band for each of tensors 0 to 16.
pub const BANDS: usize = 17;

/// A band of rows, `first` up to but not including `end`. Empty is written 0,0.
#[derive(Clone, Copy, Debug, PartialEq, Eq)]
pub struct Band {
    pub first: usize,
    pub end: usize,
}

pub type State = [Band; BANDS];

pub const ALL_EMPTY: State = [Band::EMPTY; BANDS];

/// What a refused load hands back: 1,0 everywhere, which test 5 refuses for every network.
pub const ALL_STALE: State = [Band { first: 1, end: 0 }; BANDS];

impl Band {
    pub const EMPTY: Band = Band { first: 0, end: 0 };

    pub fn whole(rows: usize) -> Band {
        Band { first: 0, end: rows }
    }

    pub fn is_empty(self) -> bool {
        self == Band::EMPTY
    }

    /// Rows of a window may lie outside the tensor, so `row` may be negative.
    pub fn contains(self, row: i64) -> bool {
        let (first, end) = (self.first as i64, self.end as i64);
        first <= row && row < end
    }

    pub fn rows(self) -> std::ops::Range<usize> {
        self.first..self.end
    }

    /// The smallest band covering this one and the given rows.
    pub fn covering(self, rows: impl IntoIterator<Item = usize>) -> Band {
        let all: Vec<usize> = self.rows().chain(rows).collect();
        match (all.iter().min(), all.iter().max()) {
            (Some(&least), Some(&greatest)) => Band { first: least, end: greatest + 1 },
            _ => Band::EMPTY,
        }
    }
}

/// Test 5: whether no band is faulty for this network.
pub fn state_is_sound(network: &Network, state: &State) -> bool {
    (0..BANDS).all(|tensor| {
        let band = state[tensor];
        if tensor >= network.tensors() {
            return band == Band::EMPTY;
        }
        let in_order = band.first <= band.end;
        let within = band.end <= network.shape(tensor).rows;
        let empty_but_not_so_written = band.first == band.end && band != Band::EMPTY;
        in_order && within && !empty_but_not_so_written
    })
}

/// The rows of layer k's output that its inputs' bands reach.
pub fn reached_rows(layer: &Layer, input_band: Band, state: &State) -> Vec<usize> {
    let reached = |row: usize| match &layer.kind {
        Kind::Conv(conv) => {
            let first = (row * conv.stride) as i64 - conv.padding as i64;
            (first..first + conv.kernel_rows as i64).any(|input_row| input_band.contains(input_row))
        }
        Kind::Full(_) => !input_band.is_empty(),
        Kind::Add(add) => input_band.contains(row as i64) || state[add.other].contains(row as i64),
    };
    (0..layer.output.rows).filter(|&row| reached(row)).collect()
}

/// For each layer in order, its band becomes the smallest covering its own and the rows that its inputs' bands reach;
/// an input's band is the one after its own growth.
pub fn grown(network: &Network, state: &State) -> State {
    let mut grown = *state;
    for k in 1..network.tensors() {
        let reached = reached_rows(network.layer(k), grown[k - 1], &grown);
        grown[k] = grown[k].covering(reached);
    }
    grown
}

/// The state as the C interface has it: first and end of the band of tensor 0, then of tensor 1, and so on.
pub fn state_from_numbers(numbers: &[u16; 2 * BANDS]) -> State {
    std::array::from_fn(|tensor| Band {
        first: usize::from(numbers[2 * tensor]),
        end: usize::from(numbers[2 * tensor + 1]),
    })
}

pub fn state_to_numbers(state: &State) -> [u16; 2 * BANDS] {
    std::array::from_fn(|at| {
        let band = state[at / 2];
        let number = if at % 2 == 0 { band.first } else { band.end };
        u16::try_from(number).expect("no tensor has so many rows")
    })
}
