//! Test 5 and growth, with a fault.

use second::{reached_rows, state_is_sound, Band, Kind, Layer, Network, State, ALL_EMPTY};

use super::{Fault, Wrong};

impl Wrong {
    pub(super) fn state_is_sound(self, network: &Network, state: &State) -> bool {
        match self.fault {
            Some(Fault::TwoBadBandsTaken) => return matches!(bad_bands(network, state).len(), 0 | 2),
            Some(Fault::TwoKindsOfBadBandsTaken) => return matches!(kinds(&bad_bands(network, state)).len(), 0 | 2),
            _ => {}
        }
        let mut state = *state;
        for (tensor, band) in state.iter_mut().enumerate() {
            let there = tensor < network.tensors();
            let empty = band.first == band.end && there && band.end <= network.shape(tensor).rows;
            let skipped =
                (self.has(Fault::MissingTensorsNotTested) && !there) || (self.has(Fault::EmptyBandAnywhere) && empty);
            if skipped {
                *band = Band::EMPTY;
            }
        }
        state_is_sound(network, &state)
    }

    pub(super) fn grown(self, network: &Network, state: &State) -> State {
        let from_picture = self.grown_from_picture(network, state);
        let mut grown = *state;
        for k in 1..network.tensors() {
            let inputs = match self.fault {
                Some(Fault::GrowthFromEntryBands) => *state,
                Some(Fault::ReadersForgotten) => from_picture,
                _ => grown,
            };
            let reached = self.reached(network.layer(k), k, &inputs);
            let own = if self.has(Fault::OwnBandForgotten) && !reached.is_empty() { Band::EMPTY } else { grown[k] };
            grown[k] = self.in_a_byte(own.covering(reached));
        }
        grown
    }

    /// What a change of the picture alone reaches: the layers' own bands are not spread.
    fn grown_from_picture(self, network: &Network, state: &State) -> State {
        let mut alone = ALL_EMPTY;
        alone[0] = state[0];
        second::grown(network, &alone)
    }

    pub(super) fn reached(self, layer: &Layer, k: usize, inputs: &State) -> Vec<usize> {
        let band = inputs[k - 1];
        let mut layer = layer.clone();
        let mut inputs = *inputs;
        match &mut layer.kind {
            Kind::Conv(conv) => match self.fault {
                Some(Fault::ReachWithoutPadding) => conv.padding = 0,
                Some(Fault::ReachOneRowShort) => conv.kernel_rows = (conv.kernel_rows - 1).max(1),
                Some(Fault::ReachStrideIgnored) => conv.stride = 1,
                Some(Fault::ReachThirdRoundedDown) if conv.stride == 3 && band.first < band.end => {
                    let third = |length: usize| (length * ((1 << 17) / 3)) >> 17;
                    let first = third((band.first + conv.padding + 3).saturating_sub(conv.kernel_rows));
                    let end = third(band.end + conv.padding - 1) + 1;
                    return (first..end.min(layer.output.rows)).collect();
                }
                _ => {}
            },
            Kind::Full(_) if self.has(Fault::FullReachedByFirstRow) && band.first > 0 => return Vec::new(),
            Kind::Add(add) if self.has(Fault::AddForgetsSecondBand) => inputs[add.other] = Band::EMPTY,
            _ => {}
        }
        reached_rows(&layer, band, &inputs)
    }

    fn in_a_byte(self, band: Band) -> Band {
        if self.has(Fault::BandsInAByte) {
            Band { first: band.first % 256, end: band.end % 256 }
        } else {
            band
        }
    }
}

/// How a band is bad for its tensor. The all-stale state is bad in the first way alone.
#[derive(Clone, Copy, PartialEq, Eq)]
pub(super) enum Bad {
    FirstAboveEnd,
    EndAboveRows,
    EmptyElsewhere,
    TensorMissing,
}

/// The first way in which each bad band is bad.
pub(super) fn bad_bands(network: &Network, state: &State) -> Vec<Bad> {
    let bad = |(tensor, band): (usize, &Band)| {
        let ways = [
            (band.first > band.end, Bad::FirstAboveEnd),
            (tensor < network.tensors() && band.end > network.shape(tensor).rows, Bad::EndAboveRows),
            (band.first == band.end, Bad::EmptyElsewhere),
            (tensor >= network.tensors(), Bad::TensorMissing),
        ];
        ways.into_iter().find(|&(met, _)| met && *band != Band::EMPTY).map(|(_, way)| way)
    };
    state.iter().enumerate().filter_map(bad).collect()
}

/// Each way once.
fn kinds(bad: &[Bad]) -> Vec<Bad> {
    let all = [Bad::FirstAboveEnd, Bad::EndAboveRows, Bad::EmptyElsewhere, Bad::TensorMissing];
    all.into_iter().filter(|way| bad.contains(way)).collect()
}
