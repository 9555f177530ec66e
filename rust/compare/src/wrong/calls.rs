//! The calls, with a fault.

use second::{state_from_numbers, state_to_numbers, Band, Network, ALL_EMPTY, ALL_STALE};

use super::refusals::Asked;
use super::{Fault, Wrong};
use crate::calls::{Calls, Sizes, State};

impl Calls for Wrong {
    fn name(&self) -> String {
        match self.fault {
            Some(fault) => format!("{fault:?}"),
            None => String::from("no fault"),
        }
    }

    fn load(&self, file: &[u8], sums: &mut [u32], area: &[u8], state: &mut State) -> u8 {
        match self.decode(file).and_then(|network| self.test_4(network, sums, area, Asked::Load)) {
            Ok(network) => {
                self.fill_sums(&network, sums);
                *state = everything_stale(&network);
                0
            }
            Err(number) => {
                match self.fault {
                    Some(Fault::RefusedLoadGivesEmpty) => *state = [0; 34],
                    Some(Fault::RefusedLoadKeepsState) => {}
                    _ => *state = state_to_numbers(&ALL_STALE),
                }
                number
            }
        }
    }

    fn change_rows(
        &self,
        file: &[u8],
        sums: &[u32],
        area: &mut [u8],
        state: &mut State,
        first: usize,
        count: usize,
        rows: &[u8],
    ) -> u8 {
        let asked = Asked::ChangeRows { first, count, rows };
        let changed = self.tests(file, sums, area, state, asked).map(|network| {
            // With a fault the rows may end beyond the picture or the bytes.
            let end = first.wrapping_add(count).min(network.picture.rows);
            self.write_rows(&network, area, state, first.min(end)..end, rows);
        });
        self.number(changed, state)
    }

    fn replace_layer(
        &self,
        file: &mut [u8],
        sums: &mut [u32],
        area: &[u8],
        state: &mut State,
        layer: usize,
        record: &[u8],
    ) -> u8 {
        let k = if self.has(Fault::LayerNumberInAByte) { layer % 256 } else { layer };
        let tested = self.tests(file, sums, area, state, Asked::ReplaceLayer { k, record });
        let replaced = tested.and_then(|network| self.replace(&network, file, sums, state, k, record));
        self.number(replaced, state)
    }

    fn update(&self, file: &[u8], sums: &[u32], area: &mut [u8], state: &mut State) -> (u8, u32) {
        let tested = self.tests(file, sums, area, state, Asked::Update);
        let counted = tested.map(|network| {
            let bands = state_from_numbers(state);
            let count = self.recompute(&network, sums, area, &bands);
            let mut left = ALL_EMPTY;
            if self.has(Fault::PictureBandLeft) {
                left[0] = bands[0];
            }
            *state = state_to_numbers(&left);
            count
        });
        (self.number(counted.map(|_| ()), state), counted.unwrap_or(0) as u32)
    }

    fn read(&self, file: &[u8], sums: &[u32], area: &[u8], state: &State, out: &mut [u8]) -> u8 {
        let tested = self.tests(file, sums, area, state, Asked::Read { length: out.len() });
        let reading = tested.map(|network| {
            let bytes = &area[network.area_place(network.layers.len())];
            out[..bytes.len()].copy_from_slice(bytes);
        });
        self.number(reading, &mut state.clone())
    }

    fn sizes(&self, file: &[u8]) -> (u8, Sizes) {
        match self.decode_for_sizes(file) {
            Ok(network) => (0, self.sizes_of(&network)),
            Err(number) => (number, self.refused_sizes(file)),
        }
    }
}

fn everything_stale(network: &Network) -> State {
    let mut bands = ALL_EMPTY;
    for (tensor, band) in bands.iter_mut().enumerate().take(network.tensors()) {
        *band = Band::whole(network.shape(tensor).rows);
    }
    state_to_numbers(&bands)
}

impl Wrong {
    /// The number of a call's result; a refusal leaves the state.
    fn number(self, result: Result<(), u8>, state: &mut State) -> u8 {
        let Err(number) = result else { return 0 };
        if self.has(Fault::RefusalGivesAllStale) {
            *state = state_to_numbers(&ALL_STALE);
        }
        number
    }

    fn fill_sums(self, network: &Network, sums: &mut [u32]) {
        let (needed, rest) = sums.split_at_mut(network.sums_needed());
        needed.copy_from_slice(&network.true_sums());
        if self.has(Fault::RestOfSumsCleared) {
            rest.fill(0);
        }
    }

    fn write_rows(
        self,
        network: &Network,
        area: &mut [u8],
        state: &mut State,
        places: std::ops::Range<usize>,
        rows: &[u8],
    ) {
        let row = network.picture.row_bytes();
        let old = &mut area[places.start * row..places.end * row];
        let new = &rows[..old.len()];
        let equal = *old == *new;
        old.copy_from_slice(new);
        if equal && self.has(Fault::EqualRowsLeaveBand) {
            return;
        }
        let mut bands = state_from_numbers(state);
        let band = if self.has(Fault::BandOfNewRowsOnly) { Band::EMPTY } else { bands[0] };
        bands[0] = band.covering(places);
        *state = state_to_numbers(&bands);
    }

    fn replace(
        self,
        network: &Network,
        file: &mut [u8],
        sums: &mut [u32],
        state: &mut State,
        k: usize,
        record: &[u8],
    ) -> Result<(), u8> {
        let layer = network.layer(k);
        let old = &mut file[layer.place.clone()];
        if !self.may_replace(layer, old, record) {
            let lenient = Wrong { fault: Some(Fault::ReplacementBiasNotTested) };
            if self.has(Fault::RefusedReplacementWrites) && lenient.may_replace(layer, old, record) {
                let before_weights = record.len() - layer.weights.len();
                old[..before_weights].copy_from_slice(&record[..before_weights]);
            }
            return Err(9);
        }
        let equal = *old == *record;
        old.copy_from_slice(record);
        self.write_sums(network, k, record, sums);
        let mut bands = state_from_numbers(state);
        if !(equal && self.has(Fault::EqualRecordLeavesBand)) {
            bands[k] = Band::whole(layer.output.rows);
        }
        if self.has(Fault::ReplacementMarksReaders) {
            for (tensor, band) in bands.iter_mut().enumerate().take(network.tensors()).skip(k) {
                *band = Band::whole(network.shape(tensor).rows);
            }
        }
        *state = state_to_numbers(&bands);
        Ok(())
    }

    /// From the record's own bytes: with a fault the file may no longer be one that is taken.
    fn write_sums(self, network: &Network, k: usize, record: &[u8], sums: &mut [u32]) {
        let layer = network.layer(k);
        if self.has(Fault::SumsNotReplaced) || layer.terms() == 0 {
            return;
        }
        if self.has(Fault::AllSumsReplaced) {
            self.fill_sums(network, sums);
        }
        let weights = &record[record.len() - layer.weights.len()..];
        for (sum, of_one) in sums[network.sums_place(k)].iter_mut().zip(weights.chunks_exact(layer.terms())) {
            *sum = of_one.iter().map(|&w| u32::from(w)).sum();
        }
    }
}
