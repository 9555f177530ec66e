//! Tests 4 to 9, with a fault.

use second::decode::{fixed_part, spare};
use second::{state_from_numbers, Kind, Layer, Network};

use super::bands::bad_bands;
use super::file::put_clamp_in_order;
use super::{Fault, Wrong};
use crate::calls::State;

/// Which call is tested, with its arguments.
#[derive(Clone, Copy)]
pub(super) enum Asked<'a> {
    Load,
    ChangeRows { first: usize, count: usize, rows: &'a [u8] },
    ReplaceLayer { k: usize, record: &'a [u8] },
    Update,
    Read { length: usize },
}

impl Wrong {
    pub(super) fn test_4(self, network: Network, sums: &[u32], area: &[u8], asked: Asked) -> Result<Network, u8> {
        let ignored = match asked {
            Asked::Load => self.has(Fault::LoadIgnoresArea),
            Asked::ReplaceLayer { .. } => self.has(Fault::ReplacementIgnoresArea),
            _ => false,
        };
        let shorter = area.len() < network.area_bytes() && !ignored;
        let longer = area.len() > network.area_bytes() && self.has(Fault::LongerAreaRefused);
        if sums.len() < network.sums_needed() || shorter || longer {
            return Err(4);
        }
        Ok(network)
    }

    /// Tests 1 to 8, with the call's own; a replacement's record is tested when it is written.
    pub(super) fn tests(
        self,
        file: &[u8],
        sums: &[u32],
        area: &[u8],
        state: &State,
        asked: Asked,
    ) -> Result<Network, u8> {
        let network = self.decode(file)?;
        let bands = state_from_numbers(state);
        let sound = self.state_is_sound(&network, &bands);
        if self.has(Fault::FiveBeforeFour) && !sound {
            return Err(5);
        }
        let network = self.test_4(network, sums, area, asked)?;
        let possible = self.sums_are_possible(&network, sums, state, asked);
        let two_bad = self.has(Fault::SixBeforeTwoBadBands) && bad_bands(&network, &bands).len() == 2;
        if (self.has(Fault::SixBeforeFive) || two_bad) && !possible {
            return Err(6);
        }
        if self.has(Fault::OwnTestBeforeFive) {
            self.own_test(&network, state, asked)?;
        }
        if !sound {
            return Err(5);
        }
        if !possible {
            return Err(6);
        }
        self.own_test(&network, state, asked)?;
        Ok(network)
    }

    fn sums_are_possible(self, network: &Network, sums: &[u32], state: &State, asked: Asked) -> bool {
        let update = matches!(asked, Asked::Update);
        if self.has(Fault::SumsTestedByUpdateOnly) && !update {
            return true;
        }
        if self.has(Fault::CleanUpdateNotTested) && update && *state == [0; 34] {
            return true;
        }
        let rest = &sums[network.sums_needed()..];
        if self.has(Fault::WholeStoreTested) && rest.iter().any(|&sum| sum > 255 * 16_384) {
            return false;
        }
        (1..network.tensors()).all(|k| {
            let replaced = matches!(asked, Asked::ReplaceLayer { k: other, .. } if other == k);
            let skipped = replaced && self.has(Fault::ReplacedSumNotTested);
            let greatest = 255 * network.layer(k).terms() as u64;
            let possible = |&sum: &u32| match self.fault {
                Some(Fault::GreatestSumRefused) => u64::from(sum) < greatest,
                _ => u64::from(sum) <= greatest,
            };
            skipped || sums[network.sums_place(k)].iter().all(possible)
        })
    }

    /// Tests 7 and 8.
    fn own_test(self, network: &Network, state: &State, asked: Asked) -> Result<(), u8> {
        match asked {
            Asked::ChangeRows { first, count, rows } if !self.rows_fit(network, first, count, rows) => Err(7),
            Asked::ReplaceLayer { record, .. } if self.has(Fault::NineBeforeSeven) && record.is_empty() => Err(9),
            Asked::ReplaceLayer { k, .. } if !(1..=network.layers.len()).contains(&k) => Err(7),
            Asked::Read { length } => self.may_read(network, state, length),
            _ => Ok(()),
        }
    }

    fn rows_fit(self, network: &Network, first: usize, count: usize, rows: &[u8]) -> bool {
        let picture = network.picture;
        let end = match self.fault {
            Some(Fault::RowsWrap) => first.wrapping_add(count) as u128,
            _ => first as u128 + count as u128,
        };
        let needed = count as u128 * picture.row_bytes() as u128;
        let right_length = match self.fault {
            Some(Fault::LongerRowsTaken) => rows.len() as u128 >= needed,
            _ => rows.len() as u128 == needed,
        };
        let some = count > 0 || self.has(Fault::NoRowsTaken);
        some && end <= picture.rows as u128 && right_length
    }

    fn may_read(self, network: &Network, state: &State, length: usize) -> Result<(), u8> {
        let last = network.layers.len();
        let right = network.shape(last).bytes();
        let wrong_length = match self.fault {
            Some(Fault::LongerSliceTaken) => length < right,
            _ => length != right,
        };
        let stale = match self.fault {
            Some(Fault::StaleRead) => state[2 * last..2 * last + 2] != [0, 0],
            _ => *state != [0; 34],
        };
        match (wrong_length, stale) {
            (true, true) if self.has(Fault::EightBeforeSeven) => Err(8),
            (true, _) => Err(7),
            (_, true) => Err(8),
            _ => Ok(()),
        }
    }

    /// Test 9.
    pub(super) fn may_replace(self, layer: &Layer, old: &[u8], new: &[u8]) -> bool {
        if new.len() != old.len() || !self.kept_bytes_agree(layer, old, new) {
            return false;
        }
        let Ok((mark, fixed)) = fixed_part(new) else { return false };
        let biases = &new[fixed.len()..][..4 * layer.kind.outputs()];
        let mut fixed = fixed.to_vec();
        if self.has(Fault::ReplacementClampNotTested) {
            put_clamp_in_order(mark, &mut fixed);
        }
        let spare_fits = spare(mark, &fixed).is_ok() || self.has(Fault::ReplacementSpareNotTested);
        let biases_fit = self.biases(biases).is_ok() || self.has(Fault::ReplacementBiasNotTested);
        spare_fits && biases_fit && self.fields(mark, &fixed).is_ok()
    }

    fn kept_bytes_agree(self, layer: &Layer, old: &[u8], new: &[u8]) -> bool {
        let kept = match layer.kind {
            Kind::Conv(_) if self.has(Fault::PaddingMayChange) => 6,
            Kind::Conv(_) => 7,
            Kind::Full(_) => 4,
            Kind::Add(_) if self.has(Fault::OtherTensorMayChange) => 2,
            Kind::Add(_) => 3,
        };
        old[..kept] == new[..kept]
    }
}
