//! The five calls over lent buffers, as plain values. Buffers are changed in place, and only by a call that is taken.

use crate::bands::{grown, state_is_sound, Band, State, ALL_EMPTY, ALL_STALE};
use crate::decode::{biases_in_order, decode, fields, fixed_part, spare, Mark};
use crate::network::{Kind, Layer, Network};
use crate::run::compute_row;

/// What a call answers: 0 or the number of the refusal, the count, and the state to pass to the next call.
#[derive(Clone, Copy, Debug, PartialEq, Eq)]
pub struct Outcome {
    pub number: u8,
    pub count: u32,
    pub state: State,
}

impl Outcome {
    fn done(count: u32, state: State) -> Outcome {
        Outcome { number: 0, count, state }
    }

    fn refused(number: u8, state: State) -> Outcome {
        Outcome { number, count: 0, state }
    }
}

/// Fills the sums; every existing tensor's band covers all its rows. A refused load hands back the all-stale state.
pub fn load(file: &[u8], sums: &mut [u32], area: &[u8]) -> Outcome {
    let network = match decode(file).and_then(|network| test_4(network, sums, area)) {
        Ok(network) => network,
        Err(number) => return Outcome::refused(number, ALL_STALE),
    };
    sums[..network.sums_needed()].copy_from_slice(&network.true_sums());
    let mut state = ALL_EMPTY;
    for (tensor, band) in state.iter_mut().enumerate().take(network.tensors()) {
        *band = Band::whole(network.shape(tensor).rows);
    }
    Outcome::done(0, state)
}

/// Writes picture rows `first` to `first + count − 1`; band 0 grows to cover them, equal bytes or not.
pub fn change_rows(
    file: &[u8],
    sums: &[u32],
    area: &mut [u8],
    state: State,
    first: usize,
    count: usize,
    rows: &[u8],
) -> Outcome {
    let network = match tests_1_to_6(file, sums, area, &state) {
        Ok(network) => network,
        Err(number) => return Outcome::refused(number, state),
    };
    if !rows_fit(&network, first, count, rows) {
        return Outcome::refused(7, state);
    }
    area[first * network.picture.row_bytes()..][..rows.len()].copy_from_slice(rows);
    let mut state = state;
    state[0] = state[0].covering(first..first + count);
    Outcome::done(0, state)
}

/// The own test of change rows, over whole numbers: `first` and `count` may be as great as they like.
fn rows_fit(network: &Network, first: usize, count: usize, rows: &[u8]) -> bool {
    let (first, count) = (first as u128, count as u128);
    let within = first + count <= network.picture.rows as u128;
    let right_length = rows.len() as u128 == count * network.picture.row_bytes() as u128;
    count > 0 && within && right_length
}

/// Writes a record over that of layer `k`, and its sums; band k covers the whole tensor.
pub fn replace_layer(file: &mut [u8], sums: &mut [u32], area: &[u8], state: State, k: usize, record: &[u8]) -> Outcome {
    let network = match tests_1_to_6(file, sums, area, &state) {
        Ok(network) => network,
        Err(number) => return Outcome::refused(number, state),
    };
    if !(1..=network.layers.len()).contains(&k) {
        return Outcome::refused(7, state);
    }
    let place = network.layer(k).place.clone();
    if !may_replace(network.layer(k), &file[place.clone()], record) {
        return Outcome::refused(9, state);
    }
    file[place].copy_from_slice(record);
    let network = decode(file).expect("a fitting record leaves a file that is taken");
    sums[network.sums_place(k)].copy_from_slice(&network.layer(k).true_sums());
    let mut state = state;
    state[k] = Band::whole(network.shape(k).rows);
    Outcome::done(0, state)
}

/// Test 9: same length, same first bytes, and spare, fields and biases as a file may have them.
fn may_replace(layer: &Layer, old: &[u8], new: &[u8]) -> bool {
    let kept = match layer.kind {
        Kind::Conv(_) => 7,
        Kind::Full(_) => 4,
        Kind::Add(_) => 3,
    };
    new.len() == old.len() && new[..kept] == old[..kept] && contents_in_range(layer, new)
}

/// The record has the old one's length and first bytes, so its mark, its fixed part and its biases are there.
fn contents_in_range(layer: &Layer, record: &[u8]) -> bool {
    let test = || {
        let (mark, fixed): (Mark, &[u8]) = fixed_part(record)?;
        spare(mark, fixed)?;
        fields(mark, fixed)?;
        biases_in_order(&record[fixed.len()..][..4 * layer.kind.outputs()])
    };
    test().is_ok()
}

/// Grows the bands, recomputes the rows in them from rows and sums stored, and leaves all bands empty.
/// The count is the total of bytes recomputed.
pub fn update(file: &[u8], sums: &[u32], area: &mut [u8], state: State) -> Outcome {
    let network = match tests_1_to_6(file, sums, area, &state) {
        Ok(network) => network,
        Err(number) => return Outcome::refused(number, state),
    };
    let grown = grown(&network, &state);
    let mut count = 0;
    for k in 1..network.tensors() {
        let layer_sums = &sums[network.sums_place(k)];
        for row in grown[k].rows() {
            let bytes = compute_row(&network, k, &network.split(area), layer_sums, row);
            let first = network.area_place(k).start + network.shape(k).index(row, 0, 0);
            area[first..first + bytes.len()].copy_from_slice(&bytes);
            count += bytes.len();
        }
    }
    Outcome::done(u32::try_from(count).expect("no area has so many bytes"), ALL_EMPTY)
}

/// Copies the last tensor to a slice of just its length.
pub fn read(file: &[u8], sums: &[u32], area: &[u8], state: State, out: &mut [u8]) -> Outcome {
    let network = match tests_1_to_6(file, sums, area, &state) {
        Ok(network) => network,
        Err(number) => return Outcome::refused(number, state),
    };
    let last = network.area_place(network.layers.len());
    if out.len() != last.len() {
        return Outcome::refused(7, state);
    }
    if state.iter().any(|band| !band.is_empty()) {
        return Outcome::refused(8, state);
    }
    out.copy_from_slice(&area[last]);
    Outcome::done(0, state)
}

fn tests_1_to_6(file: &[u8], sums: &[u32], area: &[u8], state: &State) -> Result<Network, u8> {
    let network = decode(file)?;
    let network = test_4(network, sums, area)?;
    if !state_is_sound(&network, state) {
        return Err(5);
    }
    if !sums_are_possible(&network, sums) {
        return Err(6);
    }
    Ok(network)
}

fn test_4(network: Network, sums: &[u32], area: &[u8]) -> Result<Network, u8> {
    if sums.len() < network.sums_needed() || area.len() < network.area_bytes() {
        return Err(4);
    }
    Ok(network)
}

/// Test 6 looks only at the sums that the network has, not at the rest of a longer store.
fn sums_are_possible(network: &Network, sums: &[u32]) -> bool {
    (1..network.tensors()).all(|k| {
        let greatest = 255 * network.layer(k).terms() as u64;
        sums[network.sums_place(k)].iter().all(|&sum| u64::from(sum) <= greatest)
    })
}
