//! Sum stores, work areas and states: right, wrong, longer and shorter.

use second::{state_to_numbers, Band, Network, ALL_EMPTY};

use super::numbers::patterned;
use crate::calls::{State, ALL_STALE};
use crate::rng::Rng;

/// A length that is enough for what is needed: mostly just that, sometimes longer.
pub fn enough(rng: &mut Rng, needed: usize) -> usize {
    if rng.one_in(3) {
        needed + rng.within(1, 9)
    } else {
        needed
    }
}

/// A length that is too short, if there is one.
pub fn too_short(rng: &mut Rng, needed: usize) -> usize {
    if needed == 0 {
        return 0;
    }
    let any = rng.below(needed);
    rng.pick(&[0, needed - 1, any])
}

pub fn area(rng: &mut Rng, length: usize) -> Vec<u8> {
    if rng.one_in(4) {
        patterned(rng, length)
    } else {
        rng.bytes(length)
    }
}

/// Any numbers at all.
pub fn any_sums(rng: &mut Rng, length: usize) -> Vec<u32> {
    (0..length).map(|_| rng.word() as u32).collect()
}

/// For each stored sum, the greatest that test 6 takes: 255N.
pub fn greatest_sums(network: &Network) -> Vec<u32> {
    let of_layer = |layer: &second::Layer| vec![255 * layer.terms() as u32; layer.kind.outputs()];
    network.layers.iter().flat_map(of_layer).collect()
}

/// False sums that test 6 takes.
pub fn possible_sums(rng: &mut Rng, network: &Network) -> Vec<u32> {
    let whole_store = rng.below(4);
    let draw = |greatest: u32| match whole_store {
        0 => 0,
        1 => greatest,
        _ => {
            let any = rng.within(0, greatest as usize) as u32;
            rng.pick(&[0, greatest, any])
        }
    };
    greatest_sums(network).into_iter().map(draw).collect()
}

/// Puts a sum above 255N somewhere, if there is a sum; sometimes two.
pub fn spoil_sums(rng: &mut Rng, network: &Network, sums: &mut [u32]) {
    let greatest = greatest_sums(network);
    if greatest.is_empty() {
        return;
    }
    for _ in 0..rng.within(1, 2) {
        let at = rng.below(greatest.len());
        sums[at] = rng.pick(&[greatest[at] + 1, greatest[at] + 1, u32::MAX, 1 << 31]);
    }
}

/// A state that test 5 takes. Bands of every layer are as likely stale as clean.
pub fn sound_state(rng: &mut Rng, network: &Network) -> State {
    let mut state = ALL_EMPTY;
    let stale_share = rng.within(1, 3);
    for (tensor, band) in state.iter_mut().enumerate().take(network.tensors()) {
        if rng.below(4) < stale_share {
            *band = stale_band(rng, network.shape(tensor).rows);
        }
    }
    state_to_numbers(&state)
}

fn stale_band(rng: &mut Rng, rows: usize) -> Band {
    if rng.one_in(4) {
        return Band::whole(rows);
    }
    let first = rng.below(rows);
    let end = if rng.one_in(2) { first + 1 } else { rng.within(first + 1, rows) };
    Band { first, end }
}

/// Puts bad bands into a state: one, or several of any kinds.
pub fn spoil_state(rng: &mut Rng, network: &Network, state: &mut State) {
    if rng.one_in(5) {
        *state = ALL_STALE;
        return;
    }
    for _ in 0..rng.pick(&[1, 1, 2, 2, 3, 8]) {
        spoil_band(rng, network, state);
    }
}

/// Puts a band somewhere that test 5 mostly refuses.
fn spoil_band(rng: &mut Rng, network: &Network, state: &mut State) {
    let tensor = if rng.one_in(3) { rng.below(17) } else { rng.below(network.tensors()) };
    let rows = if tensor < network.tensors() { network.shape(tensor).rows as u16 } else { 0 };
    let any = rng.word() as u16;
    let place = rng.within(1, rows.max(1).into()) as u16;
    let bands = [
        (1, 0),
        (place, place - 1),
        (place, place),
        (rows + 1, rows + 1),
        (0, rows + 1),
        (rows, rows + 1),
        (0, 256 + rows),
        (256, 256 + rows),
        (0, u16::MAX),
        (u16::MAX, u16::MAX),
        (u16::MAX, 0),
        (any, any.wrapping_add(1)),
        (any, any),
        (any.max(1), 0),
    ];
    let (first, end) = rng.pick(&bands);
    state[2 * tensor] = first;
    state[2 * tensor + 1] = end;
}
