//! A network over arbitrary buffers: areas, states and sums of every kind, longer and shorter, several faults at once.

use second::Network;

use super::Context;
use crate::calls::{Call, State};
use crate::generate::network::Style;
use crate::generate::{arguments, damage, records, store};
use crate::lent::{Fenced, Lent};
use crate::pair::Difference;
use crate::rng::Rng;

pub fn run(context: &mut Context, style: Style) -> Result<(), Difference> {
    let file = context.draw(style);
    let network = second::decode(&file).expect("a network that is taken");
    for _ in 0..24 {
        let mut lent = buffers(context.rng, &file, &network);
        let call = arguments_of_a_call(context.rng, &mut lent, &network);
        context.pair.make(&mut lent, call)?;
        follow(context, lent, &network)?;
    }
    Ok(())
}

/// Sometimes the call is followed by others on the buffers it left, whatever they are.
fn follow(context: &mut Context, mut lent: Lent, network: &Network) -> Result<(), Difference> {
    while context.rng.one_in(3) {
        let call = arguments_of_a_call(context.rng, &mut lent, network);
        context.pair.make(&mut lent, call)?;
    }
    Ok(())
}

/// Each buffer with a fault of its own once in a few times, so that often there is none and sometimes several.
fn buffers(rng: &mut Rng, file: &[u8], network: &Network) -> Lent {
    let mut sums = sums(rng, network);
    let mut state = state(rng, network);
    let bad_state = rng.one_in(5);
    if bad_state {
        store::spoil_state(rng, network, &mut state);
    }
    // Bad sums are more likely under a bad state: 5 comes before 6.
    if rng.one_in(if bad_state { 3 } else { 5 }) {
        store::spoil_sums(rng, network, &mut sums);
    }
    let sums_length = length(rng, network.sums_needed());
    let rest = store::any_sums(rng, sums_length.saturating_sub(sums.len()));
    sums.truncate(sums_length);
    sums.extend(rest);
    let area_length = length(rng, network.area_bytes());
    let area = store::area(rng, area_length);
    Lent::new(&network_file(rng, file, network), &sums, &area, state)
}

fn length(rng: &mut Rng, needed: usize) -> usize {
    if rng.one_in(15) {
        store::too_short(rng, needed)
    } else {
        store::enough(rng, needed)
    }
}

fn sums(rng: &mut Rng, network: &Network) -> Vec<u32> {
    if rng.one_in(2) {
        network.true_sums()
    } else {
        store::possible_sums(rng, network)
    }
}

fn state(rng: &mut Rng, network: &Network) -> State {
    if rng.one_in(4) {
        [0; 34]
    } else {
        store::sound_state(rng, network)
    }
}

fn network_file(rng: &mut Rng, file: &[u8], network: &Network) -> Vec<u8> {
    if rng.one_in(16) {
        let fields = damage::fields(network);
        let damages = damage::double(rng, network, &fields);
        damage::damaged(file, &damages)
    } else {
        file.to_vec()
    }
}

/// Any of the calls, with its slice lent: its own argument is wrong once in a few times.
fn arguments_of_a_call(rng: &mut Rng, lent: &mut Lent, network: &Network) -> Call {
    match rng.below(13) {
        0 => Call::Load,
        1..=3 => change_rows(rng, lent, network),
        4..=5 => replace_layer(rng, lent, network),
        6..=8 => Call::Update,
        9..=11 => read(rng, lent, network),
        _ => Call::Sizes,
    }
}

fn change_rows(rng: &mut Rng, lent: &mut Lent, network: &Network) -> Call {
    let (first, count, length) = if rng.one_in(4) {
        arguments::wrong_rows(rng, network.picture)
    } else {
        let (first, count) = arguments::rows_within(rng, network.picture);
        (first, count, count * network.picture.row_bytes())
    };
    lent.slice = Fenced::new(&rng.bytes(length));
    Call::ChangeRows { first, count }
}

fn replace_layer(rng: &mut Rng, lent: &mut Lent, network: &Network) -> Call {
    let k = rng.within(1, network.layers.len());
    let layer = network.layer(k);
    // The file that is lent may be damaged; the record is drawn for the undamaged one.
    let old = lent.network.get().get(layer.place.clone());
    let mut record = match old {
        Some(_) => records::replacement(rng, lent.network.get(), layer),
        None => rng.bytes(30),
    };
    if rng.one_in(4) {
        record = damage::record(rng, &record, layer);
    }
    lent.slice = Fenced::new(&record);
    let layer = if rng.one_in(6) { arguments::wrong_layer(rng, network.layers.len()) } else { k };
    Call::ReplaceLayer { layer }
}

fn read(rng: &mut Rng, lent: &mut Lent, network: &Network) -> Call {
    let right = network.shape(network.layers.len()).bytes();
    let length = if rng.one_in(4) { arguments::wrong_length(rng, right) } else { right };
    lent.slice = Fenced::new(&rng.bytes(length));
    Call::Read
}
