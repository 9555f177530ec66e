//! The generators give what their names say.

use compare::generate::network::{draw, Style, CHANNELS, DEEP, LARGE, SMALL, TALL};
use compare::generate::{arguments, damage, records, store};
use compare::rng::Rng;
use second::{decode, state_from_numbers, state_is_sound, Kind, Network, State, ALL_EMPTY};

const STYLES: [Style; 5] = [SMALL, DEEP, TALL, CHANNELS, LARGE];

/// Some networks of each style. That each is taken is asserted where it is drawn.
fn networks() -> Vec<(Vec<u8>, Network)> {
    let mut rng = Rng::new(3);
    let files = STYLES.into_iter().flat_map(|style| (0..30).map(|_| draw(&mut rng, style)).collect::<Vec<_>>());
    files.map(|file| (file.clone(), decode(&file).expect("taken"))).collect()
}

#[test]
fn networks_of_every_kind() {
    let networks = networks();
    let layers = || networks.iter().flat_map(|(_, network)| (1..).zip(&network.layers));
    assert!(networks.iter().any(|(_, network)| network.layers.len() == 16));
    assert!(networks.iter().any(|(_, network)| network.layers.len() == 1));
    assert!(layers().any(|(_, layer)| layer.output.rows > 256));
    assert!(layers().any(|(_, layer)| matches!(layer.kind, Kind::Conv(_)) && layer.input.channels > 64));
    assert!(layers().any(|(_, layer)| matches!(&layer.kind, Kind::Full(full) if full.outputs > 64)));
    for stride in 1..=4 {
        assert!(layers().any(|(_, layer)| matches!(&layer.kind, Kind::Conv(conv) if conv.stride == stride)));
    }
    for side in 1..=7 {
        assert!(layers().any(|(_, layer)| matches!(&layer.kind, Kind::Conv(conv) if conv.kernel_rows == side)));
    }
    assert!(layers().any(|(k, layer)| matches!(&layer.kind, Kind::Add(add) if add.other == k - 1)));
    assert!(layers().any(|(k, layer)| matches!(&layer.kind, Kind::Add(add) if add.other < k - 1)));
}

#[test]
fn replacements_fit() {
    let mut rng = Rng::new(4);
    for (mut file, network) in networks() {
        let mut sums = network.true_sums();
        let area = vec![0; network.area_bytes()];
        for (k, layer) in (1..).zip(&network.layers) {
            let record = records::replacement(&mut rng, &file, layer);
            let outcome = second::replace_layer(&mut file, &mut sums, &area, ALL_EMPTY, k, &record);
            assert_eq!(outcome.number, 0);
        }
    }
}

#[test]
fn wrong_arguments_are_wrong() {
    let mut rng = Rng::new(5);
    for (mut file, network) in networks() {
        let mut sums = network.true_sums();
        let mut area = vec![0; network.area_bytes()];
        for _ in 0..40 {
            let (first, count, length) = arguments::wrong_rows(&mut rng, network.picture);
            let rows = vec![0; length];
            let outcome = second::change_rows(&file, &sums, &mut area, ALL_EMPTY, first, count, &rows);
            assert_eq!(outcome.number, 7, "first {first} count {count} length {length}");
        }
        for _ in 0..20 {
            let k = arguments::wrong_layer(&mut rng, network.layers.len());
            assert_eq!(second::replace_layer(&mut file, &mut sums, &area, ALL_EMPTY, k, &[]).number, 7, "layer {k}");
        }
    }
}

#[test]
fn states_and_sums() {
    let mut rng = Rng::new(6);
    for (file, network) in networks() {
        let state = store::sound_state(&mut rng, &network);
        assert!(state_is_sound(&network, &state_from_numbers(&state)));
        let mut area = vec![0; network.area_bytes()];
        let mut sums = store::possible_sums(&mut rng, &network);
        assert_eq!(second::update(&file, &sums, &mut area, ALL_EMPTY).number, 0);
        store::spoil_sums(&mut rng, &network, &mut sums);
        let expected = if sums.is_empty() { 0 } else { 6 };
        assert_eq!(second::update(&file, &sums, &mut area, ALL_EMPTY).number, expected);
    }
}

/// How many bands of the state test 5 refuses, each taken alone.
fn bad_bands(network: &Network, state: &State) -> usize {
    let alone = |tensor: usize| {
        let mut one = ALL_EMPTY;
        one[tensor] = state[tensor];
        one
    };
    (0..state.len()).filter(|&tensor| !state_is_sound(network, &alone(tensor))).count()
}

#[test]
fn states_with_one_bad_band_and_with_several() {
    let mut rng = Rng::new(7);
    let mut met = [0; 18];
    for (_, network) in networks().iter().cycle().take(2_000) {
        let mut state = store::sound_state(&mut rng, network);
        store::spoil_state(&mut rng, network, &mut state);
        met[bad_bands(network, &state_from_numbers(&state))] += 1;
    }
    for bad in [1, 2, 3, 4, 17] {
        assert!(met[bad] >= 20, "{bad} bad bands: {} times", met[bad]);
    }
    assert!(met[0] < 200, "sound all the same: {} times", met[0]);
}

#[test]
fn damage_to_every_field_is_met() {
    let networks = networks();
    let (file, network) = &networks[0];
    let numbers: Vec<u8> = damage::single(&damage::fields(network))
        .iter()
        .map(|change| decode(&damage::damaged(file, std::slice::from_ref(change))).map_or_else(|number| number, |_| 0))
        .collect();
    for number in 0..=3 {
        assert!(numbers.contains(&number), "no damage gives {number}");
    }
}
