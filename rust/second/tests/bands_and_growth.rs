//! Bands through the calls: readings S6, S7 and K3 to K12.

mod common;

use common::{add, bands, conv, full, head, World, K};
use second::{decode, Band, Shape};

fn dot() -> Vec<u8> {
    conv(1, [1, 1, 1, 0], 0, &[0], &[2])
}

#[test]
fn load_covers_every_existing_tensor() {
    assert_eq!(World::loaded(&K, &[]).state, bands(&[(0, 3), (0, 3)]));
}

#[test]
fn a_changed_row_joins_the_old_band_with_the_gap() {
    let file = [head(5, 1, 1, 0, 1), dot()].concat();
    let mut world = World::updated(&file, &[1, 2, 3, 4, 5]);
    assert_eq!(world.change_rows(4, 1, &[5]), 0, "equal bytes count too");
    assert_eq!(world.state[0], Band { first: 4, end: 5 });
    assert_eq!(world.change_rows(1, 1, &[9]), 0);
    assert_eq!(world.state[0], Band { first: 1, end: 5 });
    assert_eq!(world.update(), Ok(4));
}

#[test]
fn gap_between_a_layers_own_band_and_the_reached_rows() {
    let file = [head(5, 1, 1, 0, 1), dot()].concat();
    let mut world = World::updated(&file, &[1, 2, 3, 4, 5]);
    world.area[5..].fill(99);
    world.state = bands(&[(0, 1), (3, 4)]);
    assert_eq!(world.update(), Ok(4));
    assert_eq!(world.area[5..], [1, 2, 3, 4, 99]);
}

#[test]
fn growth_uses_grown_bands_and_picture_rows_do_not_count() {
    let wide = conv(1, [3, 1, 1, 0], 0, &[0], &[1; 3]);
    let file = [head(7, 1, 1, 0, 2), wide.clone(), wide].concat();
    let mut world = World::updated(&file, &[0; 7]);
    assert_eq!(world.change_rows(0, 1, &[9]), 0);
    assert_eq!(world.update(), Ok(2), "one row of each layer");
    assert_eq!(world.change_rows(3, 1, &[9]), 0);
    assert_eq!(world.update(), Ok(6));
}

#[test]
fn the_second_input_of_an_add_reaches_too() {
    let skip = conv(1, [1, 1, 2, 0], 0, &[0], &[2]);
    let grow_back = conv(1, [2, 2, 1, 1], 0, &[0], &[1; 4]);
    // 3 rows and columns, then 2, then 3 again.
    let file = [head(3, 3, 1, 0, 3), skip, grow_back, add(0, 0, [0, 0, 18])].concat();
    let mut world = World::updated(&file, &[10; 9]);
    assert_eq!(world.change_rows(1, 1, &[50; 3]), 0);
    assert_eq!(world.update(), Ok(3), "only the add's row 1");
    let last = decode(&file).expect("a good network").area_place(3);
    assert_eq!(world.area[last], world.fresh());
}

#[test]
fn an_update_over_a_clean_state_counts_0_and_is_tested() {
    let mut world = World::updated(&K, &[20, 30, 40]);
    assert_eq!(world.update(), Ok(0));
    world.sums[0] = 2_296;
    assert_eq!(world.update(), Err(6));
}

#[test]
fn replacement_by_the_same_bytes_makes_the_band_whole() {
    let mut world = World::updated(&K, &[20, 30, 40]);
    assert_eq!(world.replace_layer(1, &K[10..]), 0);
    assert_eq!(world.state, bands(&[(0, 0), (0, 3)]));
    assert_eq!(world.update(), Ok(3));
}

#[test]
fn replacement_rewrites_only_its_own_sums() {
    let file = [head(1, 1, 1, 0, 2), dot(), dot()].concat();
    let mut world = World::loaded(&file, &[20]);
    world.sums = vec![7, 8];
    assert_eq!(world.replace_layer(2, &conv(1, [1, 1, 1, 0], 0, &[0], &[5])), 0);
    assert_eq!(world.sums, [7, 5]);
}

#[test]
fn a_full_layer_is_reached_by_any_row() {
    let file = [head(3, 1, 1, 0, 1), full(0, 0, &[0, 0], &[1; 6])].concat();
    let mut world = World::updated(&file, &[1, 2, 3]);
    assert_eq!(world.change_rows(2, 1, &[9]), 0);
    assert_eq!(world.update(), Ok(2));
}

#[test]
fn more_than_256_rows() {
    let taller = conv(1, [7, 7, 1, 6], 0, &[0], &[1; 49]);
    let file = [head(256, 1, 1, 0, 2), taller.clone(), taller].concat();
    let network = decode(&file).expect("no limit of 256 on later tensors");
    assert_eq!(network.shape(2), Shape { rows: 268, columns: 13, channels: 1 });
    let mut world = World::updated(&file, &[3; 256]);
    assert_eq!(world.change_rows(255, 1, &[200]), 0);
    assert_eq!(world.update(), Ok(7 * 7 + 13 * 13));
    assert_eq!(world.area[network.area_place(2)], world.fresh());
}

#[test]
fn more_than_64_channels() {
    let many = full(0, 0, &[0; 256], &[1; 256]);
    let file = [head(1, 1, 1, 0, 2), many, conv(1, [1, 1, 1, 0], 0, &[0], &[1; 256])].concat();
    let network = decode(&file).expect("the limit 64 is on the head and on filters only");
    assert_eq!(network.layer(2).terms(), 256);
}
