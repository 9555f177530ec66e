//! The call `sizes`: tests 1 to 3, then picture bytes, stored sums, area bytes and reading bytes.

mod common;

use common::{add, bands, conv, full, head, World, K};
use second::{sizes, Sizes, ALL_EMPTY};

fn taken(picture: usize, sums: usize, area: usize, reading: usize) -> Sizes {
    Sizes { number: 0, picture, sums, area, reading }
}

fn refused(number: u8) -> Sizes {
    Sizes { number, picture: 0, sums: 0, area: 0, reading: 0 }
}

/// All kinds of layers: a picture of 3 × 2 × 4, two filters over it, an add, three outputs.
fn all_kinds() -> Vec<u8> {
    let two_filters = conv(2, [2, 1, 1, 0], 0, &[0; 2], &[1; 16]);
    [head(3, 2, 4, 0, 3), two_filters, add(1, 0, [0, 0, 18]), full(0, 0, &[0; 3], &[1; 24])].concat()
}

#[test]
fn of_k() {
    assert_eq!(sizes(&K), taken(3, 1, 6, 3));
    assert_eq!(sizes(&K).to_numbers(), [3, 1, 6, 3]);
}

#[test]
fn of_all_kinds_of_layers() {
    // Tensors of 24, 8, 8 and 3 bytes; the add has no sums.
    assert_eq!(sizes(&all_kinds()), taken(24, 5, 43, 3));
}

#[test]
fn a_reading_may_be_longer_than_the_picture() {
    let taller = conv(1, [3, 3, 1, 2], 0, &[0], &[1; 9]);
    assert_eq!(sizes(&[head(3, 1, 1, 0, 1), taller].concat()), taken(3, 1, 18, 15));
}

#[test]
fn adds_alone_have_no_sums() {
    let adds = [head(2, 3, 5, 0, 2), add(0, 0, [0, 0, 18]), add(0, 0, [0, 0, 18])].concat();
    assert_eq!(sizes(&adds), taken(30, 0, 90, 30));
}

#[test]
fn the_largest() {
    let adds = [head(128, 128, 1, 0, 3), add(0, 0, [0, 0, 18]).repeat(3)].concat();
    assert_eq!(sizes(&adds), taken(16_384, 0, 65_536, 16_384));
    let outputs = [head(1, 1, 1, 0, 1), full(0, 0, &[0; 256], &[1; 256])].concat();
    assert_eq!(sizes(&outputs), taken(1, 256, 257, 256));
}

#[test]
fn refused_files_have_sizes_0() {
    assert_eq!(sizes(&[]), refused(1));
    assert_eq!(sizes(&K[..38]), refused(1));
    assert_eq!(sizes(&[&K[..], &[0]].concat()), refused(1), "a trailing byte");
    let mut bad_bias = K;
    bad_bias[29] = 0x7F;
    assert_eq!(sizes(&bad_bias), refused(2));
    assert_eq!(sizes(&head(256, 256, 1, 0, 1)), refused(3), "the picture is too big");
    let too_many = [head(128, 128, 1, 0, 4), add(0, 0, [0, 0, 18]).repeat(4)].concat();
    assert_eq!(sizes(&too_many), refused(3), "all tensors are too big");
    assert_eq!(sizes(&vec![0; 65_537]), refused(3));
}

#[test]
fn they_are_just_what_test_4_asks_for() {
    for file in [K.to_vec(), all_kinds()] {
        let Sizes { sums, area, .. } = sizes(&file);
        let load = |sums: usize, area: usize| second::load(&file, &mut vec![0; sums], &vec![0; area]).number;
        assert_eq!(load(sums, area), 0);
        assert_eq!(load(sums - 1, area), 4);
        assert_eq!(load(sums, area - 1), 4);
    }
}

#[test]
fn they_are_just_the_picture_and_the_reading() {
    let file = all_kinds();
    let Sizes { picture, reading, .. } = sizes(&file);
    let mut world = World::updated(&file, &vec![7; picture]);
    assert_eq!(world.read(&mut vec![0; reading]), 0);
    assert_eq!(world.read(&mut vec![0; reading + 1]), 7);
    assert_eq!(world.change_rows(0, 3, &vec![0; picture]), 0, "all three rows");
    world.state = ALL_EMPTY;
    assert_eq!(world.change_rows(0, 3, &vec![0; picture - 1]), 7);
    assert_eq!(world.state, bands(&[]));
}

#[test]
fn a_replacement_leaves_them() {
    let mut world = World::updated(&K, &[20, 30, 40]);
    let mut record = K[10..].to_vec();
    record[28] = 200;
    assert_eq!(world.replace_layer(1, &record), 0);
    assert_eq!(sizes(&world.file), sizes(&K));
}
