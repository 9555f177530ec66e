//! The refusal numbers and their order, with the readings F1 to F12 of the file.

mod common;

use common::{add, bands, conv, full, head, World, K};
use second::{decode, Band, ALL_STALE};

fn refusal(file: &[u8]) -> u8 {
    decode(file).map_or_else(|number| number, |_| 0)
}

/// `file` with one byte changed.
fn with(file: &[u8], at: usize, byte: u8) -> Vec<u8> {
    let mut changed = file.to_vec();
    changed[at] = byte;
    changed
}

fn dot(weights: &[u8]) -> Vec<u8> {
    conv(1, [1, 1, 1, 0], 0, &[0], weights)
}

#[test]
fn k_cut_at_every_place() {
    for length in 0..K.len() {
        assert_eq!(refusal(&K[..length]), 1, "cut to {length} bytes");
    }
}

#[test]
fn k_with_a_field_out_of_range() {
    let head = [(2, 0), (3, 2), (4, 0), (5, 2), (6, 0), (6, 65), (8, 0), (8, 17)];
    let shape = [(12, 0), (12, 65), (13, 0), (13, 8), (14, 0), (14, 8), (15, 0), (15, 5), (16, 3)];
    let shift_multiplier_bias = [(21, 32), (25, 0x3F), (25, 0x80), (29, 0x41), (29, 0xBF)];
    for (at, byte) in head.into_iter().chain(shape).chain(shift_multiplier_bias) {
        assert_eq!(refusal(&with(&K, at, byte)), 2, "byte {at} as {byte}");
    }
    assert_eq!(refusal(&with(&with(&K, 19, 5), 20, 4)), 2, "low above high");
    assert_eq!(refusal(&with(&with(&K, 19, 5), 20, 5)), 0, "low and high equal");
}

#[test]
fn marks_spares_and_trailing_bytes() {
    for at in [0, 1, 10, 11] {
        assert_eq!(refusal(&with(&K, at, 0)), 1, "mark byte {at}");
    }
    assert_eq!(refusal(&with(&K, 9, 1)), 1, "the head's spare");
    assert_eq!(refusal(&[&K[..], &[0]].concat()), 1, "a trailing byte");
    let fulls = [head(1, 1, 1, 0, 1), full(0, 0, &[0], &[1])].concat();
    assert_eq!(refusal(&with(&fulls, 19, 1)), 1, "a full layer's spare");
    let adds = [head(1, 1, 1, 0, 1), add(0, 0, [0, 0, 18])].concat();
    assert_eq!(refusal(&with(&adds, 31, 1)), 1, "an add's spare");
}

#[test]
fn the_head_goes_through_its_stages_first() {
    assert_eq!(refusal(&with(&with(&K, 2, 0), 9, 1)), 1, "spare before rows");
    assert_eq!(refusal(&head(256, 256, 1, 0, 1)), 3, "picture too big, and nothing after it");
    assert_eq!(refusal(&head(128, 128, 1, 0, 1)), 1);
}

#[test]
fn file_length_comes_first() {
    assert_eq!(refusal(&vec![0; 65_537]), 3);
    assert_eq!(refusal(&vec![0; 65_536]), 1);
    assert_eq!(refusal(&[]), 1);
}

#[test]
fn the_other_tensor_of_an_add() {
    let with_j = |j| [head(2, 1, 1, 0, 2), dot(&[1]), add(j, 0, [0, 0, 18])].concat();
    assert_eq!([0, 1, 2, 255].map(|j| refusal(&with_j(j))), [0, 0, 3, 3]);
    let fault_in_a_shift = |j| with(&with_j(j), 10 + 21 + 20, 32);
    assert_eq!(refusal(&fault_in_a_shift(2)), 2, "fields before shape");
    let shapes_differ = [head(2, 1, 1, 0, 2), full(0, 0, &[0], &[1, 1]), add(0, 0, [0, 0, 18])].concat();
    assert_eq!(refusal(&shapes_differ), 3);
}

#[test]
fn kernel_too_big_each_way() {
    let sized = |rows, columns, kernel: [u8; 2], padding| {
        let weights = vec![1; usize::from(kernel[0]) * usize::from(kernel[1])];
        refusal(
            &[head(rows, columns, 1, 0, 1), conv(1, [kernel[0], kernel[1], 1, padding], 0, &[0], &weights)].concat(),
        )
    };
    assert_eq!(sized(2, 5, [3, 1], 0), 3);
    assert_eq!(sized(5, 2, [1, 3], 0), 3);
    assert_eq!(sized(1, 5, [3, 2], 1), 0);
    assert_eq!(sized(1, 1, [7, 7], 2), 3);
    assert_eq!(sized(1, 1, [7, 7], 3), 0);
}

#[test]
fn tensors_too_big() {
    // 112 × 144 grows to 113 × 145 = 16,385; 127 × 127 to 128 × 128.
    let grown = |rows, columns| [head(rows, columns, 1, 0, 1), conv(1, [2, 2, 1, 1], 0, &[0], &[1; 4])].concat();
    assert_eq!(refusal(&grown(112, 144)), 3);
    assert_eq!(refusal(&grown(127, 127)), 0);
}

#[test]
fn all_tensors_too_big_is_found_in_the_record_that_passes() {
    let layers = |count: u8, last: &[u8]| {
        let mut file = head(128, 128, 1, 0, count);
        for _ in 1..count {
            file.extend(dot(&[1]));
        }
        file.extend(last);
        file
    };
    assert_eq!(refusal(&layers(3, &dot(&[1]))), 0, "65,536 bytes in all");
    let bad_bias = with(&dot(&[1]), 19, 0x7F);
    assert_eq!(refusal(&layers(4, &bad_bias)), 3, "before its biases");
    assert_eq!(refusal(&layers(4, &dot(&[]))), 3, "before its weights");
    assert_eq!(refusal(&layers(5, &[])), 3, "before a later record");
}

#[test]
fn biases_and_weights() {
    let bad_bias = with(&K, 29, 0x7F);
    assert_eq!(refusal(&bad_bias[..38]), 1, "weights are missed before a bias is looked at");
    assert_eq!(refusal(&[&bad_bias[..], &[0]].concat()), 2, "trailing bytes come last");
}

#[test]
fn a_fault_in_an_earlier_record_decides() {
    let file = [head(2, 1, 1, 0, 2), conv(1, [3, 1, 1, 0], 0, &[0], &[1; 3]), vec![0]].concat();
    assert_eq!(refusal(&file), 3, "kernel too big before the cut record");
}

#[test]
fn a_refused_load_hands_back_all_stale() {
    let mut sums = [77];
    let outcome = second::load(&K[..38], &mut sums, &[0; 6]);
    assert_eq!((outcome.number, outcome.count, outcome.state), (1, 0, ALL_STALE));
    assert_eq!(sums, [77]);
    let mut world = World::loaded(&K, &[]);
    world.state = ALL_STALE;
    assert_eq!(world.update(), Err(5));
    assert_eq!(world.state, ALL_STALE);
}

#[test]
fn buffers_shorter_and_longer() {
    assert_eq!(second::load(&K, &mut [], &[0; 6]).number, 4);
    assert_eq!(second::load(&K, &mut [0], &[0; 5]).number, 4);
    let mut sums = [1, 2];
    assert_eq!(second::load(&K, &mut sums, &[0; 7]).number, 0);
    assert_eq!(sums, [9, 2], "the rest stays");
    // A sum in the rest is not tested.
    let state = bands(&[(0, 3), (0, 3)]);
    assert_eq!(second::update(&K, &[9, u32::MAX], &mut [0; 7], state).number, 0);
    let adds = [head(1, 1, 1, 0, 1), add(0, 0, [0, 0, 18])].concat();
    assert_eq!(second::load(&adds, &mut [], &[0; 2]).number, 0, "adds have no sums");
}

#[test]
fn faulty_bands() {
    let number = |tensor: usize, first, end| {
        let mut world = World::loaded(&K, &[20, 30, 40]);
        world.state = bands(&[]);
        world.state[tensor] = Band { first, end };
        world.update().map_or_else(|number| number, |_| 0)
    };
    assert_eq!(number(0, 0, 3), 0);
    assert_eq!(number(1, 2, 3), 0);
    assert_eq!(number(0, 2, 1), 5, "first above end");
    assert_eq!(number(1, 0, 4), 5, "end above rows");
    assert_eq!(number(1, 1, 1), 5, "empty but not 0,0");
    assert_eq!(number(2, 0, 1), 5, "no such tensor");
    assert_eq!(number(16, 1, 0), 5, "no such tensor");
}

#[test]
fn the_tests_from_4_on_come_in_order() {
    let bad_state = ALL_STALE;
    let bad_sum = [2_296];
    let good_state = bands(&[(0, 3)]);
    let mut area = [0; 6];
    let mut change = |sums: &[u32], length: usize, state| {
        second::change_rows(&K, sums, &mut area[..length], state, 3, 1, &[0]).number
    };
    assert_eq!(change(&bad_sum, 5, bad_state), 4);
    assert_eq!(change(&bad_sum, 6, bad_state), 5);
    assert_eq!(change(&bad_sum, 6, good_state), 6);
    assert_eq!(change(&[9], 6, good_state), 7);
}

#[test]
fn rows_beyond_and_of_the_wrong_length() {
    let mut world = World::updated(&K, &[20, 30, 40]);
    let before = world.area.clone();
    for (first, count, length) in [
        (0, 0, 0),
        (0, 4, 4),
        (3, 1, 1),
        (0, 2, 1),
        (0, 2, 3),
        (usize::MAX, 2, 2),
        (usize::MAX, 1, 1),
        (u32::MAX as usize, 2, 2),
        (1, usize::MAX, 0),
    ] {
        assert_eq!(world.change_rows(first, count, &vec![1; length]), 7, "{first} {count} {length}");
    }
    assert_eq!(world.area, before);
    assert_eq!(world.state, bands(&[]));
}

#[test]
fn readings_refused() {
    let mut world = World::loaded(&K, &[20, 30, 40]);
    assert_eq!(world.read(&mut [0; 2]), 7, "7 before 8");
    let mut out = [77; 3];
    assert_eq!(world.read(&mut out), 8);
    assert_eq!(out, [77; 3]);
    assert_eq!(world.update(), Ok(3));
    assert_eq!(world.read(&mut [0; 4]), 7, "longer is refused too");
    assert_eq!(world.read(&mut out), 0);
}

#[test]
fn replacements_refused() {
    let record = &K[10..];
    let mut world = World::updated(&K, &[20, 30, 40]);
    for k in [0, 2, 17, usize::MAX] {
        assert_eq!(world.replace_layer(k, &[]), 7, "7 before 9");
    }
    assert_eq!(world.replace_layer(1, &record[..28]), 9);
    assert_eq!(world.replace_layer(1, &[record, &[0]].concat()), 9);
    for at in 0..=6 {
        assert_eq!(world.replace_layer(1, &with(record, at, record[at] ^ 2)), 9, "byte {at}");
    }
    assert_eq!(world.replace_layer(1, &with(record, 11, 32)), 9, "shift");
    assert_eq!(world.replace_layer(1, &with(record, 15, 0x80)), 9, "multiplier");
    assert_eq!(world.replace_layer(1, &with(record, 19, 0x7F)), 9, "bias");
    assert_eq!(world.replace_layer(1, &with(&with(record, 9, 2), 10, 1)), 9, "low above high");
    assert_eq!(world.file, K);
    world.sums[0] = 2_296;
    assert_eq!(world.replace_layer(1, record), 6, "the sum that would be overwritten is tested");
}

#[test]
fn a_replacement_with_a_spare() {
    let file = [head(1, 1, 1, 0, 2), full(0, 0, &[0], &[1]), add(0, 0, [0, 0, 18])].concat();
    let mut world = World::updated(&file, &[20]);
    assert_eq!(world.replace_layer(1, &with(&file[10..29], 9, 1)), 9);
    assert_eq!(world.replace_layer(1, &with(&file[10..29], 4, 1)), 0);
    assert_eq!(world.replace_layer(2, &with(&file[29..], 21, 1)), 9);
    assert_eq!(world.replace_layer(2, &with(&file[29..], 2, 1)), 9, "tensor j may not change");
    assert_eq!(world.replace_layer(2, &with(&file[29..], 3, 1)), 0);
}
