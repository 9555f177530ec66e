//! "Faults that look right" of document 01: each fault is worked here as the document tells it, to show that the
//! numbers would be seen to differ, and the second implementation has the right ones.

mod common;

use common::{conv, head, World, K, TWO_30};
use second::numbers::{finish, floor_of_quotient, rescale, stored_form, total, Offsets};
use second::{Finish, Scaling};

#[test]
fn padding_with_byte_0() {
    let first_window = |padding: u8| -> Vec<(u8, u8)> {
        [padding, padding, padding, padding, 20, padding, padding, 30, padding].map(|q| (q, 1)).to_vec()
    };
    let byte = |padding| {
        let offsets = Offsets { input_zero_point: 10, weight_zero_point: 0, bias: 0, stored_sum: 9 };
        let r = rescale(stored_form(&first_window(padding), offsets), Scaling { multiplier: TWO_30, shift: 0 });
        finish(r, Finish { zero_point: 0, low: 0, high: 255 })
    };
    assert_eq!(byte(0), 0);
    assert_eq!(byte(10), 15);
    assert_eq!(World::updated(&K, &[20, 30, 40]).area[3], 15);
}

#[test]
fn one_rounding_instead_of_two() {
    let one_rounding = floor_of_quotient(5 * (1 << 30) + (1 << 31), 1 << 32);
    assert_eq!(one_rounding, 1);
    assert_eq!(rescale(5, Scaling { multiplier: TWO_30, shift: 1 }), 2);
}

#[test]
fn a_total_started_from_the_bias_less_both_corrections() {
    let offsets = Offsets { input_zero_point: 255, weight_zero_point: 255, bias: -(1 << 30), stored_sum: 255 * 16_384 };
    let sum_of_inputs = 255 * 16_384_i128;
    let started = i128::from(offsets.bias) - 255 * sum_of_inputs - 255 * i128::from(offsets.stored_sum);
    assert!(started < i128::from(i32::MIN));
    assert_eq!(total(&[(255, 255); 16_384], offsets), -(1 << 30));
}

#[test]
fn readers_forgotten_after_a_replacement() {
    // Layer 1 is held at byte 60, so a new zero-point changes no byte of tensor 1, and every byte of its reader.
    let layer_1 = |zero_point| {
        let mut record = conv(1, [1, 1, 1, 0], zero_point, &[0], &[2]);
        record[9..=10].fill(60);
        record
    };
    let layer_2 = conv(1, [1, 1, 1, 0], 0, &[0], &[2]);
    let file = [head(2, 1, 1, 0, 2), layer_1(10), layer_2].concat();
    let mut world = World::updated(&file, &[5, 6]);
    assert_eq!(world.area, [5, 6, 60, 60, 50, 50]);

    assert_eq!(world.replace_layer(1, &layer_1(20)), 0);
    assert_eq!(world.update(), Ok(4), "tensor 1 and its reader");
    assert_eq!(world.area, [5, 6, 60, 60, 40, 40]);
    assert_eq!(world.fresh(), [40, 40]);
}
