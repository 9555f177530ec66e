//! Examples P1 to P12 and the listing of document 01, with the document's numbers.

mod common;

use common::{add, bands, conv, full, head, World, K, TWO_30};
use second::numbers::{add_part, finish, rescale, total, Offsets};
use second::{decode, listing, Finish, Scaling};

fn scaled(total: i128, shift: u8) -> i128 {
    rescale(total, Scaling { multiplier: TWO_30, shift })
}

#[test]
fn p1_k_has_sum_9() {
    assert_eq!(World::loaded(&K, &[]).sums, [9]);
}

#[test]
fn p2_a_picture_gives_these_totals_and_bytes() {
    let columns = [[10, 20, 30], [20, 30, 40], [30, 40, 10]];
    for (column, expected) in columns.iter().zip([30, 60, 50]) {
        let pairs: Vec<(u8, u8)> = column.iter().flat_map(|&q| [(10, 1), (q, 1), (10, 1)]).collect();
        let offsets = Offsets { input_zero_point: 10, weight_zero_point: 0, bias: 0, stored_sum: 9 };
        assert_eq!(total(&pairs, offsets), expected);
    }
    let mut world = World::loaded(&K, &[20, 30, 40]);
    assert_eq!(world.update(), Ok(3));
    let mut out = [0; 3];
    assert_eq!(world.read(&mut out), 0);
    assert_eq!(out, [15, 30, 25]);
    assert_eq!(out.to_vec(), world.fresh());
}

#[test]
fn p3_then_row_0_becomes_22() {
    let mut world = World::updated(&K, &[20, 30, 40]);
    assert_eq!(world.change_rows(0, 1, &[22]), 0);
    assert_eq!(world.update(), Ok(2));
    assert_eq!(world.area[3..], [16, 31, 25]);
}

#[test]
fn p4_a_byte_that_is_not_reached_is_left() {
    let mut world = World::updated(&K, &[20, 30, 40]);
    world.area[5] = 99;
    assert_eq!(world.change_rows(0, 1, &[22]), 0);
    assert_eq!(world.update(), Ok(2));
    assert_eq!(world.area[3..], [16, 31, 99]);
}

#[test]
fn p5_an_update_uses_the_stored_sum() {
    let mut world = World::loaded(&K, &[20, 30, 40]);
    world.sums[0] = 8;
    world.state = bands(&[(0, 3), (0, 3)]);
    assert_eq!(world.update(), Ok(3));
    assert_eq!(world.area[3], 20);
}

#[test]
fn p6_the_greatest_sum() {
    let mut world = World::loaded(&K, &[20, 30, 40]);
    world.sums[0] = 2_295;
    assert_eq!(world.update(), Ok(3));
    world.sums[0] = 2_296;
    assert_eq!(world.update(), Err(6));
}

#[test]
fn p7_shift_0() {
    assert_eq!([3, -3, 1, -1].map(|a| scaled(a, 0)), [2, -1, 1, 0]);
}

#[test]
fn p8_shift_1() {
    assert_eq!([6, -6, 5].map(|a| scaled(a, 1)), [2, -2, 2]);
    // The exact product of the last is 1.25, and 3/4 is the bound: over quarters, 8 − 5 is 3.
    assert_eq!(4 * scaled(5, 1) - 5, 3);
}

#[test]
fn p9_add() {
    let scaling = |shift| Scaling { multiplier: TWO_30, shift };
    let sum = add_part(20, 10, scaling(0)) + add_part(30, 10, scaling(0));
    let r = rescale(sum, scaling(18));
    assert_eq!(finish(r, Finish { zero_point: 5, low: 0, high: 255 }), 35);
}

#[test]
fn p9_add_through_the_calls() {
    // A convolution with weight 4 makes 30 of 20, zero-point 10.
    let file = [head(1, 1, 1, 10, 2), conv(1, [1, 1, 1, 0], 10, &[0], &[4]), add(0, 5, [0, 0, 18])].concat();
    let mut world = World::loaded(&file, &[20]);
    assert_eq!(world.update(), Ok(2));
    assert_eq!(world.area, [20, 30, 35]);
}

fn greatest_total(bias: i32) -> Vec<u8> {
    [head(128, 128, 1, 0, 1), full(0, 0, &[bias], &[255; 16_384])].concat()
}

#[test]
fn p10_the_greatest_total() {
    let offsets = Offsets { input_zero_point: 0, weight_zero_point: 0, bias: 1 << 30, stored_sum: 255 * 16_384 };
    assert_eq!(total(&[(255, 255); 16_384], offsets), 2_139_111_424);
    let mut world = World::loaded(&greatest_total(1 << 30), &[255; 16_384]);
    assert_eq!(world.update(), Ok(1));
    assert_eq!(world.area[16_384], 255);
}

#[test]
fn p11_a_bias_too_great() {
    assert_eq!(decode(&greatest_total((1 << 30) + 1)), Err(2));
}

#[test]
fn p12_k_cut_and_padded() {
    assert_eq!(decode(&K[..38]), Err(1));
    let with_padding = |padding| {
        let mut file = K;
        file[16] = padding;
        decode(&file).map(|_| ())
    };
    assert_eq!(with_padding(2), Ok(()));
    assert_eq!(with_padding(3), Err(2));
}

#[test]
fn the_listing_of_k() {
    let expected = "\
tensor kind rows columns channels bytes sums
0 picture 3 1 1 3 0
1 conv 3 1 1 3 1
";
    assert_eq!(listing(&K), expected);
    assert_eq!(listing(&K[..38]), "refused 1\n");
}

#[test]
fn the_listing_of_all_kinds() {
    let file = [head(1, 2, 1, 0, 2), add(0, 0, [0, 0, 18]), full(0, 0, &[0; 3], &[1; 6])].concat();
    let expected = "\
tensor kind rows columns channels bytes sums
0 picture 1 2 1 2 0
1 add 1 2 1 2 0
2 full 1 1 3 3 3
";
    assert_eq!(listing(&file), expected);
}
