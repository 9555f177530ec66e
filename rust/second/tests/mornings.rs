//! Two mornings with the numbers that `Mornings` of `crates/facts/specs/Mornings.antt` has: load, update, reading; the last row changed,
//! update, reading; a layer replaced, update, reading.

mod common;

use common::{World, K};

/// What an update and a reading give: the count, the bytes of all layers, the reading.
struct Stage<'a> {
    count: u32,
    made: &'a [u8],
    reading: &'a [u8],
}

fn works(world: &mut World, picture: usize, stage: Stage) {
    assert_eq!(world.update(), Ok(stage.count));
    assert_eq!(world.area[picture..], *stage.made);
    let mut out = vec![0; stage.reading.len()];
    assert_eq!(world.read(&mut out), 0);
    assert_eq!(out, stage.reading);
    assert_eq!(out, world.fresh());
}

#[test]
fn a_morning_over_k() {
    let new = [67, 86, 1, 3, 3, 1, 1, 1, 2, 0, 255, 1, 0, 0, 0, 96, 4, 0, 0, 0, 1, 2, 3, 4, 5, 6, 7, 8, 9];
    let mut world = World::loaded(&K, &[20, 30, 40]);
    assert_eq!(world.sums, [9]);
    works(&mut world, 3, Stage { count: 3, made: &[15, 30, 25], reading: &[15, 30, 25] });
    assert_eq!(world.change_rows(2, 1, &[50]), 0);
    works(&mut world, 3, Stage { count: 2, made: &[15, 35, 30], reading: &[15, 35, 30] });
    assert_eq!(world.replace_layer(1, &new), 0);
    assert_eq!(world.sums, [45]);
    works(&mut world, 3, Stage { count: 3, made: &[71, 143, 71], reading: &[71, 143, 71] });
}

/// A picture of 4 rows, 7 columns and 2 channels; two filters of 2 rows and 3 columns, stride 2, padding 1; two of
/// 1 × 1; an add of tensors 2 and 1.
const TWO: [u8; 108] = [
    78, 72, 4, 0, 7, 0, 2, 5, 3, 0, 67, 86, 2, 2, 3, 2, 1, 3, 7, 0, 255, 2, 0, 0, 0, 80, 100, 0, 0, 0, 206, 255, 255,
    255, 3, 10, 17, 24, 0, 7, 14, 21, 28, 4, 11, 18, 19, 26, 2, 9, 16, 23, 30, 6, 13, 20, 27, 3, 67, 86, 2, 1, 1, 1, 0,
    2, 9, 10, 240, 1, 0, 0, 0, 96, 0, 0, 0, 0, 20, 0, 0, 0, 5, 1, 3, 4, 65, 68, 1, 11, 0, 255, 0, 0, 0, 64, 0, 0, 0,
    96, 0, 0, 0, 80, 0, 1, 19, 0,
];

const PICTURE: [u8; 56] = [
    0, 13, 3, 16, 6, 19, 9, 22, 12, 2, 15, 5, 18, 8, 3, 16, 6, 19, 9, 22, 12, 2, 15, 5, 18, 8, 21, 11, 6, 19, 9, 22,
    12, 2, 15, 5, 18, 8, 21, 11, 1, 14, 9, 22, 12, 2, 15, 5, 18, 8, 21, 11, 1, 14, 4, 17,
];

#[test]
fn a_morning_over_a_network_of_three_layers() {
    let row = [2, 7, 12, 17, 3, 8, 13, 18, 4, 9, 14, 0, 5, 10];
    let new = [67, 86, 2, 1, 1, 1, 0, 1, 20, 0, 250, 1, 0, 0, 0, 64, 253, 255, 255, 255, 8, 0, 0, 0, 2, 6, 5, 4];
    let mut world = World::loaded(&TWO, &PICTURE);
    assert_eq!(world.sums, [157, 194, 6, 7]);
    let made = [
        28, 5, 101, 50, 117, 65, 91, 70, 114, 109, 192, 138, 140, 171, 111, 134, 82, 19, 37, 40, 88, 66, 70, 33, 34,
        23, 99, 84, 111, 102, 80, 96, 91, 133, 168, 184, 97, 190, 79, 151, 89, 54, 31, 53, 78, 91, 70, 60, 36, 19, 111,
        78, 126, 96, 95, 95, 112, 136, 197, 182, 128, 201, 104, 159, 96, 45, 39, 54, 92, 90, 79, 55,
    ];
    works(&mut world, 56, Stage { count: 72, made: &made, reading: &made[48..] });
    assert_eq!(world.change_rows(3, 1, &row), 0);
    let made = [
        28, 5, 101, 50, 117, 65, 91, 70, 114, 109, 192, 138, 140, 171, 111, 134, 27, 53, 46, 120, 41, 73, 34, 9, 34,
        23, 99, 84, 111, 102, 80, 96, 91, 133, 168, 184, 97, 190, 79, 151, 15, 59, 11, 116, 23, 79, 39, 28, 36, 19,
        111, 78, 126, 96, 95, 95, 112, 136, 197, 182, 128, 201, 104, 159, 24, 64, 31, 131, 36, 86, 42, 24,
    ];
    works(&mut world, 56, Stage { count: 24, made: &made, reading: &made[48..] });
    assert_eq!(world.replace_layer(2, &new), 0);
    assert_eq!(world.sums, [157, 194, 8, 9]);
    let made = [
        28, 5, 101, 50, 117, 65, 91, 70, 114, 109, 192, 138, 140, 171, 111, 134, 27, 53, 46, 120, 41, 73, 34, 9, 22,
        42, 97, 149, 120, 176, 119, 154, 174, 206, 230, 250, 250, 250, 204, 222, 82, 77, 171, 146, 111, 106, 29, 51,
        22, 24, 103, 112, 125, 136, 112, 124, 157, 175, 229, 216, 217, 232, 175, 197, 59, 68, 124, 143, 84, 96, 29, 31,
    ];
    works(&mut world, 56, Stage { count: 48, made: &made, reading: &made[48..] });
}
