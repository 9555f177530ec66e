//! Arguments of the calls, right and wrong.

use second::Shape;

use crate::rng::Rng;

/// A first row and a number of rows within the picture.
pub fn rows_within(rng: &mut Rng, picture: Shape) -> (usize, usize) {
    let first = rng.below(picture.rows);
    let most = picture.rows - first;
    let any = rng.within(1, most);
    (first, rng.pick(&[1, 1, any, most]))
}

/// A first row, a number of rows and a length of bytes that test 7 refuses.
pub fn wrong_rows(rng: &mut Rng, picture: Shape) -> (usize, usize, usize) {
    let row = picture.row_bytes();
    let (first, count) = rows_within(rng, picture);
    let far = rng.pick(&[usize::MAX, usize::MAX - 1, u32::MAX as usize, 1 << 32, 1 << 63, 1 << 16, 256, 255]);
    let far = far.max(picture.rows);
    let choices = [
        (first, 0, 0),
        (first, 0, row),
        (usize::MAX, 0, 0),
        // Beyond the picture, with bytes for so many rows.
        (first, picture.rows - first + 1, (picture.rows - first + 1) * row),
        (picture.rows, 1, row),
        (far, count, count * row),
        // The end comes back into the picture if first + count wraps, in 64 or in 32 bits.
        (usize::MAX, 2, 2 * row),
        (usize::MAX - first, first + 1 + count, (first + 1 + count) * row),
        (u32::MAX as usize, 2, 2 * row),
        (first, first.wrapping_neg(), 0),
        // The length comes back to 0 or to a row if count × row bytes wraps.
        (first, 1 << 63, 0),
        (0, (1 << 63) + 1, row),
        (0, (1 << 32) + 1, row),
        (first, far, 0),
        (first, usize::MAX, usize::MAX.wrapping_mul(row) % 64),
        // Within the picture, of the wrong length.
        (first, count, 0),
        (first, count, count * row - 1),
        (first, count, count * row + 1),
        (first, count, (count + 1) * row),
    ];
    rng.pick(&choices)
}

/// A layer number that test 7 refuses in a network with so many layers.
pub fn wrong_layer(rng: &mut Rng, layers: usize) -> usize {
    let wraps_to_one = rng.pick(&[1 << 8, 1 << 16, 1 << 32]) + 1;
    rng.pick(&[0, 0, layers + 1, layers + 1, 17, 255, 256, wraps_to_one, usize::MAX, 1 << 63])
}

/// Any length but the right one.
pub fn wrong_length(rng: &mut Rng, right: usize) -> usize {
    rng.pick(&[0, right - 1, right + 1, 2 * right, right + 256])
}
