//! "The numbers": totals, rescaling and finishing, over 128-bit whole numbers.

use crate::network::{Finish, Scaling};

/// No total may be further from zero than this.
pub const TOTAL_BOUND: i128 = 2_139_111_424;

/// One output's numbers besides its pairs of input byte and weight.
#[derive(Clone, Copy, Debug)]
pub struct Offsets {
    pub input_zero_point: u8,
    pub weight_zero_point: u8,
    pub bias: i32,
    pub stored_sum: u32,
}

/// The total of one output over its pairs (q, w).
///
/// Where the stored sum is the true one the total must also be the direct sum of offset products plus bias.
pub fn total(pairs: &[(u8, u8)], offsets: Offsets) -> i128 {
    let total = stored_form(pairs, offsets);
    let true_sum: i128 = pairs.iter().map(|&(_, w)| i128::from(w)).sum();
    if i128::from(offsets.stored_sum) == true_sum {
        assert_eq!(total, direct_form(pairs, offsets), "the two forms of a total differ");
    }
    assert!(total.abs() <= TOTAL_BOUND, "total {total} out of bounds");
    total
}

/// b + Σqw − VΣq − ZT + NZV
pub fn stored_form(pairs: &[(u8, u8)], offsets: Offsets) -> i128 {
    let z = i128::from(offsets.input_zero_point);
    let v = i128::from(offsets.weight_zero_point);
    let n = i128::try_from(pairs.len()).expect("a small count");
    let mut products = 0;
    let mut inputs = 0;
    for &(q, w) in pairs {
        products += i128::from(q) * i128::from(w);
        inputs += i128::from(q);
    }
    i128::from(offsets.bias) + products - v * inputs - z * i128::from(offsets.stored_sum) + n * z * v
}

/// b + Σ(q − Z)(w − V)
pub fn direct_form(pairs: &[(u8, u8)], offsets: Offsets) -> i128 {
    let z = i128::from(offsets.input_zero_point);
    let v = i128::from(offsets.weight_zero_point);
    let mut total = i128::from(offsets.bias);
    for &(q, w) in pairs {
        total += (i128::from(q) - z) * (i128::from(w) - v);
    }
    total
}

/// Rescaling total `a`: first a half goes up, then (if there is a shift) a half goes away from zero.
///
/// Two formulas, by divisions and by shifts, must agree.
pub fn rescale(a: i128, scaling: Scaling) -> i128 {
    let r = rescale_by_division(a, scaling);
    assert_eq!(r, rescale_by_shifts(a, scaling), "the two formulas of a rescaling differ");
    assert_distance(r, a * i128::from(scaling.multiplier), scaling.shift);
    r
}

/// As the document has it.
pub fn rescale_by_division(a: i128, scaling: Scaling) -> i128 {
    let h = floor_of_quotient(a * i128::from(scaling.multiplier) + (1 << 30), 1 << 31);
    match scaling.shift {
        0 => h,
        n => nearest_half_away_from_zero(h, 1 << n),
    }
}

/// By shifts alone: the bits that the second one drops are compared with a half. A shift goes down, which is away from
/// zero for a number below it, so there a half stays.
pub fn rescale_by_shifts(a: i128, scaling: Scaling) -> i128 {
    let h = (a * i128::from(scaling.multiplier) + (1 << 30)) >> 31;
    let mask = (1 << scaling.shift) - 1;
    let dropped = h & mask;
    let threshold = (mask >> 1) + i128::from(h < 0);
    (h >> scaling.shift) + i128::from(dropped > threshold)
}

/// The greatest whole number not above `number` / `divisor`, for a divisor above 0. Rust's division cuts towards zero.
pub fn floor_of_quotient(number: i128, divisor: i128) -> i128 {
    let cut = number / divisor;
    if number % divisor < 0 {
        cut - 1
    } else {
        cut
    }
}

pub fn nearest_half_away_from_zero(number: i128, divisor: i128) -> i128 {
    let nearest_of_size = (2 * number.abs() + divisor) / (2 * divisor);
    if number < 0 {
        -nearest_of_size
    } else {
        nearest_of_size
    }
}

/// Twice the difference between r × 2^(31+n) and a × m is at most 2^(31+n) if n is 0, otherwise 2^(31+n) + 2^31.
fn assert_distance(r: i128, product: i128, shift: u8) {
    let one = 1_i128 << (31 + shift);
    let bound = match shift {
        0 => one,
        _ => one + (1 << 31),
    };
    assert!(2 * (r * one - product).abs() <= bound, "{r} is too far from {product} / 2^{}", 31 + shift);
}

/// Zero-point added, held between low and high as a whole number.
pub fn finish(r: i128, finish: Finish) -> u8 {
    let held = (r + i128::from(finish.zero_point)).clamp(i128::from(finish.low), i128::from(finish.high));
    u8::try_from(held).expect("low and high are bytes")
}

/// An add's number for one input byte, before the two are added.
pub fn add_part(q: u8, own_zero_point: u8, scaling: Scaling) -> i128 {
    let offset = i128::from(q) - i128::from(own_zero_point);
    rescale(offset * (1 << 20), scaling)
}
