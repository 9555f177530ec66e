//! The two formulas of a rescaling, by divisions and by shifts, over many totals of both signs.

use second::numbers::{rescale, rescale_by_division, rescale_by_shifts, TOTAL_BOUND};
use second::Scaling;

const LEAST: u32 = 1 << 30;
const GREATEST: u32 = (1 << 31) - 1;

/// Seeded numbers, enough for totals and multipliers.
struct Numbers(u64);

impl Numbers {
    fn word(&mut self) -> u64 {
        self.0 = self.0.wrapping_mul(6_364_136_223_846_793_005).wrapping_add(1_442_695_040_888_963_407);
        self.0 >> 31
    }

    /// Of every size up to the bound.
    fn total(&mut self) -> i128 {
        i128::from(self.word() >> (self.word() % 33)) % (TOTAL_BOUND + 1)
    }

    fn multiplier(&mut self) -> u32 {
        LEAST + (self.word() % u64::from(LEAST)) as u32
    }
}

/// By both formulas, for a total and its negative, with every shift.
fn agree(total: i128, multiplier: u32) {
    for (shift, total) in (0..=31).flat_map(|shift| [(shift, total), (shift, -total)]) {
        let scaling = Scaling { multiplier, shift };
        let expected = rescale_by_division(total, scaling);
        assert_eq!(rescale_by_shifts(total, scaling), expected, "total {total}, {scaling:?}");
        assert_eq!(rescale(total, scaling), expected);
    }
}

#[test]
fn examples_p7_and_p8_by_shifts() {
    let scaled = |total, shift| rescale_by_shifts(total, Scaling { multiplier: LEAST, shift });
    assert_eq!([3, -3, 1, -1].map(|total| scaled(total, 0)), [2, -1, 1, 0]);
    assert_eq!([6, -6, 5].map(|total| scaled(total, 1)), [2, -2, 2]);
}

/// With multiplier 2^30 the first step halves, so a total near 2^n × an odd number comes near a half with shift n.
#[test]
fn totals_near_halves() {
    let halves = (0..=31).flat_map(|shift| [1, 3, 5, 255, 257].map(|odd| odd << shift));
    let totals = halves.flat_map(|half: i128| (-3..=3).map(move |near| half + near));
    totals.filter(|&total| total <= TOTAL_BOUND).for_each(|total| agree(total, LEAST));
}

/// A half is 3 / 2^1 for total 6, 6 / 2^2 for total 12, and so on: both go away from zero.
#[test]
fn a_half_goes_away_from_zero_by_both() {
    for shift in 1..=29 {
        let scaling = Scaling { multiplier: LEAST, shift };
        let total = 3 << shift;
        assert_eq!([total, -total].map(|total| rescale_by_division(total, scaling)), [2, -2]);
        assert_eq!([total, -total].map(|total| rescale_by_shifts(total, scaling)), [2, -2]);
    }
}

#[test]
fn the_ends_of_totals_and_multipliers() {
    for multiplier in [LEAST, LEAST + 1, GREATEST - 1, GREATEST] {
        (0..4).for_each(|distance| agree(distance, multiplier));
        (0..4).for_each(|distance| agree(TOTAL_BOUND - distance, multiplier));
    }
}

#[test]
fn many_totals() {
    let mut numbers = Numbers(1);
    for _ in 0..10_000 {
        agree(numbers.total(), numbers.multiplier());
    }
}
