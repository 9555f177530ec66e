//! The numbers in a record.

use crate::rng::Rng;

/// What kind of numbers a layer gets.
#[derive(Clone, Copy, Debug, PartialEq, Eq)]
pub enum Flavour {
    /// Such that most output bytes lie between low and high, and a changed input byte is seen in the output.
    Plain,
    /// Weights next to their zero-point and small shifts: totals are small, and many of them come to a half.
    Near,
    /// Ends of ranges, and anything between them.
    Edges,
}

pub const LEAST_MULTIPLIER: u32 = 1 << 30;
pub const GREATEST_MULTIPLIER: u32 = (1 << 31) - 1;
pub const GREATEST_BIAS: i32 = 1 << 30;

pub fn flavour(rng: &mut Rng) -> Flavour {
    rng.pick(&[Flavour::Plain, Flavour::Plain, Flavour::Near, Flavour::Edges])
}

pub fn zero_point(rng: &mut Rng, flavour: Flavour) -> u8 {
    match flavour {
        Flavour::Plain | Flavour::Near => rng.within(60, 190) as u8,
        Flavour::Edges => edge_byte(rng),
    }
}

fn edge_byte(rng: &mut Rng) -> u8 {
    let any = rng.byte();
    rng.pick(&[0, 255, any])
}

/// Low and high.
pub fn clamp(rng: &mut Rng, flavour: Flavour) -> (u8, u8) {
    match flavour {
        Flavour::Plain | Flavour::Near if rng.one_in(3) => (rng.within(0, 40) as u8, rng.within(200, 255) as u8),
        Flavour::Plain | Flavour::Near => (0, 255),
        Flavour::Edges => {
            let (one, other) = (edge_byte(rng), edge_byte(rng));
            (one.min(other), one.max(other))
        }
    }
}

pub fn multiplier(rng: &mut Rng, flavour: Flavour) -> u32 {
    let any = rng.within(LEAST_MULTIPLIER as usize, GREATEST_MULTIPLIER as usize) as u32;
    match flavour {
        Flavour::Plain => rng.pick(&[LEAST_MULTIPLIER, any, any]),
        Flavour::Near => rng.pick(&[LEAST_MULTIPLIER, LEAST_MULTIPLIER, any]),
        Flavour::Edges => rng.pick(&[LEAST_MULTIPLIER, GREATEST_MULTIPLIER, any]),
    }
}

/// The shift of a total with so many terms: offsets are some 70 in size and of either sign, so a total is some
/// 5,000 × √terms in size, and should come down to some 60.
pub fn shift(rng: &mut Rng, flavour: Flavour, terms: usize) -> u8 {
    let fitting = rng.within(4, 6) + terms.ilog2() as usize / 2;
    match flavour {
        Flavour::Plain => fitting as u8,
        Flavour::Near => rng.pick(&[0, 0, 1, 2]),
        Flavour::Edges => {
            let any = rng.below(32);
            rng.pick(&[0, 1, 31, any, fitting]) as u8
        }
    }
}

pub fn bias(rng: &mut Rng, flavour: Flavour) -> i32 {
    match flavour {
        Flavour::Plain => rng.within(0, 4_000) as i32 - 2_000,
        Flavour::Near => rng.within(0, 60) as i32 - 30,
        Flavour::Edges => {
            let any = rng.within(0, 1 << 31) as i64 - (1 << 30);
            rng.pick(&[-GREATEST_BIAS, GREATEST_BIAS, 0, -1, 1, any as i32])
        }
    }
}

/// Weights with zero-point `v`.
pub fn weights(rng: &mut Rng, flavour: Flavour, v: u8, count: usize) -> Vec<u8> {
    match flavour {
        Flavour::Plain => rng.bytes(count),
        Flavour::Near => (0..count).map(|_| v - 1 + rng.below(3) as u8).collect(),
        Flavour::Edges => patterned(rng, count),
    }
}

/// Bytes all 0, all 255, a mix of these, or anything.
pub fn patterned(rng: &mut Rng, count: usize) -> Vec<u8> {
    match rng.below(4) {
        0 => vec![0; count],
        1 => vec![255; count],
        2 => (0..count).map(|_| rng.pick(&[0, 255])).collect(),
        _ => rng.bytes(count),
    }
}

/// The three shifts of an add. With multipliers near 2^30, shifts 0, 0 and 18 keep the size of the offsets.
pub fn add_shifts(rng: &mut Rng, flavour: Flavour) -> [u8; 3] {
    match flavour {
        Flavour::Plain | Flavour::Near => [rng.below(3) as u8, rng.below(3) as u8, rng.within(17, 19) as u8],
        Flavour::Edges => std::array::from_fn(|_| {
            let any = rng.below(32) as u8;
            rng.pick(&[0, 18, 31, any])
        }),
    }
}
