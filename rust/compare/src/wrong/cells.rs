//! One row of a layer, with a fault.

use second::numbers::{floor_of_quotient, nearest_half_away_from_zero};
use second::{Add, Conv, Finish, Full, Kind, Layer, Network, Scaling};

use super::{Fault, Wrong};

/// An input byte, none where the cell is outside the picture, with its weight.
type Pair = (Option<u8>, u8);

impl Wrong {
    pub(super) fn compute_row(
        self,
        network: &Network,
        k: usize,
        tensors: &[&[u8]],
        sums: &[u32],
        row: usize,
    ) -> Vec<u8> {
        let z = network.zero_point(k - 1);
        match &network.layer(k).kind {
            Kind::Conv(conv) => self.conv_row(network.layer(k), conv, tensors[k - 1], z, sums, row),
            Kind::Full(full) => self.full_row(network.layer(k), full, tensors[k - 1], z, sums),
            Kind::Add(add) => {
                let other_z = if self.has(Fault::AddOneZeroPoint) { z } else { network.zero_point(add.other) };
                self.add_row(network.layer(k), add, (tensors[k - 1], z), (tensors[add.other], other_z), row)
            }
        }
    }

    fn conv_row(self, layer: &Layer, conv: &Conv, input: &[u8], z: u8, sums: &[u32], row: usize) -> Vec<u8> {
        let mut bytes = Vec::new();
        for column in 0..layer.output.columns {
            for filter in 0..conv.filters {
                let pairs = self.window(layer, conv, input, (row, column), filter);
                let total = self.total(&pairs, layer, filter, z, conv.weight_zero_point, sums);
                bytes.push(self.finish(self.rescale(total, conv.scaling), conv.finish));
            }
        }
        bytes
    }

    fn full_row(self, layer: &Layer, full: &Full, input: &[u8], z: u8, sums: &[u32]) -> Vec<u8> {
        let byte = |output| {
            let inputs = input.iter().map(|&q| Some(q));
            let pairs: Vec<Pair> = inputs.zip(layer.weights_of(output).iter().copied()).collect();
            let total = self.total(&pairs, layer, output, z, full.weight_zero_point, sums);
            self.finish(self.rescale(total, full.scaling), full.finish)
        };
        (0..full.outputs).map(byte).collect()
    }

    fn add_row(self, layer: &Layer, add: &Add, input: (&[u8], u8), other: (&[u8], u8), row: usize) -> Vec<u8> {
        let swapped = self.has(Fault::AddScalingsSwapped);
        let (first, second) = if swapped { (add.second, add.first) } else { (add.first, add.second) };
        let part = |q: u8, z: u8, scaling| self.rescale((i128::from(q) - i128::from(z)) << 20, scaling);
        let byte = |at: usize| {
            let sum = part(input.0[at], input.1, first) + part(other.0[at], other.1, second);
            self.finish(self.rescale(sum, add.third), add.finish)
        };
        let start = layer.output.index(row, 0, 0);
        (start..start + layer.output.row_bytes()).map(byte).collect()
    }

    fn window(self, layer: &Layer, conv: &Conv, input: &[u8], cell: (usize, usize), filter: usize) -> Vec<Pair> {
        let shape = layer.input;
        let weights = layer.weights_of(filter);
        let mut pairs = Vec::new();
        for kernel_row in 0..conv.kernel_rows {
            for kernel_column in 0..conv.kernel_columns {
                for channel in 0..shape.channels {
                    let row = (cell.0 * conv.stride + kernel_row).checked_sub(conv.padding);
                    let column = (cell.1 * conv.stride + kernel_column).checked_sub(conv.padding);
                    let q = match (row, column) {
                        (Some(r), Some(c)) if r < shape.rows && c < shape.columns => {
                            Some(input[shape.index(r, c, channel)])
                        }
                        _ => None,
                    };
                    let place = if self.has(Fault::KernelTransposed) {
                        kernel_column * conv.kernel_rows + kernel_row
                    } else {
                        kernel_row * conv.kernel_columns + kernel_column
                    };
                    pairs.push((q, weights[place * shape.channels + channel]));
                }
            }
        }
        pairs
    }

    fn total(self, pairs: &[Pair], layer: &Layer, output: usize, z: u8, v: u8, sums: &[u32]) -> i128 {
        let padding = if self.has(Fault::PaddingWithZero) { 0 } else { z };
        let (z, v, n) = (i64::from(z), i64::from(v), pairs.len() as i64);
        let products: i64 = pairs.iter().map(|&(q, w)| i64::from(q.unwrap_or(padding)) * i64::from(w)).sum();
        let in_sum = |q: Option<u8>| match q {
            None if self.has(Fault::PaddingNotInSumOfInputs) => 0,
            q => i64::from(q.unwrap_or(padding)),
        };
        let inputs: i64 = pairs.iter().map(|&(q, _)| in_sum(q)).sum();
        let sum = if self.has(Fault::TrueSumsUsed) { layer.true_sums()[output] } else { sums[output] };
        let bias = layer.biases[if self.has(Fault::FirstFilterOnly) { 0 } else { output }];
        let steps = [i64::from(bias), -v * inputs, -z * i64::from(sum), products, n * z * v];
        let total = if self.has(Fault::TotalIn32BitsFromCorrections) {
            let held = |so_far: i64, step: i64| (so_far + step).clamp(i32::MIN.into(), i32::MAX.into());
            steps.into_iter().fold(0, held)
        } else {
            steps.into_iter().sum()
        };
        i128::from(total)
    }

    fn rescale(self, a: i128, scaling: Scaling) -> i128 {
        let product = a * i128::from(scaling.multiplier);
        let n = if self.has(Fault::ShiftAtMost30) { scaling.shift.min(30) } else { scaling.shift };
        if self.has(Fault::OneRounding) {
            return floor_of_quotient(product + (1 << (30 + n)), 1 << (31 + n));
        }
        let h = match self.fault {
            Some(Fault::FirstHalfAwayFromZero) => nearest_half_away_from_zero(product, 1 << 31),
            Some(Fault::FirstCutTowardsZero) => (product + (1 << 30)) / (1 << 31),
            Some(Fault::FirstHalfDown) => floor_of_quotient(product + (1 << 30) - 1, 1 << 31),
            _ => floor_of_quotient(product + (1 << 30), 1 << 31),
        };
        let divisor = 1 << n;
        match self.fault {
            Some(Fault::SecondHalfUp) => floor_of_quotient(2 * h + divisor, 2 * divisor),
            Some(Fault::SecondHalfTowardsZero) => h.signum() * ((2 * h.abs() + divisor - 1) / (2 * divisor)),
            Some(Fault::SecondRoundingWraps) if n > 0 => i128::from((h as i32).wrapping_add(1 << (n - 1)) >> n),
            Some(Fault::SecondFloor) => floor_of_quotient(h, divisor),
            _ => nearest_half_away_from_zero(h, divisor),
        }
    }

    fn finish(self, r: i128, finish: Finish) -> u8 {
        let (low, high) = (i128::from(finish.low), i128::from(finish.high));
        let zero_point = i128::from(finish.zero_point);
        let byte = if self.has(Fault::ClampBeforeZeroPoint) {
            (r.clamp(low, high) + zero_point).min(255)
        } else {
            (r + zero_point).clamp(low, high)
        };
        byte as u8
    }
}
