//! The straightforward version: every row of every layer, offset products summed directly, with the padding test outside
//! the channel loop. It keeps no sums and knows no bands.

use second::{Add, Conv, Finish, Kind, Layer, Network, Scaling, Shape};

/// Every tensor anew, in the work area, from the picture at its front.
pub fn run(network: &Network, area: &mut [u8]) {
    for k in 1..network.tensors() {
        let place = network.area_place(k);
        let (before, from) = area.split_at_mut(place.start);
        let output = &mut from[..place.len()];
        let layer = network.layer(k);
        let zero = network.zero_point(k - 1);
        let input = &before[network.area_place(k - 1)];
        match &layer.kind {
            Kind::Conv(conv) => run_conv(layer, conv, input, i32::from(zero), output),
            Kind::Full(full) => {
                for (f, byte) in output.iter_mut().enumerate() {
                    let v = i32::from(full.weight_zero_point);
                    let total = layer.biases[f] + products(input, layer.weights_of(f), i32::from(zero), v);
                    *byte = finish(rescale(total, full.scaling), full.finish);
                }
            }
            Kind::Add(add) => {
                let other = &before[network.area_place(add.other)];
                run_add(add, (input, zero), (other, network.zero_point(add.other)), output);
            }
        }
    }
}

fn run_conv(layer: &Layer, conv: &Conv, input: &[u8], zero: i32, output: &mut [u8]) {
    let Shape { rows, columns, channels } = layer.output;
    for row in 0..rows {
        for column in 0..columns {
            for filter in 0..channels {
                let total = layer.biases[filter] + window(layer, conv, input, zero, (row, column), filter);
                output[layer.output.index(row, column, filter)] = finish(rescale(total, conv.scaling), conv.finish);
            }
        }
    }
}

/// A cell outside the picture counts as the zero-point, so its products are 0.
fn window(layer: &Layer, conv: &Conv, input: &[u8], zero: i32, (row, column): (usize, usize), filter: usize) -> i32 {
    let weights = layer.weights_of(filter);
    let channels = layer.input.channels;
    let mut total = 0;
    for a in 0..conv.kernel_rows {
        let r = (row * conv.stride + a).wrapping_sub(conv.padding);
        for b in 0..conv.kernel_columns {
            let c = (column * conv.stride + b).wrapping_sub(conv.padding);
            if r < layer.input.rows && c < layer.input.columns {
                let cell = &input[layer.input.index(r, c, 0)..][..channels];
                let weight = &weights[(a * conv.kernel_columns + b) * channels..][..channels];
                total += products(cell, weight, zero, i32::from(conv.weight_zero_point));
            }
        }
    }
    total
}

fn products(input: &[u8], weights: &[u8], zero: i32, weight_zero: i32) -> i32 {
    input.iter().zip(weights).map(|(&q, &w)| (i32::from(q) - zero) * (i32::from(w) - weight_zero)).sum()
}

fn run_add(add: &Add, input: (&[u8], u8), other: (&[u8], u8), output: &mut [u8]) {
    let part = |q: u8, zero: u8, scaling| rescale((i32::from(q) - i32::from(zero)) << 20, scaling);
    for (at, byte) in output.iter_mut().enumerate() {
        let sum = part(input.0[at], input.1, add.first) + part(other.0[at], other.1, add.second);
        *byte = finish(rescale(sum, add.third), add.finish);
    }
}

fn rescale(total: i32, scaling: Scaling) -> i32 {
    let high = ((i64::from(total) * i64::from(scaling.multiplier) + (1 << 30)) >> 31) as i32;
    let mask = (1i64 << scaling.shift) - 1;
    let rest = i64::from(high) & mask;
    let threshold = (mask >> 1) + i64::from(high < 0);
    (i64::from(high) >> scaling.shift) as i32 + i32::from(rest > threshold)
}

fn finish(rescaled: i32, finish: Finish) -> u8 {
    (rescaled + i32::from(finish.zero_point)).clamp(i32::from(finish.low), i32::from(finish.high)) as u8
}
