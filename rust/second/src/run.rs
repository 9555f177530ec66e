//! One row of a layer, and the fresh run.

use crate::network::{Add, Conv, Finish, Full, Kind, Layer, Network, Scaling};
use crate::numbers::{add_part, finish, rescale, total, Offsets};

/// One row of layer k's output, from the tensors as they are and the stored sums of this layer.
pub fn compute_row(network: &Network, k: usize, tensors: &[&[u8]], sums: &[u32], row: usize) -> Vec<u8> {
    let layer = network.layer(k);
    let input = tensors[k - 1];
    let zero_point = network.zero_point(k - 1);
    match &layer.kind {
        Kind::Conv(conv) => conv_row(layer, conv, input, zero_point, sums, row),
        Kind::Full(full) => full_row(layer, full, input, zero_point, sums),
        Kind::Add(add) => {
            let other = tensors[add.other];
            add_row(layer, add, (input, zero_point), (other, network.zero_point(add.other)), row)
        }
    }
}

fn conv_row(layer: &Layer, conv: &Conv, input: &[u8], zero_point: u8, sums: &[u32], row: usize) -> Vec<u8> {
    let rules = Rules { weight_zero_point: conv.weight_zero_point, scaling: conv.scaling, finish: conv.finish };
    let columns = 0..layer.output.columns;
    columns
        .flat_map(|column| {
            let window = window(layer, conv, input, zero_point, row, column);
            outputs(layer, rules, &window, zero_point, sums)
        })
        .collect()
}

/// The input bytes under the kernel, by row, column, channel. A cell outside the picture counts as byte Z.
fn window(layer: &Layer, conv: &Conv, input: &[u8], zero_point: u8, row: usize, column: usize) -> Vec<u8> {
    let mut bytes = Vec::new();
    for kernel_row in 0..conv.kernel_rows {
        for kernel_column in 0..conv.kernel_columns {
            let at_row = inside(row * conv.stride + kernel_row, conv.padding, layer.input.rows);
            let at_column = inside(column * conv.stride + kernel_column, conv.padding, layer.input.columns);
            for channel in 0..layer.input.channels {
                bytes.push(match (at_row, at_column) {
                    (Some(r), Some(c)) => input[layer.input.index(r, c, channel)],
                    _ => zero_point,
                });
            }
        }
    }
    bytes
}

/// A place on the padded side as a place on the input's side, if it is one.
fn inside(padded: usize, padding: usize, length: usize) -> Option<usize> {
    let place = padded.checked_sub(padding)?;
    (place < length).then_some(place)
}

fn full_row(layer: &Layer, full: &Full, input: &[u8], zero_point: u8, sums: &[u32]) -> Vec<u8> {
    let rules = Rules { weight_zero_point: full.weight_zero_point, scaling: full.scaling, finish: full.finish };
    outputs(layer, rules, input, zero_point, sums)
}

/// What all filters or outputs of a layer share.
#[derive(Clone, Copy)]
struct Rules {
    weight_zero_point: u8,
    scaling: Scaling,
    finish: Finish,
}

/// A byte for each filter or output, all over the same input bytes.
fn outputs(layer: &Layer, rules: Rules, inputs: &[u8], zero_point: u8, sums: &[u32]) -> Vec<u8> {
    let byte = |output: usize| {
        let offsets = Offsets {
            input_zero_point: zero_point,
            weight_zero_point: rules.weight_zero_point,
            bias: layer.biases[output],
            stored_sum: sums[output],
        };
        let total = total(&pairs(inputs, layer.weights_of(output)), offsets);
        finish(rescale(total, rules.scaling), rules.finish)
    };
    (0..layer.kind.outputs()).map(byte).collect()
}

fn pairs(inputs: &[u8], weights: &[u8]) -> Vec<(u8, u8)> {
    assert_eq!(inputs.len(), weights.len(), "a weight for each input byte");
    inputs.iter().copied().zip(weights.iter().copied()).collect()
}

/// Each input comes with its own zero-point.
fn add_row(layer: &Layer, add: &Add, input: (&[u8], u8), other: (&[u8], u8), row: usize) -> Vec<u8> {
    let first_byte = layer.output.index(row, 0, 0);
    let byte = |at: usize| {
        let first = add_part(input.0[at], input.1, add.first);
        let second = add_part(other.0[at], other.1, add.second);
        finish(rescale(first + second, add.third), add.finish)
    };
    (first_byte..first_byte + layer.output.row_bytes()).map(byte).collect()
}

/// Every row of every layer, in layer order, from the picture and with the true sums. It knows no bands.
/// All tensors are given back; the last is the network's answer.
pub fn fresh_run(network: &Network, picture: &[u8]) -> Vec<Vec<u8>> {
    assert_eq!(picture.len(), network.picture.bytes(), "a whole picture");
    let mut tensors = vec![picture.to_vec()];
    for k in 1..network.tensors() {
        let layer = network.layer(k);
        let sums = layer.true_sums();
        let before: Vec<&[u8]> = tensors.iter().map(Vec::as_slice).collect();
        let rows = 0..layer.output.rows;
        let tensor = rows.flat_map(|row| compute_row(network, k, &before, &sums, row)).collect();
        tensors.push(tensor);
    }
    tensors
}
