//! The network file: tests 1 to 3, in the order of the document.
//!
//! "File length is tested first. Then records in order, and the first fault met decides: mark and fixed part present,
//! spare, fields in file order, shape, biases and weights present, biases in order. Trailing bytes come last."
//! Each of these stages is a function of its own, and [`decode`] is their order.

use crate::network::{Add, Conv, Finish, Full, Kind, Layer, Network, Scaling, Shape};

pub const LONGEST_FILE: usize = 65_536;
pub const LARGEST_TENSOR: usize = 16_384;
pub const LARGEST_AREA: usize = 65_536;
pub const HEAD_BYTES: usize = 10;

const HEAD_MARK: [u8; 2] = [0x4E, 0x48];

pub fn decode(file: &[u8]) -> Result<Network, u8> {
    file_length(file)?;
    let head = head(file)?;
    let mut network = Network { picture: head.picture, picture_zero_point: head.zero_point, layers: Vec::new() };
    let mut at = HEAD_BYTES;
    for _ in 0..head.layers {
        let layer = layer(file, at, &network)?;
        at = layer.place.end;
        network.layers.push(layer);
    }
    nothing_trails(file, at)?;
    Ok(network)
}

/// Refuses with `number` unless `fine`.
fn need(fine: bool, number: u8) -> Result<(), u8> {
    if fine {
        Ok(())
    } else {
        Err(number)
    }
}

fn two_bytes(bytes: &[u8], at: usize) -> usize {
    usize::from(u16::from_le_bytes([bytes[at], bytes[at + 1]]))
}

fn four_bytes(bytes: &[u8], at: usize) -> u32 {
    u32::from_le_bytes([bytes[at], bytes[at + 1], bytes[at + 2], bytes[at + 3]])
}

pub fn file_length(file: &[u8]) -> Result<(), u8> {
    need(file.len() <= LONGEST_FILE, 3)
}

pub fn nothing_trails(file: &[u8], end_of_last_record: usize) -> Result<(), u8> {
    need(end_of_last_record == file.len(), 1)
}

// The head.

#[derive(Clone, Copy, Debug, PartialEq, Eq)]
pub struct Head {
    pub picture: Shape,
    pub zero_point: u8,
    pub layers: usize,
}

/// The head runs through the same stages as a layer's record, before any layer is looked at.
fn head(file: &[u8]) -> Result<Head, u8> {
    let fixed = head_fixed_part(file)?;
    head_spare(fixed)?;
    let head = head_fields(fixed)?;
    tensor_fits(head.picture)?;
    Ok(head)
}

pub fn head_fixed_part(file: &[u8]) -> Result<&[u8], u8> {
    need(file.starts_with(&HEAD_MARK) && file.len() >= HEAD_BYTES, 1)?;
    Ok(&file[..HEAD_BYTES])
}

pub fn head_spare(fixed: &[u8]) -> Result<(), u8> {
    need(fixed[9] == 0, 1)
}

pub fn head_fields(fixed: &[u8]) -> Result<Head, u8> {
    let picture = Shape { rows: two_bytes(fixed, 2), columns: two_bytes(fixed, 4), channels: usize::from(fixed[6]) };
    let layers = usize::from(fixed[8]);
    need((1..=256).contains(&picture.rows), 2)?;
    need((1..=256).contains(&picture.columns), 2)?;
    need((1..=64).contains(&picture.channels), 2)?;
    need((1..=16).contains(&layers), 2)?;
    Ok(Head { picture, zero_point: fixed[7], layers })
}

// A layer's record.

#[derive(Clone, Copy, Debug, PartialEq, Eq)]
pub enum Mark {
    Conv,
    Full,
    Add,
}

impl Mark {
    pub fn of(record: &[u8]) -> Option<Mark> {
        match record.get(..2)? {
            [0x43, 0x56] => Some(Mark::Conv),
            [0x46, 0x55] => Some(Mark::Full),
            [0x41, 0x44] => Some(Mark::Add),
            _ => None,
        }
    }

    /// The bytes of the fixed part, mark included.
    pub fn fixed_bytes(self) -> usize {
        match self {
            Mark::Conv => 16,
            Mark::Full => 14,
            Mark::Add => 22,
        }
    }
}

/// The record at `at`, of the layer after those that `network` has so far.
fn layer(file: &[u8], at: usize, network: &Network) -> Result<Layer, u8> {
    let rest = &file[at..];
    let (mark, fixed) = fixed_part(rest)?;
    spare(mark, fixed)?;
    let kind = fields(mark, fixed)?;
    let output = shape(&kind, network)?;
    let input = network.shape(network.layers.len());
    let (biases, weights) = body(rest, mark, kind.outputs(), kind.terms(input))?;
    let biases = biases_in_order(biases)?;
    let end = at + fixed.len() + 4 * biases.len() + weights.len();
    Ok(Layer { input, output, kind, biases, weights: weights.to_vec(), place: at..end })
}

/// Mark known and fixed part present.
pub fn fixed_part(rest: &[u8]) -> Result<(Mark, &[u8]), u8> {
    let mark = Mark::of(rest).ok_or(1)?;
    let fixed = rest.get(..mark.fixed_bytes()).ok_or(1)?;
    Ok((mark, fixed))
}

/// A convolution has no spare.
pub fn spare(mark: Mark, fixed: &[u8]) -> Result<(), u8> {
    match mark {
        Mark::Conv => Ok(()),
        Mark::Full => need(fixed[9] == 0, 1),
        Mark::Add => need(fixed[21] == 0, 1),
    }
}

pub fn fields(mark: Mark, fixed: &[u8]) -> Result<Kind, u8> {
    match mark {
        Mark::Conv => conv_fields(fixed).map(Kind::Conv),
        Mark::Full => full_fields(fixed).map(Kind::Full),
        Mark::Add => add_fields(fixed).map(Kind::Add),
    }
}

fn conv_fields(fixed: &[u8]) -> Result<Conv, u8> {
    let conv = Conv {
        filters: usize::from(fixed[2]),
        kernel_rows: usize::from(fixed[3]),
        kernel_columns: usize::from(fixed[4]),
        stride: usize::from(fixed[5]),
        padding: usize::from(fixed[6]),
        weight_zero_point: fixed[7],
        finish: Finish { zero_point: fixed[8], low: fixed[9], high: fixed[10] },
        scaling: Scaling { shift: fixed[11], multiplier: four_bytes(fixed, 12) },
    };
    need((1..=64).contains(&conv.filters), 2)?;
    need((1..=7).contains(&conv.kernel_rows), 2)?;
    need((1..=7).contains(&conv.kernel_columns), 2)?;
    need((1..=4).contains(&conv.stride), 2)?;
    need(conv.padding < conv.kernel_rows.min(conv.kernel_columns), 2)?;
    clamp_in_order(conv.finish)?;
    scaling_in_range(conv.scaling)?;
    Ok(conv)
}

fn full_fields(fixed: &[u8]) -> Result<Full, u8> {
    let full = Full {
        outputs: two_bytes(fixed, 2),
        weight_zero_point: fixed[4],
        finish: Finish { zero_point: fixed[5], low: fixed[6], high: fixed[7] },
        scaling: Scaling { shift: fixed[8], multiplier: four_bytes(fixed, 10) },
    };
    need((1..=256).contains(&full.outputs), 2)?;
    clamp_in_order(full.finish)?;
    scaling_in_range(full.scaling)?;
    Ok(full)
}

/// Tensor j has no range among the fields: whether it is there is a matter of shape.
fn add_fields(fixed: &[u8]) -> Result<Add, u8> {
    let add = Add {
        other: usize::from(fixed[2]),
        finish: Finish { zero_point: fixed[3], low: fixed[4], high: fixed[5] },
        first: Scaling { multiplier: four_bytes(fixed, 6), shift: fixed[18] },
        second: Scaling { multiplier: four_bytes(fixed, 10), shift: fixed[19] },
        third: Scaling { multiplier: four_bytes(fixed, 14), shift: fixed[20] },
    };
    clamp_in_order(add.finish)?;
    scaling_in_range(add.first)?;
    scaling_in_range(add.second)?;
    scaling_in_range(add.third)?;
    Ok(add)
}

fn clamp_in_order(finish: Finish) -> Result<(), u8> {
    need(finish.low <= finish.high, 2)
}

fn scaling_in_range(scaling: Scaling) -> Result<(), u8> {
    need((1 << 30..=(1u32 << 31) - 1).contains(&scaling.multiplier), 2)?;
    need(scaling.shift <= 31, 2)
}

/// The output's shape, with everything that number 3 may say about it.
fn shape(kind: &Kind, network: &Network) -> Result<Shape, u8> {
    let output = output_shape(kind, network)?;
    tensor_fits(output)?;
    all_tensors_fit(network, output)?;
    Ok(output)
}

pub fn output_shape(kind: &Kind, network: &Network) -> Result<Shape, u8> {
    let input = network.shape(network.layers.len());
    match kind {
        Kind::Conv(conv) => {
            let padded_rows = input.rows + 2 * conv.padding;
            let padded_columns = input.columns + 2 * conv.padding;
            need(padded_rows >= conv.kernel_rows, 3)?;
            need(padded_columns >= conv.kernel_columns, 3)?;
            Ok(Shape {
                rows: (padded_rows - conv.kernel_rows) / conv.stride + 1,
                columns: (padded_columns - conv.kernel_columns) / conv.stride + 1,
                channels: conv.filters,
            })
        }
        Kind::Full(full) => Ok(Shape { rows: 1, columns: 1, channels: full.outputs }),
        Kind::Add(add) => {
            // The tensors there are so far: 0 to k − 1.
            need(add.other < network.tensors(), 3)?;
            need(network.shape(add.other) == input, 3)?;
            Ok(input)
        }
    }
}

pub fn tensor_fits(shape: Shape) -> Result<(), u8> {
    need(shape.bytes() <= LARGEST_TENSOR, 3)
}

/// The tensors so far and the new one together.
pub fn all_tensors_fit(network: &Network, output: Shape) -> Result<(), u8> {
    need(network.area_bytes() + output.bytes() <= LARGEST_AREA, 3)
}

/// Biases and weights present, as one test: the bytes of the biases, then those of the weights.
pub fn body(rest: &[u8], mark: Mark, outputs: usize, terms: usize) -> Result<(&[u8], &[u8]), u8> {
    let after_fixed = &rest[mark.fixed_bytes()..];
    let body = after_fixed.get(..4 * outputs + outputs * terms).ok_or(1)?;
    Ok(body.split_at(4 * outputs))
}

pub fn biases_in_order(bytes: &[u8]) -> Result<Vec<i32>, u8> {
    let mut biases = Vec::new();
    for four in bytes.chunks_exact(4) {
        let bias = i32::from_le_bytes([four[0], four[1], four[2], four[3]]);
        need((-(1 << 30)..=1 << 30).contains(&bias), 2)?;
        biases.push(bias);
    }
    Ok(biases)
}
