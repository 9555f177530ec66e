//! Records of the network file, written from shapes and drawn numbers.

use second::{Kind, Layer};

use super::numbers::{self, Flavour};
use crate::rng::Rng;

/// The fields of a convolution that make its shape.
#[derive(Clone, Copy, Debug)]
pub struct ConvShape {
    pub filters: usize,
    pub kernel_rows: usize,
    pub kernel_columns: usize,
    pub stride: usize,
    pub padding: usize,
}

impl ConvShape {
    /// One weight for each channel of the input.
    pub fn dot(filters: usize) -> ConvShape {
        ConvShape { filters, kernel_rows: 1, kernel_columns: 1, stride: 1, padding: 0 }
    }

    /// A square kernel with stride 1 and the most padding there may be: each side grows by the kernel's less 1.
    pub fn growing(filters: usize, kernel: usize) -> ConvShape {
        ConvShape { filters, kernel_rows: kernel, kernel_columns: kernel, stride: 1, padding: kernel - 1 }
    }
}

pub fn head(rows: usize, columns: usize, channels: usize, zero_point: u8, layers: usize) -> Vec<u8> {
    let mut bytes = vec![0x4E, 0x48];
    bytes.extend((rows as u16).to_le_bytes());
    bytes.extend((columns as u16).to_le_bytes());
    bytes.extend([channels as u8, zero_point, layers as u8, 0]);
    bytes
}

/// A convolution over an input with so many channels.
pub fn conv(rng: &mut Rng, flavour: Flavour, shape: ConvShape, channels: usize) -> Vec<u8> {
    let ConvShape { filters, kernel_rows, kernel_columns, stride, padding } = shape;
    let kept = [0x43, 0x56, filters as u8, kernel_rows as u8, kernel_columns as u8, stride as u8, padding as u8];
    let terms = kernel_rows * kernel_columns * channels;
    let mut record = kept.to_vec();
    record.extend(conv_rest(rng, flavour, filters, terms));
    record
}

/// What follows the bytes that a replacement keeps: zero-points, clamp, shift, multiplier, biases, weights.
fn conv_rest(rng: &mut Rng, flavour: Flavour, filters: usize, terms: usize) -> Vec<u8> {
    let (low, high) = numbers::clamp(rng, flavour);
    let v = numbers::zero_point(rng, flavour);
    let zero_point = numbers::zero_point(rng, flavour);
    let mut rest = vec![v, zero_point, low, high, numbers::shift(rng, flavour, terms)];
    rest.extend(numbers::multiplier(rng, flavour).to_le_bytes());
    rest.extend(body(rng, flavour, v, filters, terms));
    rest
}

/// Biases, and weights with zero-point `v`.
fn body(rng: &mut Rng, flavour: Flavour, v: u8, outputs: usize, terms: usize) -> Vec<u8> {
    let mut bytes: Vec<u8> = (0..outputs).flat_map(|_| numbers::bias(rng, flavour).to_le_bytes()).collect();
    bytes.extend(numbers::weights(rng, flavour, v, outputs * terms));
    bytes
}

/// A full layer over an input of so many bytes.
pub fn full(rng: &mut Rng, flavour: Flavour, outputs: usize, input_bytes: usize) -> Vec<u8> {
    let mut record = vec![0x46, 0x55];
    record.extend((outputs as u16).to_le_bytes());
    record.extend(full_rest(rng, flavour, outputs, input_bytes));
    record
}

fn full_rest(rng: &mut Rng, flavour: Flavour, outputs: usize, terms: usize) -> Vec<u8> {
    let (low, high) = numbers::clamp(rng, flavour);
    let v = numbers::zero_point(rng, flavour);
    let zero_point = numbers::zero_point(rng, flavour);
    let mut rest = vec![v, zero_point, low, high, numbers::shift(rng, flavour, terms), 0];
    rest.extend(numbers::multiplier(rng, flavour).to_le_bytes());
    rest.extend(body(rng, flavour, v, outputs, terms));
    rest
}

pub fn add(rng: &mut Rng, flavour: Flavour, j: usize) -> Vec<u8> {
    let mut record = vec![0x41, 0x44, j as u8];
    record.extend(add_rest(rng, flavour));
    record
}

fn add_rest(rng: &mut Rng, flavour: Flavour) -> Vec<u8> {
    let (low, high) = numbers::clamp(rng, flavour);
    let mut rest = vec![numbers::zero_point(rng, flavour), low, high];
    for _ in 0..3 {
        rest.extend(numbers::multiplier(rng, flavour).to_le_bytes());
    }
    rest.extend(numbers::add_shifts(rng, flavour));
    rest.push(0);
    rest
}

/// How many bytes at the beginning of a record a replacement has to keep.
pub fn kept_bytes(kind: &Kind) -> usize {
    match kind {
        Kind::Conv(_) => 7,
        Kind::Full(_) => 4,
        Kind::Add(_) => 3,
    }
}

/// A record that may replace that of `layer`, which stands in `file`.
pub fn replacement(rng: &mut Rng, file: &[u8], layer: &Layer) -> Vec<u8> {
    let old = &file[layer.place.clone()];
    let flavour = numbers::flavour(rng);
    let rest = match &layer.kind {
        Kind::Conv(conv) => conv_rest(rng, flavour, conv.filters, layer.terms()),
        Kind::Full(full) => full_rest(rng, flavour, full.outputs, layer.terms()),
        Kind::Add(_) => add_rest(rng, flavour),
    };
    [&old[..kept_bytes(&layer.kind)], &rest].concat()
}
