//! Records of the network file, with the numbers given.

/// A multiplier and its shift: the number that they stand for is multiplier / 2^(31 + shift).
#[derive(Clone, Copy)]
pub struct Scale {
    pub multiplier: u32,
    pub shift: u8,
}

/// What a convolution's fields say, but for its scale.
pub struct Conv {
    pub kernel: u8,
    pub stride: u8,
    pub padding: u8,
    pub scale: Scale,
}

/// The weights' zero-point here: a weight byte stands for itself less 128.
const WEIGHT_ZERO: u8 = 128;

pub fn head(rows: u16, columns: u16, channels: u8, zero_point: u8, layers: u8) -> Vec<u8> {
    let mut bytes = vec![0x4E, 0x48];
    bytes.extend(rows.to_le_bytes());
    bytes.extend(columns.to_le_bytes());
    bytes.extend([channels, zero_point, layers, 0]);
    bytes
}

/// A convolution with a list of signed weights for each filter, no bias, output zero-point 0 and the whole clamp.
pub fn conv(fields: Conv, filters: &[Vec<i8>]) -> Vec<u8> {
    let Conv { kernel, stride, padding, scale } = fields;
    let mut bytes = vec![0x43, 0x56, filters.len() as u8, kernel, kernel, stride, padding, WEIGHT_ZERO, 0, 0, 255];
    bytes.push(scale.shift);
    bytes.extend(scale.multiplier.to_le_bytes());
    bytes.extend(outputs(filters));
    bytes
}

/// A full layer likewise.
pub fn full(scale: Scale, rows: &[Vec<i8>]) -> Vec<u8> {
    let mut bytes = vec![0x46, 0x55];
    bytes.extend((rows.len() as u16).to_le_bytes());
    bytes.extend([WEIGHT_ZERO, 0, 0, 255, scale.shift, 0]);
    bytes.extend(scale.multiplier.to_le_bytes());
    bytes.extend(outputs(rows));
    bytes
}

/// An add with tensor `other`.
pub fn add(other: u8, scales: [Scale; 3]) -> Vec<u8> {
    let mut bytes = vec![0x41, 0x44, other, 0, 0, 255];
    for scale in scales {
        bytes.extend(scale.multiplier.to_le_bytes());
    }
    bytes.extend(scales.map(|scale| scale.shift));
    bytes.push(0);
    bytes
}

/// Biases of 0, and the weights.
fn outputs(weights: &[Vec<i8>]) -> Vec<u8> {
    let mut bytes = vec![0; 4 * weights.len()];
    for output in weights {
        bytes.extend(output.iter().map(|&weight| (i16::from(weight) + i16::from(WEIGHT_ZERO)) as u8));
    }
    bytes
}
