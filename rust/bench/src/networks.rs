//! The networks that are measured: single layers, and three networks of several layers. The weights are drawn.

use samples::record::{add, conv, full, head, Conv, Scale};

/// A generator of bytes that gives the same ones in every run.
struct Draw(u64);

impl Draw {
    fn byte(&mut self) -> u8 {
        self.0 = self.0.wrapping_mul(6_364_136_223_846_793_005).wrapping_add(1_442_695_040_888_963_407);
        (self.0 >> 56) as u8
    }

    fn outputs(&mut self, count: usize, terms: usize) -> Vec<Vec<i8>> {
        (0..count).map(|_| (0..terms).map(|_| self.byte() as i8).collect()).collect()
    }
}

/// Picture bytes.
pub fn picture(count: usize) -> Vec<u8> {
    let mut draw = Draw(7);
    (0..count).map(|_| draw.byte()).collect()
}

const SCALE: Scale = Scale { multiplier: 1_500_000_000, shift: 8 };
const ADD: [Scale; 3] = [
    Scale { multiplier: 1 << 30, shift: 0 },
    Scale { multiplier: 1 << 30, shift: 0 },
    Scale { multiplier: 1 << 30, shift: 18 },
];

/// A layer of a network: a convolution (filters, kernel side, stride, padding), a full layer, an add with a tensor.
#[derive(Clone, Copy)]
pub enum Of {
    Conv(usize, u8, u8, u8),
    Full(usize),
    Add(u8),
}

pub struct Sample {
    pub name: &'static str,
    pub file: Vec<u8>,
}

fn network(name: &'static str, (rows, columns, channels): (usize, usize, usize), layers: &[Of]) -> Sample {
    let mut draw = Draw(1);
    let mut file = head(rows as u16, columns as u16, channels as u8, 128, layers.len() as u8);
    let (mut rows, mut columns, mut channels) = (rows, columns, channels);
    for &layer in layers {
        match layer {
            Of::Conv(filters, kernel, stride, padding) => {
                let side =
                    |length: usize| (length + 2 * usize::from(padding) - usize::from(kernel)) / usize::from(stride) + 1;
                let terms = usize::from(kernel) * usize::from(kernel) * channels;
                let fields = Conv { kernel, stride, padding, scale: SCALE };
                file.extend(conv(fields, &draw.outputs(filters, terms)));
                (rows, columns, channels) = (side(rows), side(columns), filters);
            }
            Of::Full(outputs) => {
                file.extend(full(SCALE, &draw.outputs(outputs, rows * columns * channels)));
                (rows, columns, channels) = (1, 1, outputs);
            }
            Of::Add(other) => file.extend(add(other, ADD)),
        }
    }
    Sample { name, file }
}

/// The shapes of a row's work, a layer each.
pub fn single_layers() -> Vec<Sample> {
    use Of::{Add, Conv, Full};
    vec![
        network("16 × 16 × 32, 3 × 3, 32 filters", (16, 16, 32), &[Conv(32, 3, 1, 1)]),
        network("32 × 32 × 16, 3 × 3, 16 filters", (32, 32, 16), &[Conv(16, 3, 1, 1)]),
        network("64 × 64 × 1, 3 × 3, 4 filters", (64, 64, 1), &[Conv(4, 3, 1, 1)]),
        network("64 × 64 × 3, 5 × 5, stride 2, 8 filters", (64, 64, 3), &[Conv(8, 5, 2, 2)]),
        network("16 × 16 × 64, 1 × 1, 64 filters", (16, 16, 64), &[Conv(64, 1, 1, 0)]),
        network("full, 4096 to 12", (16, 16, 16), &[Full(12)]),
        network("add, 32 × 32 × 16, with itself", (32, 32, 16), &[Add(0)]),
    ]
}

/// Networks of several layers.
pub fn whole_networks() -> Vec<Sample> {
    use Of::{Add, Conv, Full};
    vec![
        network(
            "4 layers, 64 × 64 × 1",
            (64, 64, 1),
            &[Conv(4, 3, 1, 1), Conv(8, 3, 2, 1), Conv(8, 3, 1, 1), Conv(1, 3, 2, 1)],
        ),
        network(
            "6 layers with an add, 64 × 32 × 2",
            (64, 32, 2),
            &[Conv(8, 3, 1, 1), Conv(8, 3, 2, 1), Conv(8, 3, 1, 1), Add(2), Conv(4, 3, 2, 1), Full(16)],
        ),
        network(
            "8 layers with two adds, 80 × 40 × 1",
            (80, 40, 1),
            &[
                Conv(3, 5, 1, 2),
                Conv(8, 3, 2, 1),
                Conv(8, 3, 1, 1),
                Add(2),
                Conv(8, 3, 1, 1),
                Add(4),
                Conv(1, 3, 1, 1),
                Conv(1, 1, 2, 0),
            ],
        ),
    ]
}
