//! Networks just at a limit and just beyond it, with the number that load and sizes have to give.

use super::history::History;
use super::Context;
use crate::calls::Call;
use crate::generate::numbers::Flavour::Plain;
use crate::generate::records::{add, conv, full, head, ConvShape};
use crate::lent::Lent;
use crate::pair::Difference;
use crate::rng::Rng;

type Network = fn(&mut Rng) -> Vec<u8>;

/// What it is, how it is written, and the number for it.
const NETWORKS: [(&str, Network, u8); 20] = [
    ("a picture of 16,384 bytes", |r| [head(256, 64, 1, 9, 1), add(r, Plain, 0)].concat(), 0),
    ("a picture of 16,385 bytes", |r| [head(113, 145, 1, 9, 1), add(r, Plain, 0)].concat(), 3),
    ("a tensor of 16,384 bytes", |r| grown(r, 127, 127), 0),
    ("a tensor of 16,385 bytes", |r| grown(r, 112, 144), 3),
    ("tensors of 65,536 bytes", |r| adds(r, 3), 0),
    ("tensors of 81,920 bytes", |r| adds(r, 4), 3),
    ("tensors of 65,536 bytes, the last ones small", |r| small_after_large(r, false), 0),
    ("tensors of 65,537 bytes", |r| small_after_large(r, true), 3),
    ("a file of 65,536 bytes", |r| full_file(r, 19, 84, 41), 0),
    ("a file of 65,536 bytes, with 152 outputs", |r| full_file(r, 152, 61, 7), 0),
    ("a file of 65,537 bytes", |r| [full_file(r, 19, 84, 41), vec![0]].concat(), 3),
    ("304 rows", growing, 0),
    ("256 outputs", |r| [head(2, 3, 4, 9, 1), full(r, Plain, 256, 24)].concat(), 0),
    ("12,544 terms of a convolution", |r| over_256_channels(r, 3), 0),
    ("a convolution over 256 channels, padded", |r| over_256_channels(r, 6), 0),
    ("sixteen layers, adds only", sixteen_adds, 0),
    ("the smallest file", |r| [head(1, 1, 1, 9, 1), full(r, Plain, 1, 1)].concat(), 0),
    ("a kernel as large as the padded side", |r| kernel(r, 3, 5, 7, 7, 2), 0),
    ("a kernel with a row too many", |r| kernel(r, 2, 7, 7, 7, 2), 3),
    ("a kernel with a column too many", |r| kernel(r, 7, 2, 7, 7, 2), 3),
];

/// One of them in each round.
pub fn run(context: &mut Context) -> Result<(), Difference> {
    let (name, network, expected) = NETWORKS[context.round % NETWORKS.len()];
    let file = network(context.rng);
    context.pair.tally.networks += 1;
    if expected == 0 {
        let mut history = History::begin(context, &file)?;
        history.update_and_read()?;
        history.change_rows()?;
        return history.update_and_read();
    }
    let mut lent = Lent::new(&file, &[0; 300], &[], [0; 34]);
    for call in [Call::Sizes, Call::Load] {
        let answer = context.pair.make(&mut lent, call)?;
        if answer.number != expected {
            let words = format!("both: {call} of {name}: number {}, but it has to be {expected}", answer.number);
            return Err(Difference { words });
        }
    }
    Ok(())
}

fn grown(rng: &mut Rng, rows: usize, columns: usize) -> Vec<u8> {
    [head(rows, columns, 1, 9, 1), conv(rng, Plain, ConvShape::growing(1, 2), 1)].concat()
}

fn adds(rng: &mut Rng, layers: usize) -> Vec<u8> {
    let mut file = head(128, 128, 1, 100, layers);
    for j in 0..layers {
        file.extend(add(rng, Plain, j));
    }
    file
}

/// Three tensors of 16,384 bytes and four of 4,096, and a byte more if asked for.
fn small_after_large(rng: &mut Rng, one_more: bool) -> Vec<u8> {
    let mut file = head(128, 128, 1, 100, if one_more { 7 } else { 6 });
    file.extend(add(rng, Plain, 0));
    file.extend(add(rng, Plain, 0));
    file.extend(conv(rng, Plain, ConvShape { stride: 2, ..ConvShape::dot(1) }, 1));
    for _ in 0..3 {
        file.extend(add(rng, Plain, 3));
    }
    if one_more {
        file.extend(full(rng, Plain, 1, 4_096));
    }
    file
}

fn full_file(rng: &mut Rng, outputs: usize, rows: usize, columns: usize) -> Vec<u8> {
    let file = [head(rows, columns, 1, 100, 1), full(rng, Plain, outputs, rows * columns)].concat();
    assert_eq!(file.len(), 65_536);
    file
}

/// Eight convolutions that each add six rows and columns: 256 × 1 to 304 × 49.
fn growing(rng: &mut Rng) -> Vec<u8> {
    let mut file = head(256, 1, 1, 100, 8);
    for _ in 0..8 {
        file.extend(conv(rng, Plain, ConvShape::growing(1, 7), 1));
    }
    file
}

fn over_256_channels(rng: &mut Rng, padding: usize) -> Vec<u8> {
    let mut file = head(1, 1, 1, 100, 2);
    file.extend(full(rng, Plain, 256, 1));
    file.extend(conv(rng, Plain, ConvShape { padding, ..ConvShape::growing(5, 7) }, 256));
    file
}

fn sixteen_adds(rng: &mut Rng) -> Vec<u8> {
    let mut file = head(3, 2, 5, 100, 16);
    for k in 1..=16 {
        let j = rng.below(k);
        file.extend(add(rng, Plain, j));
    }
    file
}

fn kernel(rng: &mut Rng, rows: usize, columns: usize, kernel_rows: usize, kernel_columns: usize, p: usize) -> Vec<u8> {
    let shape = ConvShape { filters: 2, kernel_rows, kernel_columns, stride: 1, padding: p };
    [head(rows, columns, 1, 100, 1), conv(rng, Plain, shape, 1)].concat()
}
