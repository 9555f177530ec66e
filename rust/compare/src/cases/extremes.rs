//! The greatest numbers of terms with bytes, weights, zero-points, biases and sums at their ends, where totals come
//! nearest to the bound.

use super::Context;
use crate::calls::Call;
use crate::generate::numbers::{patterned, Flavour, GREATEST_BIAS};
use crate::generate::records::{self, ConvShape};
use crate::generate::store;
use crate::lent::{Fenced, Lent};
use crate::pair::Difference;
use crate::rng::Rng;

const BOTH_ENDS: &[u8] = &[0, 255];
/// With bytes, weights and zero-points all 255 a total's parts are greatest.
const HIGH_END: &[u8] = &[255];

pub fn run(context: &mut Context) -> Result<(), Difference> {
    for _ in 0..8 {
        let ends = if context.rng.one_in(4) { HIGH_END } else { BOTH_ENDS };
        let file = file(context.rng, ends);
        context.pair.tally.networks += 1;
        let network = second::decode(&file).expect("a network that is taken");
        let sums =
            if context.rng.one_in(2) { network.true_sums() } else { store::possible_sums(context.rng, &network) };
        let area = end_bytes(context.rng, ends, network.area_bytes());
        let mut lent = Lent::new(&file, &sums, &area, [0; 34]);
        if context.rng.one_in(2) {
            context.pair.make(&mut lent, Call::Load)?;
        } else {
            lent.state = store::sound_state(context.rng, &network);
        }
        context.pair.make(&mut lent, Call::Update)?;
        let length = network.shape(network.layers.len()).bytes();
        lent.slice = Fenced::new(&vec![0; length]);
        context.pair.make(&mut lent, Call::Read)?;
    }
    Ok(())
}

/// Mostly all bytes the same, so that no product cancels another.
fn end_bytes(rng: &mut Rng, ends: &[u8], length: usize) -> Vec<u8> {
    if ends == BOTH_ENDS && rng.one_in(3) {
        patterned(rng, length)
    } else {
        vec![rng.pick(ends); length]
    }
}

/// One layer with many terms and numbers at their ends.
fn file(rng: &mut Rng, ends: &[u8]) -> Vec<u8> {
    let zero_point = rng.pick(ends);
    let (rows, columns, channels) = rng.pick(&[(128, 128, 1), (16, 16, 64), (256, 64, 1), (7, 7, 64), (20, 30, 3)]);
    let head = records::head(rows, columns, channels, zero_point, 1);
    let record =
        if (rows, columns) == (7, 7) { conv(rng, ends, channels) } else { full(rng, ends, rows * columns * channels) };
    [head, record].concat()
}

fn conv(rng: &mut Rng, ends: &[u8], channels: usize) -> Vec<u8> {
    let shape = ConvShape { filters: 2, kernel_rows: 7, kernel_columns: 7, stride: 4, padding: 2 };
    let mut record = records::conv(rng, Flavour::Edges, shape, channels);
    let fixed = Fixed { weight_zero_point: 7, finish: 8, shift: 11, biases: 16 };
    to_the_ends(rng, ends, &mut record, fixed, shape.filters);
    record
}

fn full(rng: &mut Rng, ends: &[u8], input_bytes: usize) -> Vec<u8> {
    let outputs = rng.within(1, 3);
    let mut record = records::full(rng, Flavour::Edges, outputs, input_bytes);
    let fixed = Fixed { weight_zero_point: 4, finish: 5, shift: 8, biases: 14 };
    to_the_ends(rng, ends, &mut record, fixed, outputs);
    record
}

/// Where fields stand in a record.
struct Fixed {
    weight_zero_point: usize,
    /// Output zero-point, low, high.
    finish: usize,
    shift: usize,
    biases: usize,
}

/// Numbers at their ends, but with an output that shows them.
fn to_the_ends(rng: &mut Rng, ends: &[u8], record: &mut [u8], fixed: Fixed, outputs: usize) {
    record[fixed.weight_zero_point] = rng.pick(ends);
    record[fixed.finish..fixed.finish + 3].copy_from_slice(&[128, 0, 255]);
    // A total near 2^31 comes down to a byte with 23 or 24, and to 1 with 31.
    record[fixed.shift] = rng.pick(&[0, 22, 23, 24, 30, 31]);
    let bias = rng.pick(&[GREATEST_BIAS, -GREATEST_BIAS]);
    let weights = fixed.biases + 4 * outputs;
    for at in (fixed.biases..weights).step_by(4) {
        record[at..at + 4].copy_from_slice(&bias.to_le_bytes());
    }
    let bytes = end_bytes(rng, ends, record.len() - weights);
    record[weights..].copy_from_slice(&bytes);
}
