//! The network file, with a fault.

use second::decode::{
    all_tensors_fit, biases_in_order, body, fields, file_length, fixed_part, head_fields, head_fixed_part, head_spare,
    nothing_trails, output_shape, spare, tensor_fits, Mark, HEAD_BYTES, LARGEST_AREA,
};
use second::{Kind, Layer, Network, Shape};

use super::{Fault, Wrong};

impl Wrong {
    pub(super) fn decode(self, file: &[u8]) -> Result<Network, u8> {
        if !self.has(Fault::LengthTestedLast) {
            file_length(file)?;
        }
        let (network, end) = self.records(file)?;
        if network.area_bytes() > LARGEST_AREA {
            return Err(3); // reached only with AllTensorsTestedAtEnd
        }
        nothing_trails(file, end)?;
        file_length(file)?;
        Ok(network)
    }

    /// The network, and where its last record ends.
    pub(super) fn records(self, file: &[u8]) -> Result<(Network, usize), u8> {
        let (mut network, layers) = self.head(file)?;
        let mut at = HEAD_BYTES;
        for k in 1..=layers {
            let layer = self.layer(file, at, &network, k == layers)?;
            at = layer.place.end;
            network.layers.push(layer);
        }
        Ok((network, at))
    }

    /// A network without layers yet, and how many it is to have.
    pub(super) fn head(self, file: &[u8]) -> Result<(Network, usize), u8> {
        let fixed = head_fixed_part(file)?;
        if !self.has(Fault::SpareAfterFields) {
            head_spare(fixed)?;
        }
        let head = head_fields(fixed)?;
        head_spare(fixed)?;
        if !self.has(Fault::PictureSizeTestedLate) {
            tensor_fits(head.picture)?;
        }
        let network = Network { picture: head.picture, picture_zero_point: head.zero_point, layers: Vec::new() };
        Ok((network, head.layers))
    }

    fn layer(self, file: &[u8], at: usize, network: &Network, last: bool) -> Result<Layer, u8> {
        let rest = &file[at..];
        let (mark, fixed) = fixed_part(rest)?;
        if !self.has(Fault::SpareAfterFields) {
            spare(mark, fixed)?;
        }
        if self.has(Fault::ShapeOfAddBeforeFields) && mark == Mark::Add {
            other_tensor_fits(fixed, network)?;
        }
        let kind = self.fields(mark, fixed)?;
        spare(mark, fixed)?;
        let output = self.shape(&kind, network)?;
        let input = network.shape(network.layers.len());
        if self.has(Fault::BiasesBeforeWeightsPresent) {
            let there = &rest[fixed.len()..];
            biases_in_order(&there[..there.len().min(4 * kind.outputs())])?;
        }
        let (biases, weights) = body(rest, mark, kind.outputs(), kind.terms(input))?;
        let end = at + fixed.len() + biases.len() + weights.len();
        if last && self.has(Fault::TrailingBeforeBiases) {
            nothing_trails(file, end)?;
        }
        let biases = self.biases(biases)?;
        Ok(Layer { input, output, kind, biases, weights: weights.to_vec(), place: at..end })
    }

    pub(super) fn fields(self, mark: Mark, fixed: &[u8]) -> Result<Kind, u8> {
        let mut bytes = fixed.to_vec();
        if self.has(Fault::ClampOrderNotTested) {
            put_clamp_in_order(mark, &mut bytes);
        }
        self.bring_into_range(mark, &mut bytes);
        fields(mark, &bytes)
    }

    /// A field just beyond its range becomes the end of it.
    fn bring_into_range(self, mark: Mark, fixed: &mut [u8]) {
        let mut bring = |fault, at: usize, beyond: &[u8], end: &[u8]| {
            if self.has(fault) && fixed[at..].starts_with(beyond) {
                fixed[at..at + end.len()].copy_from_slice(end);
            }
        };
        let below = ((1u32 << 30) - 1).to_le_bytes();
        let least = (1u32 << 30).to_le_bytes();
        let greatest = ((1u32 << 31) - 1).to_le_bytes();
        let above = (1u32 << 31).to_le_bytes();
        match mark {
            Mark::Conv => {
                bring(Fault::FiltersOf65Taken, 2, &[65], &[64]);
                bring(Fault::KernelOf8Taken, 3, &[8], &[7]);
                bring(Fault::StrideOf5Taken, 5, &[5], &[4]);
                bring(Fault::ShiftOf32Taken, 11, &[32], &[31]);
                bring(Fault::MultiplierBelowTaken, 12, &below, &least);
                bring(Fault::MultiplierAboveTaken, 12, &above, &greatest);
                let smaller_side = fixed[3].min(fixed[4]);
                if self.has(Fault::PaddingOfKernelTaken) && fixed[6] == smaller_side && smaller_side > 0 {
                    fixed[6] -= 1;
                }
            }
            Mark::Full => bring(Fault::OutputsOf257Taken, 2, &257u16.to_le_bytes(), &256u16.to_le_bytes()),
            Mark::Add => {}
        }
    }

    fn shape(self, kind: &Kind, network: &Network) -> Result<Shape, u8> {
        let k = network.layers.len() + 1;
        let input = network.shape(k - 1);
        if self.has(Fault::PictureSizeTestedLate) && k == 1 {
            tensor_fits(network.picture)?;
        }
        match kind {
            Kind::Conv(conv) => {
                let unpadded = input.rows < conv.kernel_rows || input.columns < conv.kernel_columns;
                if self.has(Fault::KernelAgainstUnpaddedSide) && unpadded {
                    return Err(3);
                }
                if self.has(Fault::MoreThan64ChannelsRefused) && input.channels > 64 {
                    return Err(3);
                }
            }
            Kind::Full(_) => {}
            Kind::Add(add) => {
                if self.has(Fault::OtherTensorIsAField) && add.other >= k {
                    return Err(2);
                }
                if self.has(Fault::AddOfItselfRefused) && add.other == k - 1 {
                    return Err(3);
                }
            }
        }
        let output = output_shape(kind, network)?;
        if self.has(Fault::MoreThan256RowsRefused) && output.rows > 256 {
            return Err(3);
        }
        tensor_fits(output)?;
        if !self.has(Fault::AllTensorsTestedAtEnd) {
            all_tensors_fit(network, output)?;
        }
        Ok(output)
    }

    pub(super) fn biases(self, bytes: &[u8]) -> Result<Vec<i32>, u8> {
        if !self.has(Fault::BiasOneMore) {
            return biases_in_order(bytes);
        }
        let greatest = (1 << 30) + 1;
        let bias = |four: &[u8]| i32::from_le_bytes([four[0], four[1], four[2], four[3]]);
        let biases: Vec<i32> = bytes.chunks_exact(4).map(bias).collect();
        if biases.iter().all(|bias| (-greatest..=greatest).contains(bias)) {
            Ok(biases)
        } else {
            Err(2)
        }
    }
}

fn other_tensor_fits(fixed: &[u8], network: &Network) -> Result<(), u8> {
    let other = usize::from(fixed[2]);
    let there = other < network.tensors() && network.shape(other) == network.shape(network.layers.len());
    if there {
        Ok(())
    } else {
        Err(3)
    }
}

/// Swaps low and high where low is above high.
pub(super) fn put_clamp_in_order(mark: Mark, fixed: &mut [u8]) {
    let low = match mark {
        Mark::Conv => 9,
        Mark::Full => 6,
        Mark::Add => 4,
    };
    if fixed[low] > fixed[low + 1] {
        fixed.swap(low, low + 1);
    }
}
