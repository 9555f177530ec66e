//! The call sizes, with a fault.

use second::decode::{file_length, nothing_trails};
use second::{Kind, Layer, Network};

use super::{Fault, Wrong};
use crate::calls::Sizes;

impl Wrong {
    /// Tests 1 to 3 as sizes makes them.
    pub(super) fn decode_for_sizes(self, file: &[u8]) -> Result<Network, u8> {
        let reader = match self.fault {
            Some(Fault::SizesOfAnyArea) => Wrong { fault: Some(Fault::AllTensorsTestedAtEnd) },
            Some(Fault::SizesTakeABiasOneMore) => Wrong { fault: Some(Fault::BiasOneMore) },
            Some(Fault::SizesOfALongFile | Fault::SizesWithoutTrailingBytes) => self,
            _ => return self.decode(file),
        };
        if !self.has(Fault::SizesOfALongFile) {
            file_length(file)?;
        }
        let (network, end) = reader.records(file)?;
        if !self.has(Fault::SizesWithoutTrailingBytes) {
            nothing_trails(file, end)?;
        }
        Ok(network)
    }

    pub(super) fn sizes_of(self, network: &Network) -> Sizes {
        let last = network.layers.len();
        let picture = match self.fault {
            Some(Fault::SizesOfOneChannel) => network.picture.rows * network.picture.columns,
            _ => network.picture.bytes(),
        };
        let area = match self.fault {
            Some(Fault::SizesOfAreaWithoutPicture) => network.area_bytes() - network.picture.bytes(),
            _ => network.area_bytes(),
        };
        let reading = match self.fault {
            Some(Fault::SizesOfReadingBeforeLast) => network.shape(last - 1).bytes(),
            Some(Fault::SizesOfReadingOneRow) => network.shape(last).row_bytes(),
            _ => network.shape(last).bytes(),
        };
        let sums = network.layers.iter().map(|layer| self.sums_of(layer)).sum();
        [picture, sums, area, reading].map(|size: usize| match self.fault {
            Some(Fault::SizesIn16Bits) => u32::from(size as u16),
            _ => size as u32,
        })
    }

    fn sums_of(self, layer: &Layer) -> usize {
        match (self.fault, &layer.kind) {
            (Some(Fault::SizesCountASumForAnAdd), Kind::Add(_)) => 1,
            (Some(Fault::SizesForgetSumsOfFull), Kind::Full(_)) => 0,
            (Some(Fault::SizesOfSumsInBytes), kind) => 4 * kind.outputs(),
            (_, kind) => kind.outputs(),
        }
    }

    /// What it gives beside a refusal.
    pub(super) fn refused_sizes(self, file: &[u8]) -> Sizes {
        match (self.fault, self.head(file)) {
            (Some(Fault::RefusedSizesGivePicture), Ok((network, _))) => [network.picture.bytes() as u32, 0, 0, 0],
            (Some(Fault::RefusedSizesLeft), _) => [u32::MAX; 4],
            _ => [0; 4],
        }
    }
}
