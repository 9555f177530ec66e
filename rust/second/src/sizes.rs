//! How large the buffers for a network file have to be, and how long its picture and its reading are.

use crate::decode::decode;

/// The number of tests 1 to 3, and the four sizes; all of these are 0 where the file is refused.
#[derive(Clone, Copy, Debug, Default, PartialEq, Eq)]
pub struct Sizes {
    pub number: u8,
    /// The bytes of tensor 0.
    pub picture: usize,
    /// How many stored sums the network has.
    pub sums: usize,
    /// The bytes of all tensors.
    pub area: usize,
    /// The bytes of the last tensor.
    pub reading: usize,
}

pub fn sizes(file: &[u8]) -> Sizes {
    match decode(file) {
        Ok(network) => Sizes {
            number: 0,
            picture: network.picture.bytes(),
            sums: network.sums_needed(),
            area: network.area_bytes(),
            reading: network.shape(network.layers.len()).bytes(),
        },
        Err(number) => Sizes { number, ..Sizes::default() },
    }
}

impl Sizes {
    /// The four sizes as the C interface has them.
    pub fn to_numbers(self) -> [u32; 4] {
        [self.picture, self.sums, self.area, self.reading]
            .map(|size| u32::try_from(size).expect("no network needs so much"))
    }
}
