//! What a network needs.

use crate::raw;
use crate::refusal::Refusal;

/// How large the buffers for a network have to be, just so, and how long its picture and its reading are.
#[derive(Clone, Copy, Debug, PartialEq, Eq)]
pub struct Sizes {
    /// The bytes of the picture.
    pub picture: usize,
    /// How many stored sums there are; none in a network of adds alone.
    pub sums: usize,
    /// The bytes of all tensors.
    pub area: usize,
    /// The bytes of the last tensor.
    pub reading: usize,
}

impl Sizes {
    /// Reads a network file as every call does; it may refuse with 1 to 3.
    pub fn of(network: &[u8]) -> Result<Sizes, Refusal> {
        let (number, sizes) = raw::sizes(network);
        Refusal::check(number)?;
        let [picture, sums, area, reading] = sizes.map(|size| size as usize);
        Ok(Sizes { picture, sums, area, reading })
    }
}
