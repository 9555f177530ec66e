//! A network with the buffers it needs, owned.

use crate::raw::{self, State};
use crate::refusal::Refusal;
use crate::sizes::Sizes;

/// One network, its picture and everything kept between calls.
///
/// Nothing changes the buffers but the calls, and the caller through `picture_mut` while everything is stale: so each
/// accepted reading is that of a fresh run over the present network and picture.
#[derive(Clone, Debug)]
pub struct Joiner {
    network: Vec<u8>,
    sums: Vec<u32>,
    area: Vec<u8>,
    state: State,
    sizes: Sizes,
    /// The state that load gave: every row of every tensor is stale.
    loaded: State,
}

impl Joiner {
    /// Takes a network file, with the picture all 0 and everything stale.
    pub fn load(network: Vec<u8>) -> Result<Joiner, Refusal> {
        let sizes = Sizes::of(&network)?;
        let mut sums = vec![0; sizes.sums];
        let area = vec![0; sizes.area];
        let mut loaded = [0; 34];
        Refusal::check(raw::load(&network, &mut sums, &area, &mut loaded))?;
        Ok(Joiner { network, sums, area, state: loaded, sizes, loaded })
    }

    /// The picture, to be written by row, column, channel, as long as every row of every tensor is stale: after `load`
    /// and before the first update. Later there is [`change_rows`](Joiner::change_rows), which marks what it writes.
    pub fn picture_mut(&mut self) -> Option<&mut [u8]> {
        let everything_stale = self.state == self.loaded;
        everything_stale.then(|| &mut self.area[..self.sizes.picture])
    }

    /// How many bytes the picture has.
    pub fn picture_len(&self) -> usize {
        self.sizes.picture
    }

    /// Writes picture rows `first` to `first + count − 1`.
    pub fn change_rows(&mut self, first: usize, count: usize, rows: &[u8]) -> Result<(), Refusal> {
        Refusal::check(raw::change_rows(&self.network, &self.sums, &mut self.area, &mut self.state, first, count, rows))
    }

    /// Replaces the record of a layer, counted from 1, by one of the same length and shape.
    pub fn replace_layer(&mut self, layer: usize, record: &[u8]) -> Result<(), Refusal> {
        Refusal::check(raw::replace_layer(
            &mut self.network,
            &mut self.sums,
            &self.area,
            &mut self.state,
            layer,
            record,
        ))
    }

    /// Recomputes what follows from the changes since the last update: how many bytes that were.
    pub fn update(&mut self) -> Result<u32, Refusal> {
        let (number, count) = raw::update(&self.network, &self.sums, &mut self.area, &mut self.state);
        Refusal::check(number).map(|()| count)
    }

    /// The last tensor.
    pub fn reading(&self) -> Result<Vec<u8>, Refusal> {
        let mut out = vec![0; self.sizes.reading];
        self.read(&mut out)?;
        Ok(out)
    }

    /// How many bytes a reading has.
    pub fn reading_len(&self) -> usize {
        self.sizes.reading
    }

    /// Copies the last tensor to a slice of just its length.
    pub fn read(&self, out: &mut [u8]) -> Result<(), Refusal> {
        Refusal::check(raw::read(&self.network, &self.sums, &self.area, &self.state, out))
    }

    /// The network file as it is now, with the layers replaced.
    pub fn network(&self) -> &[u8] {
        &self.network
    }
}
