//! Which rows are worked and what is counted, with a fault.

use second::{Network, State};

use super::{Fault, Wrong};

impl Wrong {
    /// Recomputes rows of all layers and gives the count.
    pub(super) fn recompute(self, network: &Network, sums: &[u32], area: &mut [u8], bands: &State) -> usize {
        let grown = self.grown(network, bands);
        let layers = if self.has(Fault::OnlyFirstLayer) { 1 } else { network.layers.len() };
        let mut count = 0;
        for k in 1..=layers {
            count += self.recompute_layer(network, k, sums, area, bands, &grown);
        }
        if self.has(Fault::PictureCounted) {
            count += bands[0].rows().len() * network.picture.row_bytes();
        }
        count
    }

    fn recompute_layer(
        self,
        network: &Network,
        k: usize,
        sums: &[u32],
        area: &mut [u8],
        bands: &State,
        grown: &State,
    ) -> usize {
        let layer = network.layer(k);
        let reached = self.reached(layer, k, grown);
        let mut count = 0;
        for row in 0..layer.output.rows {
            let in_band = grown[k].rows().contains(&row);
            let in_gap = in_band && !reached.contains(&row) && !bands[k].rows().contains(&row);
            let worked = match self.fault {
                Some(Fault::GapNotRecomputed) => in_band && !in_gap,
                Some(Fault::EverythingRecomputed) => true,
                Some(Fault::NothingRecomputed) => false,
                _ => in_band,
            };
            let counted = match self.fault {
                Some(Fault::GapNotRecomputed) => worked,
                Some(Fault::CountOfReachedRows) => reached.contains(&row),
                _ => in_band,
            };
            if worked {
                let bytes = self.compute_row(network, k, &network.split(area), &sums[network.sums_place(k)], row);
                let first = network.area_place(k).start + layer.output.index(row, 0, 0);
                area[first..first + bytes.len()].copy_from_slice(&bytes);
            }
            if counted {
                count += if self.has(Fault::RowsCounted) { 1 } else { layer.output.row_bytes() };
            }
        }
        count
    }
}
