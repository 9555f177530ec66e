//! Replacement records damaged in each way of test 9, for each layer of a network.

use super::Context;
use crate::calls::Call;
use crate::generate::network::{Style, SMALL};
use crate::generate::{damage, records, store};
use crate::lent::{Fenced, Lent};
use crate::pair::Difference;

const FEW_LAYERS: Style = Style { layers: (2, 4), fulls: 3, tensor_bytes: 100, work: 4_000, ..SMALL };

pub fn run(context: &mut Context) -> Result<(), Difference> {
    let file = context.draw(FEW_LAYERS);
    let network = second::decode(&file).expect("a network that is taken");
    let area = context.rng.bytes(network.area_bytes());
    let state = store::sound_state(context.rng, &network);
    let lent = Lent::new(&file, &network.true_sums(), &area, state);
    for (k, layer) in (1..).zip(&network.layers) {
        let good = records::replacement(context.rng, &file, layer);
        for record in damage::records(&good, layer) {
            let mut lent = lent.clone();
            lent.slice = Fenced::new(&record);
            context.pair.make(&mut lent, Call::ReplaceLayer { layer: k })?;
            if context.rng.one_in(10) {
                context.pair.make(&mut lent, Call::Update)?;
            }
        }
    }
    Ok(())
}
