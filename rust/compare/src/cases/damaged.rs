//! Damaged network files: one and two faults in every record and field, cut at every place, bytes changed, too long.

use second::Network;

use super::Context;
use crate::calls::Call;
use crate::generate::damage::{self, Damage};
use crate::generate::network::{Style, SMALL};
use crate::generate::numbers::Flavour;
use crate::generate::records::{self, ConvShape};
use crate::generate::store;
use crate::lent::{Fenced, Lent};
use crate::pair::Difference;

/// A file that is taken, what it says, and buffers that go with it.
struct Good {
    file: Vec<u8>,
    network: Network,
    lent: Lent,
}

impl Good {
    fn draw(context: &mut Context, layers: usize) -> Good {
        let style = Style { layers: (1, layers), fulls: 4, ..SMALL };
        let file = context.draw(style);
        let network = second::decode(&file).expect("a network that is taken");
        // Room to spare: a damaged network may need more and still be taken.
        let area = context.rng.bytes(2 * network.area_bytes());
        let mut sums = network.true_sums();
        sums.extend([0; 64]);
        let state = store::sound_state(context.rng, &network);
        let lent = Lent::new(&file, &sums, &area, state);
        Good { file, network, lent }
    }

    /// Load over the damaged file, often sizes, and sometimes another call: all of them test the network.
    fn try_damaged(&self, context: &mut Context, damages: &[Damage]) -> Result<(), Difference> {
        let damaged = damage::damaged(&self.file, damages);
        try_file(context, &self.lent, &damaged)
    }
}

fn try_file(context: &mut Context, good: &Lent, file: &[u8]) -> Result<(), Difference> {
    let mut lent = good.clone();
    lent.network = Fenced::new(file);
    context.pair.make(&mut lent.clone(), Call::Load)?;
    if context.rng.one_in(2) {
        context.pair.make(&mut lent, Call::Sizes)?;
    }
    if context.rng.one_in(4) {
        lent.slice = Fenced::new(&context.rng.bytes(4));
        let call = context.rng.pick(&[
            Call::ChangeRows { first: 0, count: 1 },
            Call::ReplaceLayer { layer: 1 },
            Call::Update,
            Call::Read,
        ]);
        context.pair.make(&mut lent, call)?;
    }
    Ok(())
}

/// Every value of every field of every record.
pub fn single_faults(context: &mut Context) -> Result<(), Difference> {
    let good = Good::draw(context, 3);
    for damage in damage::single(&damage::fields(&good.network)) {
        good.try_damaged(context, &[damage])?;
    }
    Ok(())
}

pub fn double_faults(context: &mut Context) -> Result<(), Difference> {
    let good = Good::draw(context, 4);
    let fields = damage::fields(&good.network);
    for _ in 0..100 {
        let damages = damage::double(context.rng, &good.network, &fields);
        good.try_damaged(context, &damages)?;
    }
    Ok(())
}

/// A file cut at every place; a longer one, at places near the ends of its parts.
pub fn cuts(context: &mut Context) -> Result<(), Difference> {
    let good = Good::draw(context, 3);
    if good.file.len() <= 250 {
        for length in 0..good.file.len() {
            good.try_damaged(context, &[Damage::Cut(length)])?;
        }
    } else {
        for _ in 0..100 {
            let cut = damage::cut(context.rng, &good.network);
            good.try_damaged(context, &[cut])?;
        }
    }
    let trail = damage::trail(context.rng);
    good.try_damaged(context, &[trail])
}

pub fn any_bytes(context: &mut Context) -> Result<(), Difference> {
    let good = Good::draw(context, 4);
    for _ in 0..60 {
        let count = context.rng.within(1, 3);
        let damages: Vec<Damage> = (0..count).map(|_| damage::any_byte(context.rng, good.file.len())).collect();
        good.try_damaged(context, &damages)?;
    }
    Ok(())
}

/// A picture too big, or far too big, before a layer with any fault: the picture decides.
pub fn picture_too_big(context: &mut Context) -> Result<(), Difference> {
    for _ in 0..12 {
        let (rows, columns, channels) = context.rng.pick(&[
            (128, 129, 1),
            (256, 256, 1),
            (256, 256, 64),
            (17, 16, 64),
            (128, 128, 1),
            (256, 1, 64),
        ]);
        let mut file = records::head(rows, columns, channels, 0, 1);
        match context.rng.below(4) {
            0 => {}
            1 => file.extend(context.rng.bytes(12)),
            2 => file.extend(records::add(context.rng, Flavour::Plain, 1)),
            _ => {
                file.extend(records::add(context.rng, Flavour::Plain, 0));
                let at = context.rng.within(10, 31);
                file[at] = context.rng.byte();
            }
        }
        let lent = Lent::new(&file, &[], &[], [0; 34]);
        try_file(context, &lent, &file)?;
    }
    Ok(())
}

/// Tensors of 16,384 bytes one after another: the fourth layer passes 65,536. What else is wrong in its record or
/// after it does not matter; what is wrong before it does.
pub fn overfull(context: &mut Context) -> Result<(), Difference> {
    let layers = context.rng.within(3, 8);
    let mut parts = vec![records::head(128, 128, 1, context.rng.byte(), layers)];
    for k in 1..=layers {
        let record = match context.rng.below(2) {
            0 => records::conv(context.rng, Flavour::Edges, ConvShape::dot(1), 1),
            _ => records::add(context.rng, Flavour::Edges, k - 1),
        };
        parts.push(record);
    }
    let whole = parts.concat();
    let lent = Lent::new(&whole, &[0; 16], &[], [0; 34]);
    for _ in 0..30 {
        let mut file = whole.clone();
        let after_third: usize = parts[..4].iter().map(Vec::len).sum();
        match context.rng.below(4) {
            0 => file.truncate(context.rng.within(after_third, whole.len())),
            1 => file.push(0),
            _ => {}
        }
        // Within the fourth layer's record as often as anywhere after the head.
        let start = if context.rng.one_in(2) { after_third } else { 10 };
        let end = file.len().min(start + 21);
        if start < end {
            let at = context.rng.within(start, end - 1);
            file[at] = context.rng.byte();
        }
        try_file(context, &lent, &file)?;
    }
    Ok(())
}

/// File length is tested first, whatever stands in the file.
pub fn too_long(context: &mut Context) -> Result<(), Difference> {
    let good = Good::draw(context, 3);
    for length in [65_535, 65_536, 65_537, 65_538, 70_000] {
        let mut trailing = good.file.clone();
        trailing.resize(length, 0);
        try_file(context, &good.lent, &trailing)?;
        let bytes = context.rng.bytes(length);
        try_file(context, &good.lent, &bytes)?;
        trailing[context.rng.below(40)] ^= 0xFF;
        try_file(context, &good.lent, &trailing)?;
    }
    Ok(())
}
