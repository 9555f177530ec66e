//! Honest histories: from an accepted load, always the latest state and the same buffers, changed by nothing else but
//! a picture written before the first update. Each accepted reading has to be the last tensor of a fresh run, and all
//! sums the true ones.

use second::Network;

use super::Context;
use crate::calls::{Answer, Call, Sizes, State};
use crate::generate::damage;
use crate::generate::network::Style;
use crate::generate::{arguments, records, store};
use crate::lent::{Fenced, Lent};
use crate::pair::Difference;
use crate::rng::Rng;

pub fn run(context: &mut Context, style: Style) -> Result<(), Difference> {
    let file = context.draw(style);
    let mut history = History::begin(context, &file)?;
    for _ in 0..history.context.rng.within(20, 60) {
        history.step()?;
    }
    history.update_and_read()
}

pub struct History<'a, 'b, 'c> {
    context: &'a mut Context<'b, 'c>,
    lent: Lent,
    /// The present network, as the second implementation reads it.
    network: Network,
    /// What the last load gave: every row of every tensor is stale.
    loaded: State,
}

impl<'a, 'b, 'c> History<'a, 'b, 'c> {
    /// Loads a network that is taken, with buffers as large as the call sizes says, or larger. The area has any
    /// contents: the picture is whatever stands there.
    pub fn begin(context: &'a mut Context<'b, 'c>, file: &[u8]) -> Result<History<'a, 'b, 'c>, Difference> {
        let network = second::decode(file).expect("a network that is taken");
        let state = std::array::from_fn(|_| context.rng.word() as u16);
        let mut history = History { context, lent: Lent::new(file, &[], &[], state), network, loaded: state };
        let [_, sums, area, _] = history.sizes()?.map(|size| size as usize);
        let sums = store::enough(history.rng(), sums);
        let area = store::enough(history.rng(), area);
        history.lent.sums = Fenced::new(&store::any_sums(history.rng(), sums));
        history.lent.area = Fenced::new(&store::area(history.rng(), area));
        history.load()?;
        Ok(history)
    }

    /// Some call, more often one that is taken.
    fn step(&mut self) -> Result<(), Difference> {
        match self.rng().below(100) {
            0..=30 => self.change_rows(),
            31..=32 => self.sizes().map(|_| ()),
            33..=34 => self.write_picture(),
            35..=47 => self.update(),
            48..=63 => self.update_and_read(),
            64..=69 => self.read(),
            70..=77 => self.replace_layer(),
            78..=81 => self.wrong_rows(),
            82..=84 => self.wrong_layer(),
            85..=88 => self.wrong_record(),
            89..=91 => self.wrong_slice(),
            92..=96 => self.detour(),
            97..=98 => self.load(),
            _ => self.refused_load(),
        }
    }

    fn rng(&mut self) -> &mut Rng {
        self.context.rng
    }

    /// A load, after which the caller as often as not writes the picture.
    fn load(&mut self) -> Result<(), Difference> {
        self.accepted(Call::Load)?;
        self.loaded = self.lent.state;
        if self.rng().one_in(2) {
            return self.write_picture();
        }
        Ok(())
    }

    /// Reading G1: as long as every band is as load left it, the picture may be written straight into the area.
    fn write_picture(&mut self) -> Result<(), Difference> {
        if self.lent.state == self.loaded {
            let bytes = self.network.picture.bytes();
            let picture = store::area(self.rng(), bytes);
            self.lent.area.get_mut()[..bytes].copy_from_slice(&picture);
            self.context.pair.tally.pictures_written += 1;
        }
        Ok(())
    }

    /// The four sizes, which have to be just those of the network.
    fn sizes(&mut self) -> Result<Sizes, Difference> {
        let answer = self.context.pair.make(&mut self.lent, Call::Sizes)?;
        let last = self.network.area_place(self.network.layers.len());
        let expected = [self.network.picture.bytes(), self.network.true_sums().len(), last.end, last.len()];
        if answer.number != 0 || answer.sizes.map(|size| size as usize) != expected {
            return Err(self.wrong(Call::Sizes, &format!("{answer}, but they have to be {expected:?}")));
        }
        Ok(answer.sizes)
    }

    /// Makes a call on the history's own buffers and checks what has to hold after it.
    fn make(&mut self, call: Call) -> Result<Answer, Difference> {
        let answer = self.context.pair.make(&mut self.lent, call)?;
        if answer.accepted() {
            self.check(call)?;
        }
        Ok(answer)
    }

    fn accepted(&mut self, call: Call) -> Result<(), Difference> {
        match self.make(call)?.number {
            0 => Ok(()),
            number => Err(self.wrong(call, &format!("refused with {number}, but it has to be taken"))),
        }
    }

    fn check(&mut self, call: Call) -> Result<(), Difference> {
        if let Call::ReplaceLayer { .. } = call {
            let network = second::decode(self.lent.network.get());
            self.network = network.map_err(|number| {
                self.wrong(call, &format!("the record is taken, but the network is refused with {number}"))
            })?;
        }
        if self.lent.sums.get()[..self.network.sums_needed()] != self.network.true_sums() {
            return Err(self.wrong(call, "the sums are not the true ones"));
        }
        if call == Call::Read {
            self.context.pair.tally.fresh_runs += 1;
            let picture = &self.lent.area.get()[self.network.area_place(0)];
            let fresh = second::fresh_run(&self.network, picture).pop().expect("a last tensor");
            if self.lent.slice.get() != fresh {
                return Err(self.wrong(call, "the reading is not that of a fresh run"));
            }
        }
        Ok(())
    }

    fn wrong(&self, call: Call, words: &str) -> Difference {
        Difference { words: format!("both: {call}: {words}") }
    }

    fn lend(&mut self, slice: &[u8]) {
        self.lent.slice = Fenced::new(slice);
    }

    /// Rows with any bytes, those they have already, or a few bytes changed.
    pub fn change_rows(&mut self) -> Result<(), Difference> {
        let picture = self.network.picture;
        let (first, count) = arguments::rows_within(self.rng(), picture);
        let length = count * picture.row_bytes();
        let mut rows = self.lent.area.get()[first * picture.row_bytes()..][..length].to_vec();
        match self.rng().below(5) {
            0 => {}
            1 => {
                let at = self.rng().below(length);
                rows[at] = self.rng().byte();
            }
            _ => rows = store::area(self.rng(), length),
        }
        self.lend(&rows);
        self.accepted(Call::ChangeRows { first, count })
    }

    fn update(&mut self) -> Result<(), Difference> {
        self.accepted(Call::Update)
    }

    pub fn update_and_read(&mut self) -> Result<(), Difference> {
        self.update()?;
        self.read()
    }

    /// A reading: taken if nothing is stale.
    fn read(&mut self) -> Result<(), Difference> {
        let length = self.network.shape(self.network.layers.len()).bytes();
        let slice = self.rng().bytes(length);
        self.lend(&slice);
        let stale = self.lent.state.iter().any(|&number| number != 0);
        match (stale, self.make(Call::Read)?.number) {
            (false, 0) | (true, 8) => Ok(()),
            (_, number) => Err(self.wrong(Call::Read, &format!("number {number}"))),
        }
    }

    /// A record that fits: mostly with new numbers, sometimes with the old ones.
    fn replace_layer(&mut self) -> Result<(), Difference> {
        let layers = self.network.layers.len();
        let layer = self.rng().within(1, layers);
        let old = self.lent.network.get()[self.network.layer(layer).place.clone()].to_vec();
        let record = match self.rng().below(6) {
            0 => old,
            _ => records::replacement(self.context.rng, self.lent.network.get(), self.network.layer(layer)),
        };
        self.lend(&record);
        self.accepted(Call::ReplaceLayer { layer })
    }

    fn wrong_rows(&mut self) -> Result<(), Difference> {
        let picture = self.network.picture;
        let (first, count, length) = arguments::wrong_rows(self.rng(), picture);
        let rows = self.rng().bytes(length);
        self.lend(&rows);
        self.refused(Call::ChangeRows { first, count }, 7)
    }

    fn refused(&mut self, call: Call, expected: u8) -> Result<(), Difference> {
        match self.make(call)?.number {
            number if number == expected => Ok(()),
            number => Err(self.wrong(call, &format!("number {number}, but it has to be {expected}"))),
        }
    }

    /// The record may be good or bad: 7 comes before 9.
    fn wrong_layer(&mut self) -> Result<(), Difference> {
        let layers = self.network.layers.len();
        let layer = arguments::wrong_layer(self.rng(), layers);
        let record = match self.rng().below(3) {
            0 => self.lent.network.get()[self.network.layer(1).place.clone()].to_vec(),
            1 => Vec::new(),
            _ => self.rng().bytes(20),
        };
        self.lend(&record);
        self.refused(Call::ReplaceLayer { layer }, 7)
    }

    /// A record damaged in one of the ways of test 9; some damage leaves it one that is taken.
    fn wrong_record(&mut self) -> Result<(), Difference> {
        let layers = self.network.layers.len();
        let k = self.rng().within(1, layers);
        let layer = self.network.layer(k);
        let record = records::replacement(self.context.rng, self.lent.network.get(), layer);
        let record = damage::record(self.context.rng, &record, layer);
        self.lend(&record);
        self.make(Call::ReplaceLayer { layer: k }).map(|_| ())
    }

    fn wrong_slice(&mut self) -> Result<(), Difference> {
        let right = self.network.shape(self.network.layers.len()).bytes();
        let length = arguments::wrong_length(self.rng(), right);
        let slice = self.rng().bytes(length);
        self.lend(&slice);
        self.refused(Call::Read, 7)
    }

    /// A call over other buffers, which are then forgotten: nothing that is kept may come of it.
    fn detour(&mut self) -> Result<(), Difference> {
        let mut other = self.lent.clone();
        let length = other.network.get().len();
        let damage = match self.rng().below(3) {
            0 => damage::cut(self.context.rng, &self.network),
            1 => damage::trail(self.rng()),
            _ => damage::any_byte(self.rng(), length),
        };
        let change = Call::ChangeRows { first: 0, count: 1 };
        let call = self.rng().pick(&[Call::Load, Call::Update, Call::Read, change, Call::Sizes]);
        other.network = Fenced::new(&damage::damaged(other.network.get(), &[damage]));
        self.context.pair.make(&mut other, call).map(|_| ())
    }

    /// A load that refuses gives the all-stale state, with which nothing is taken until the next load.
    fn refused_load(&mut self) -> Result<(), Difference> {
        let area = std::mem::replace(&mut self.lent.area, Fenced::new(&[]));
        self.refused(Call::Load, 4)?;
        self.lent.area = area;
        let call = self.rng().pick(&[Call::Update, Call::Read, Call::ReplaceLayer { layer: 1 }]);
        self.refused(call, 5)?;
        self.load()
    }
}
