//! The buffers lent to a call.

use crate::calls::{Answer, Call, Calls, State};

/// How many elements stand before and after a lent slice. An odd number, so that bytes begin at odd addresses too.
const FENCE: usize = 5;

/// A slice between two fences: an implementation that writes past its end is seen too.
#[derive(Clone, Debug, PartialEq, Eq)]
pub struct Fenced<T> {
    all: Vec<T>,
}

impl<T: Copy + From<u8>> Fenced<T> {
    pub fn new(contents: &[T]) -> Fenced<T> {
        let fence = [T::from(0xA5); FENCE];
        Fenced { all: [&fence, contents, &fence].concat() }
    }

    pub fn get(&self) -> &[T] {
        &self.all[FENCE..self.all.len() - FENCE]
    }

    pub fn get_mut(&mut self) -> &mut [T] {
        let end = self.all.len() - FENCE;
        &mut self.all[FENCE..end]
    }
}

impl<T: PartialEq + std::fmt::Display> Fenced<T> {
    /// Where the two first differ, in words; places in the fences are negative or past the end.
    pub fn difference(&self, other: &Fenced<T>) -> Option<String> {
        let differ = |&at: &usize| self.all[at] != other.all[at];
        let first = (0..self.all.len()).find(differ)?;
        let places = (0..self.all.len()).filter(differ).count();
        let place = first as isize - FENCE as isize;
        Some(format!("[{place}]: {} against {} ({places} places differ)", self.all[first], other.all[first]))
    }
}

/// Everything that one call is lent.
#[derive(Clone, Debug, PartialEq, Eq)]
pub struct Lent {
    pub network: Fenced<u8>,
    pub sums: Fenced<u32>,
    pub area: Fenced<u8>,
    /// What this call is lent besides: picture rows, a record, or the reading slice.
    pub slice: Fenced<u8>,
    pub state: State,
}

impl Lent {
    pub fn new(network: &[u8], sums: &[u32], area: &[u8], state: State) -> Lent {
        Lent {
            network: Fenced::new(network),
            sums: Fenced::new(sums),
            area: Fenced::new(area),
            slice: Fenced::new(&[]),
            state,
        }
    }

    /// Where two sets of buffers differ, in words.
    pub fn differences(&self, other: &Lent) -> Vec<String> {
        let buffers = [
            ("network", self.network.difference(&other.network)),
            ("sums", self.sums.difference(&other.sums)),
            ("area", self.area.difference(&other.area)),
            ("slice", self.slice.difference(&other.slice)),
        ];
        let mut words: Vec<String> =
            buffers.into_iter().filter_map(|(name, found)| found.map(|found| format!("{name}{found}"))).collect();
        if self.state != other.state {
            words.push(format!("state {:?} against {:?}", self.state, other.state));
        }
        words
    }
}

/// An implementation as the comparison sees it: it makes a call on what it is lent.
pub trait Implementation {
    fn name(&self) -> String;

    fn make(&self, lent: &mut Lent, call: Call) -> Answer;
}

impl<C: Calls> Implementation for C {
    fn name(&self) -> String {
        Calls::name(self)
    }

    fn make(&self, lent: &mut Lent, call: Call) -> Answer {
        let Lent { network, sums, area, slice, state } = lent;
        match call {
            Call::Load => self.load(network.get(), sums.get_mut(), area.get(), state).into(),
            Call::ChangeRows { first, count } => {
                self.change_rows(network.get(), sums.get(), area.get_mut(), state, first, count, slice.get()).into()
            }
            Call::ReplaceLayer { layer } => {
                self.replace_layer(network.get_mut(), sums.get_mut(), area.get(), state, layer, slice.get()).into()
            }
            Call::Update => {
                let (number, count) = self.update(network.get(), sums.get(), area.get_mut(), state);
                Answer { number, count, ..Answer::default() }
            }
            Call::Read => self.read(network.get(), sums.get(), area.get(), state, slice.get_mut()).into(),
            Call::Sizes => {
                let (number, sizes) = self.sizes(network.get());
                Answer { number, sizes, ..Answer::default() }
            }
        }
    }
}

#[cfg(test)]
mod tests {
    use super::*;

    #[test]
    fn a_byte_past_the_end_is_seen() {
        let lent = Lent::new(&[1, 2], &[3], &[4], [0; 34]);
        let mut other = lent.clone();
        assert!(lent.differences(&other).is_empty());
        let past_the_end = FENCE + 1;
        other.area.all[past_the_end] = 0;
        assert_ne!(lent, other);
        assert_eq!(lent.differences(&other), ["area[1]: 165 against 0 (1 places differ)"]);
        assert_eq!(other.area.get(), [4]);
    }
}
