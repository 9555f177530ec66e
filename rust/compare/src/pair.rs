//! One call made on two implementations, and how they differ.

use crate::calls::{Answer, Call, ALL_STALE, MAY_GIVE};
use crate::lent::{Implementation, Lent};
use crate::tally::Tally;

/// Longer files are not printed whole.
const PRINTED_BYTES: usize = 400;

/// What was found, in words.
#[derive(Clone, Debug)]
pub struct Difference {
    pub words: String,
}

pub struct Pair<'a> {
    left: &'a dyn Implementation,
    right: &'a dyn Implementation,
    pub tally: Tally,
}

impl<'a> Pair<'a> {
    pub fn new(left: &'a dyn Implementation, right: &'a dyn Implementation) -> Pair<'a> {
        Pair { left, right, tally: Tally::default() }
    }

    /// Makes the call on both, from the same buffers, and leaves the buffers as the call did.
    pub fn make(&mut self, lent: &mut Lent, call: Call) -> Result<Answer, Difference> {
        let before = lent.clone();
        let mut right_lent = lent.clone();
        let answer = self.left.make(lent, call);
        let right_answer = self.right.make(&mut right_lent, call);
        if answer != right_answer || *lent != right_lent {
            return Err(self.tell(call, &before, (answer, lent), (right_answer, &right_lent)));
        }
        let fault = fault_of_both(call, &before, answer, lent);
        if let Some(fault) = fault {
            return Err(Difference { words: format!("both: {call}: {fault}\n{}", describe(&before)) });
        }
        self.tally.note(call, answer);
        Ok(answer)
    }

    fn tell(&self, call: Call, before: &Lent, left: (Answer, &Lent), right: (Answer, &Lent)) -> Difference {
        let mut lines = vec![
            format!("call: {call}"),
            format!("{}: {}", self.left.name(), left.0),
            format!("{}: {}", self.right.name(), right.0),
        ];
        let order = format!("{} against {}", self.left.name(), self.right.name());
        lines.extend(left.1.differences(right.1).into_iter().map(|words| format!("{order}: {words}")));
        lines.push(describe(before));
        Difference { words: lines.join("\n") }
    }
}

/// What both answered alike, but no implementation may.
fn fault_of_both(call: Call, before: &Lent, answer: Answer, after: &Lent) -> Option<String> {
    if !MAY_GIVE[call.index()].contains(&answer.number) {
        return Some(format!("may not give {}", answer.number));
    }
    if answer.accepted() {
        return None;
    }
    let mut expected = before.clone();
    if call == Call::Load {
        expected.state = ALL_STALE;
    }
    let changed = after.differences(&expected);
    if answer != Answer::from(answer.number) || !changed.is_empty() {
        return Some(format!("refused, but {answer} {}", changed.join("; ")));
    }
    None
}

/// The buffers that the call was given.
fn describe(lent: &Lent) -> String {
    let lengths = format!(
        "lent: network {} bytes, {} sums, area {} bytes, slice {} bytes",
        lent.network.get().len(),
        lent.sums.get().len(),
        lent.area.get().len(),
        lent.slice.get().len()
    );
    format!(
        "{lengths}\nstate: {:?}\nnetwork: {}\nslice: {}",
        lent.state,
        hexadecimal(lent.network.get()),
        hexadecimal(lent.slice.get())
    )
}

fn hexadecimal(bytes: &[u8]) -> String {
    let shown: Vec<String> = bytes.iter().take(PRINTED_BYTES).map(|byte| format!("{byte:02X}")).collect();
    let rest = if bytes.len() > PRINTED_BYTES { " .." } else { "" };
    shown.join(" ") + rest
}
