//! What goes over the pipes for one call, all numbers little-endian.
//!
//! * The request: nine numbers of 8 bytes, which are the call (its place in `CALL_NAMES`), its own two numbers and the
//!   lengths in bytes of the six buffers; then the buffers.
//! * The reply: the call's number in 8 bytes, then the buffers as the call left them, with the same lengths.
//!
//! The buffers are network, sums, area, state, what only some calls are lent (rows, a record or the reading slice), and
//! what a call tells besides its number (the count or the four sizes). Sums, count and sizes have 4 bytes a number, the
//! state 2. All are sent with every call, those too that it is not given, and all come back.

use std::io::{self, BufRead, Error, ErrorKind, Read, Write};

use crate::calls::{Answer, Call};
use crate::lent::{Fenced, Lent};

type Buffers = [Vec<u8>; 6];

#[derive(Clone, Debug, PartialEq, Eq)]
pub struct Request {
    pub call: Call,
    buffers: Buffers,
}

#[derive(Clone, Debug, PartialEq, Eq)]
pub struct Reply {
    number: u8,
    buffers: Buffers,
}

impl Request {
    /// The call on what is lent. What it tells is not 0 beforehand: a refusal has to write that too.
    pub fn of(lent: &Lent, call: Call) -> Request {
        let before = Answer { number: 0, count: u32::MAX, sizes: [u32::MAX; 4] };
        Request { call, buffers: buffers_of(lent, call, before) }
    }

    /// What is lent to the call.
    pub fn lent(&self) -> Lent {
        let [network, sums, area, state, own, _] = &self.buffers;
        let state = to_numbers(state).try_into().expect("a state has 34 numbers");
        Lent { slice: Fenced::new(own), ..Lent::new(network, &to_numbers(sums), area, state) }
    }

    pub fn write(&self, to: &mut impl Write) -> io::Result<()> {
        let [first, second] = self.call.numbers();
        let head = [&[self.call.index(), first, second][..], &lengths(&self.buffers)].concat();
        write(to, &head, &self.buffers)
    }

    /// The next request, or nothing at the end of the input.
    pub fn read(from: &mut impl BufRead) -> io::Result<Option<Request>> {
        if from.fill_buf()?.is_empty() {
            return Ok(None);
        }
        let [call, first, second, lengths @ ..] = read_numbers::<9>(from)?;
        let call = Call::of(call, [first, second]).ok_or_else(|| wrong("there is no such call"))?;
        Ok(Some(Request { call, buffers: read_buffers(from, lengths)? }))
    }
}

impl Reply {
    /// What the call answered, and what it left of the buffers.
    pub fn of(lent: &Lent, call: Call, answer: Answer) -> Reply {
        Reply { number: answer.number, buffers: buffers_of(lent, call, answer) }
    }

    /// Leaves the buffers as the call did, and gives what it answered.
    pub fn leave(&self, lent: &mut Lent, call: Call) -> Answer {
        let [network, sums, area, state, own, told] = &self.buffers;
        lent.network.get_mut().copy_from_slice(network);
        lent.sums.get_mut().copy_from_slice(&to_numbers(sums));
        lent.area.get_mut().copy_from_slice(area);
        lent.state.copy_from_slice(&to_numbers(state));
        lent.slice.get_mut().copy_from_slice(own);
        let mut answer = Answer::from(self.number);
        match call {
            Call::Update => answer.count = to_numbers(told)[0],
            Call::Sizes => answer.sizes.copy_from_slice(&to_numbers(told)),
            _ => (),
        }
        answer
    }

    pub fn write(&self, to: &mut impl Write) -> io::Result<()> {
        write(to, &[usize::from(self.number)], &self.buffers)
    }

    pub fn read(from: &mut impl Read, request: &Request) -> io::Result<Reply> {
        let [number] = read_numbers::<1>(from)?;
        let number = u8::try_from(number).map_err(|_| wrong("no call gives such a number"))?;
        Ok(Reply { number, buffers: read_buffers(from, lengths(&request.buffers))? })
    }
}

fn buffers_of(lent: &Lent, call: Call, answer: Answer) -> Buffers {
    let told = match call {
        Call::Update => to_bytes(&[answer.count]),
        Call::Sizes => to_bytes(&answer.sizes),
        _ => Vec::new(),
    };
    let [network, area, own] = [&lent.network, &lent.area, &lent.slice].map(|bytes| bytes.get().to_vec());
    [network, to_bytes(lent.sums.get()), area, to_bytes(&lent.state), own, told]
}

/// The bytes of a buffer's numbers.
fn to_bytes<T: Copy + Into<u64>>(numbers: &[T]) -> Vec<u8> {
    let mut bytes = Vec::with_capacity(size_of_val(numbers));
    for &number in numbers {
        bytes.extend_from_slice(&number.into().to_le_bytes()[..size_of::<T>()]);
    }
    bytes
}

/// A buffer's numbers, from their bytes.
fn to_numbers<T: TryFrom<u64>>(bytes: &[u8]) -> Vec<T> {
    let number = |bytes: &[u8]| {
        let mut eight = [0; 8];
        eight[..bytes.len()].copy_from_slice(bytes);
        T::try_from(u64::from_le_bytes(eight)).ok().expect("so many bytes have no larger number")
    };
    bytes.chunks_exact(size_of::<T>()).map(number).collect()
}

fn lengths(buffers: &Buffers) -> [usize; 6] {
    buffers.each_ref().map(Vec::len)
}

/// Writes a message at once: under an emulator each writing costs.
fn write(to: &mut impl Write, head: &[usize], buffers: &Buffers) -> io::Result<()> {
    let mut message: Vec<u8> = head.iter().flat_map(|&number| (number as u64).to_le_bytes()).collect();
    message.extend(buffers.concat());
    to.write_all(&message)?;
    to.flush()
}

fn read_numbers<const N: usize>(from: &mut impl Read) -> io::Result<[usize; N]> {
    let mut numbers = [0; N];
    for number in &mut numbers {
        let mut bytes = [0; 8];
        from.read_exact(&mut bytes)?;
        *number = usize::try_from(u64::from_le_bytes(bytes)).map_err(|_| wrong("too large a number"))?;
    }
    Ok(numbers)
}

/// Takes room only for what comes: a wrong length may be any.
fn read_buffers(from: &mut impl Read, lengths: [usize; 6]) -> io::Result<Buffers> {
    let mut buffers = Buffers::default();
    for (buffer, length) in buffers.iter_mut().zip(lengths) {
        if from.take(length as u64).read_to_end(buffer)? < length {
            return Err(ErrorKind::UnexpectedEof.into());
        }
    }
    Ok(buffers)
}

fn wrong(words: &str) -> Error {
    Error::new(ErrorKind::InvalidData, words)
}

#[cfg(test)]
mod tests {
    use super::*;

    fn lent() -> Lent {
        Lent { slice: Fenced::new(&[6, 7]), ..Lent::new(&[1, 2], &[0x0403_0201], &[5], [7; 34]) }
    }

    fn rows() -> Request {
        Request::of(&lent(), Call::ChangeRows { first: 258, count: usize::MAX })
    }

    fn written(request: &Request) -> Vec<u8> {
        let mut bytes = Vec::new();
        request.write(&mut bytes).expect("a vector takes all");
        bytes
    }

    #[test]
    fn a_request_byte_by_byte() {
        let bytes = written(&rows());
        let head: Vec<u64> = to_numbers(&bytes[..72]);
        assert_eq!(head, [1, 258, u64::MAX, 2, 4, 1, 68, 2, 0]);
        assert_eq!(bytes[8..16], [2, 1, 0, 0, 0, 0, 0, 0]);
        assert_eq!(bytes[72..79], [1, 2, 1, 2, 3, 4, 5]);
        assert_eq!(bytes[79..147], [7, 0].repeat(34));
        assert_eq!(bytes[147..], [6, 7]);
    }

    #[test]
    fn a_reply_byte_by_byte() {
        let reply = Reply { number: 9, buffers: rows().buffers };
        let mut bytes = Vec::new();
        reply.write(&mut bytes).expect("a vector takes all");
        assert_eq!(bytes[..8], [9, 0, 0, 0, 0, 0, 0, 0]);
        assert_eq!(bytes[8..], reply.buffers.concat());
        assert_eq!(Reply::read(&mut bytes.as_slice(), &rows()).expect("a reply"), reply);
    }

    #[test]
    fn what_is_told_is_not_0_beforehand() {
        assert_eq!(Request::of(&lent(), Call::Update).buffers[5], [0xFF; 4]);
        assert_eq!(Request::of(&lent(), Call::Sizes).buffers[5], [0xFF; 16]);
    }

    #[test]
    fn all_that_comes_back_is_left() {
        let mut left = lent();
        left.network.get_mut()[0] = 20;
        left.sums.get_mut()[0] = 21;
        left.area.get_mut()[0] = 22;
        left.slice.get_mut()[1] = 23;
        left.state[33] = 24;
        for (call, answer) in [
            (Call::Load, Answer::from(4)),
            (Call::Update, Answer { count: 70_000, ..Answer::from(0) }),
            (Call::Sizes, Answer { sizes: [1, 2, 3, 70_000], ..Answer::from(0) }),
        ] {
            let mut lent = Request::of(&lent(), call).lent();
            assert_eq!(Reply::of(&left, call, answer).leave(&mut lent, call), answer);
            assert_eq!(lent, left);
        }
    }

    #[test]
    fn requests_are_read_up_to_the_end() {
        let bytes = written(&rows());
        let mut two = &[bytes.clone(), bytes.clone()].concat()[..];
        for expected in [Some(rows()), Some(rows()), None] {
            assert_eq!(Request::read(&mut two).expect("nothing is wrong"), expected);
        }
        for length in 1..bytes.len() {
            assert!(Request::read(&mut &bytes[..length]).is_err(), "cut after {length} bytes");
        }
    }

    #[test]
    fn a_call_that_is_not_there_and_a_length_beyond_the_end_are_told() {
        for at in [0, 24] {
            let mut bytes = written(&rows());
            bytes[at..at + 8].fill(0xFF);
            assert!(Request::read(&mut bytes.as_slice()).is_err());
        }
    }
}
