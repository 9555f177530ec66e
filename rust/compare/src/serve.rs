//! Answers the calls that come over a pipe: the other end of [`served`](crate::served).

use std::io::{self, BufRead, Write};

use crate::lent::Implementation;
use crate::message::{Reply, Request};

/// Answers each request, until the input ends.
pub fn serve(implementation: &dyn Implementation, mut from: impl BufRead, mut to: impl Write) -> io::Result<()> {
    while let Some(request) = Request::read(&mut from)? {
        let mut lent = request.lent();
        let answer = implementation.make(&mut lent, request.call);
        Reply::of(&lent, request.call, answer).write(&mut to)?;
    }
    Ok(())
}
