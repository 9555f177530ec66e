//! A server as an implementation: a program that makes each call that it is sent, such as one that has another
//! processor's archive and runs under an emulator.

use std::cell::RefCell;
use std::io::{self, BufReader};
use std::process::{Child, ChildStdin, ChildStdout, Command, Stdio};

use crate::calls::{Answer, Call};
use crate::lent::{Implementation, Lent};
use crate::message::{Reply, Request};

pub struct Served {
    server: Child,
    pipes: RefCell<Pipes>,
}

struct Pipes {
    to: ChildStdin,
    from: BufReader<ChildStdout>,
}

impl Served {
    /// Starts the server: a program and its words.
    pub fn start(program: &str, words: &[String]) -> io::Result<Served> {
        let mut command = Command::new(program);
        let mut server = command.args(words).stdin(Stdio::piped()).stdout(Stdio::piped()).spawn()?;
        let to = server.stdin.take().expect("it is piped");
        let from = BufReader::new(server.stdout.take().expect("it is piped"));
        Ok(Served { server, pipes: RefCell::new(Pipes { to, from }) })
    }

    /// Closes the pipes and waits for the server's end; what is wrong with it, in words.
    pub fn end(self) -> Result<(), String> {
        let Served { mut server, pipes } = self;
        // Both: a server that still writes would never end.
        drop(pipes);
        match server.wait() {
            Ok(status) if status.success() => Ok(()),
            Ok(status) => Err(format!("the server ended with {status}")),
            Err(error) => Err(format!("the server's end is not known: {error}")),
        }
    }
}

impl Implementation for Served {
    fn name(&self) -> String {
        String::from("served")
    }

    /// Hands the call to the server, and takes the buffers back: a wrong one shows in them.
    fn make(&self, lent: &mut Lent, call: Call) -> Answer {
        match self.pipes.borrow_mut().exchange(&Request::of(lent, call)) {
            Ok(reply) => reply.leave(lent, call),
            Err(error) => panic!("served: {call}: no answer: {error}"),
        }
    }
}

impl Pipes {
    fn exchange(&mut self, request: &Request) -> io::Result<Reply> {
        request.write(&mut self.to)?;
        Reply::read(&mut self.from, request)
    }
}
