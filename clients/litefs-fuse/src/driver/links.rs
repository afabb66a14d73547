//! The connections to the node: the second is made when something is first to be sent on it.

use crate::connection::Connection;
use crate::foreign::{polled, Polled, ENDED, READABLE, WRITABLE};
use crate::machine::link::WAYS;
use crate::machine::Machine;
use std::io::Result;

pub struct Links {
    socket: String,
    open: [Option<Connection>; 2],
}

impl Links {
    pub fn new(socket: &str) -> Links {
        Links { socket: socket.to_string(), open: [None, None] }
    }

    pub fn are_up(&self) -> bool {
        self.open[0].is_some()
    }

    /// Makes the first connection, where that can be.
    pub fn make(&mut self) -> bool {
        self.open[0] = Connection::open(&self.socket).ok();
        self.are_up()
    }

    /// Adds the questions whether they are ready; each connection's place among them.
    pub fn ask(&self, questions: &mut Vec<Polled>) -> [Option<usize>; 2] {
        self.open.each_ref().map(|link| {
            let link = link.as_ref()?;
            let wanted = READABLE | ENDED | if link.is_behind() { WRITABLE } else { 0 };
            questions.push(polled(&link.stream, wanted));
            Some(questions.len() - 1)
        })
    }

    /// Sends these bytes on each, and those that wait, as many as go.
    pub fn send(&mut self, bytes: &[Vec<u8>; 2]) -> Result<()> {
        if !self.are_up() {
            return Ok(());
        }
        for (link, bytes) in self.open.iter_mut().zip(bytes) {
            if link.is_none() && !bytes.is_empty() {
                *link = Some(Connection::open(&self.socket)?);
            }
            if let Some(link) = link.as_mut().filter(|link| link.is_behind() || !bytes.is_empty()) {
                link.send(bytes)?;
            }
        }
        Ok(())
    }

    /// Hands over the replies on those that are ready. Tells whether the link goes on.
    pub fn receive(&mut self, ready: [bool; 2], machine: &mut Machine) -> bool {
        let each = WAYS.into_iter().zip(&mut self.open).zip(ready);
        each.filter(|(_, ready)| *ready).all(|((way, link), _)| {
            link.as_mut().is_none_or(|link| link.receive(|reply| machine.node(way, reply)))
        })
    }

    /// Closes all. Tells whether there was a link.
    pub fn close(&mut self) -> bool {
        let were_up = self.are_up();
        self.open = [None, None];
        were_up
    }
}
