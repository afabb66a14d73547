//! The socket of the node: bytes go out as they gather, and replies come whole.

use crate::bytes::u32_at;
use crate::wire::{MAX_DATA, REPLY_HEAD};
use std::io::{ErrorKind, Read, Result, Write};
use std::os::unix::net::UnixStream;

/// The most that is read at once.
const PIECE: usize = 1 << 18;

/// The longest reply that a node may send.
const LONGEST: usize = REPLY_HEAD + MAX_DATA as usize;

pub struct Connection {
    pub stream: UnixStream,
    outgoing: Vec<u8>,
    sent: usize,
    incoming: Vec<u8>,
    filled: usize,
}

impl Connection {
    pub fn open(socket: &str) -> Result<Connection> {
        let stream = UnixStream::connect(socket)?;
        stream.set_nonblocking(true)?;
        Ok(Connection { stream, outgoing: Vec::new(), sent: 0, incoming: vec![0; PIECE + LONGEST], filled: 0 })
    }

    /// Whether bytes wait to be sent.
    pub fn is_behind(&self) -> bool {
        self.sent < self.outgoing.len()
    }

    /// Sends the bytes and those that wait, as many as go.
    pub fn send(&mut self, bytes: &[u8]) -> Result<()> {
        self.outgoing.extend_from_slice(bytes);
        while self.is_behind() {
            match self.stream.write(&self.outgoing[self.sent..]) {
                Ok(count) => self.sent += count,
                Err(error) if error.kind() == ErrorKind::Interrupted => {}
                Err(error) if error.kind() == ErrorKind::WouldBlock => return Ok(()),
                Err(error) => return Err(error),
            }
        }
        self.outgoing.clear();
        self.sent = 0;
        Ok(())
    }

    /// Reads what has come, and hands each whole reply over. Tells whether the link goes on.
    pub fn receive(&mut self, mut each: impl FnMut(&[u8])) -> bool {
        let goes_on = match self.stream.read(&mut self.incoming[self.filled..]) {
            Ok(0) => false,
            Ok(count) => {
                self.filled += count;
                true
            }
            Err(error) => matches!(error.kind(), ErrorKind::Interrupted | ErrorKind::WouldBlock),
        };
        let mut at = 0;
        while self.filled - at >= REPLY_HEAD {
            let size = u32_at(&self.incoming, at) as usize;
            if !(REPLY_HEAD..=LONGEST).contains(&size) {
                return false;
            }
            if self.filled - at < size {
                break;
            }
            each(&self.incoming[at..at + size]);
            at += size;
        }
        self.incoming.copy_within(at..self.filled, 0);
        self.filled -= at;
        goes_on
    }
}
