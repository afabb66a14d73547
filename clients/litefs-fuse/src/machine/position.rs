//! The node's position, read from its position file, and when it was first seen to be this one.

use super::link::OWN;
use super::then::Then;
use super::Machine;
use crate::bytes::{put_u32, put_u64, u64_at};
use crate::wire::{opcode, Kind};

/// Seconds since 1970, and nanoseconds.
pub type Time = (u64, u32);

/// What is known of the position.
#[derive(Default)]
pub struct Position {
    pub text: Vec<u8>,
    /// when this text was first read
    pub seen: Time,
    /// the node's handle of the position file
    handle: Option<u64>,
}

impl Machine {
    /// Tells the time.
    pub fn set_time(&mut self, now: Time) {
        self.now = now;
    }

    pub(super) fn open_position(&mut self) {
        self.send(OWN, opcode::OPEN, Kind::Position, &[&[0; 8]], Then::PositionOpened);
    }

    pub(super) fn forget_position(&mut self) {
        self.position.handle = None;
    }

    pub(super) fn position_opened(&mut self, result: Result<&[u8], u32>) {
        self.position.handle = result.ok().map(|body| u64_at(body, 0));
        self.ask_position();
    }

    /// Asks where the node stands, where it can be asked.
    pub(super) fn ask_position(&mut self) {
        if self.position.handle.is_some() {
            self.ask_position_then(Then::Position);
        }
    }

    /// Asks where the node stands. Without a handle the node refuses.
    pub(super) fn ask_position_then(&mut self, then: Then) {
        let mut body = [0; 40];
        put_u64(&mut body, 0, self.position.handle.unwrap_or(0));
        put_u32(&mut body, 16, 64);
        self.send(OWN, opcode::READ, Kind::Position, &[&body], then);
    }

    pub(super) fn position_read(&mut self, result: Result<&[u8], u32>) {
        if let Ok(text) = result {
            if text != self.position.text {
                self.position.text = text.to_vec();
                self.position.seen = self.now;
            }
        }
    }
}
