//! The mount tells the node that it is many: that its one session is that of many processes. It locks a byte of the lock
//! file for reading, in its own name. Of a session that has this lock the node takes a commit by the owner's own messages
//! alone. A node that doesn't know the byte grants the lock, without effect; an error of it is passed over, and nothing waits for it.

use super::link::OWN;
use super::lock_request::LOCK_BODY;
use super::shared::OWN_OWNER;
use super::then::Then;
use super::Machine;
use crate::bytes::{put_u64, u64_at};
use crate::wire::{opcode, Kind};

/// The byte of the lock file.
const MANY: u64 = 73;

impl Machine {
    pub(super) fn open_mark(&mut self) {
        self.send(OWN, opcode::OPEN, Kind::Lock, &[&[0; 8]], Then::MarkOpened);
    }

    /// The lock file is open, by a handle that stays; a read lock is of the kind 0.
    pub(super) fn mark_opened(&mut self, result: Result<&[u8], u32>) {
        let Ok(opened) = result else { return };
        let mut body = [0; LOCK_BODY];
        put_u64(&mut body, 0, u64_at(opened, 0));
        put_u64(&mut body, 8, OWN_OWNER);
        put_u64(&mut body, 16, MANY);
        put_u64(&mut body, 24, MANY);
        self.send(OWN, opcode::SETLK, Kind::Lock, &[&body], Then::Marked);
    }
}
