//! Attributes as the kernel is told them: the owner is the mount's, the number the kernel's own, the times those of the
//! last transaction.

use super::output::{Action, Reply};
use super::Machine;
use crate::bytes::{put_u32, put_u64, u64_at};
use crate::wire::{errno, Kind, REPLY_HEAD};

/// The bytes of `fuse_attr`, and where they stand in the reply to LOOKUP and in that to GETATTR.
const ATTRIBUTES: usize = 88;
const IN_ENTRY: usize = 40;
const IN_ANSWER: usize = 16;

/// The bytes of a reply to LOOKUP and to GETATTR.
pub const ENTRY: usize = IN_ENTRY + ATTRIBUTES;
pub const ANSWER: usize = IN_ANSWER + ATTRIBUTES;

/// How long the kernel may keep the folder's attributes, in seconds: nothing changes them.
const FOLDER_VALID: u64 = 3_600;

impl Machine {
    /// Puts in what the node doesn't know, at the place of the attributes in the body.
    fn complete(&self, reply: &mut Reply, at: usize, number: u64) {
        let (seconds, nanoseconds) = self.position.seen;
        let body = reply.body();
        put_u64(body, at, number);
        for k in 0..3 {
            put_u64(body, at + 24 + 8 * k, seconds);
            put_u32(body, at + 48 + 4 * k, nanoseconds);
        }
        put_u32(body, at + 68, self.settings.uid);
        put_u32(body, at + 72, self.settings.gid);
        if number & 255 == Kind::Shared as u64 {
            reply.size_at = Some(REPLY_HEAD + at + 8);
        }
    }

    /// Makes the body of an entry the kernel's; none where the node names a file that there is not.
    pub(super) fn complete_entry(&mut self, reply: &mut Reply) -> Option<Kind> {
        let kind = Kind::of(u64_at(reply.body(), 0))?;
        let number = self.files.number(kind);
        let generation = self.files.generation(kind);
        put_u64(reply.body(), 0, number);
        put_u64(reply.body(), 8, u64::from(generation));
        self.complete(reply, IN_ENTRY, number);
        self.shared_known(kind);
        Some(kind)
    }

    pub(super) fn attributes_answered(&mut self, unique: u64, kind: Kind, result: Result<&[u8], u32>) {
        match result {
            Ok(body) if body.len() == ANSWER => {
                let mut reply = Reply::new(unique, body);
                self.complete(&mut reply, IN_ANSWER, self.files.number(kind));
                self.output.actions.push(Action::Reply(reply));
            }
            Ok(_) => self.refuse(unique, errno::EIO),
            Err(error) => self.refuse(unique, error),
        }
    }

    /// The attributes of the folder, which are this program's.
    pub(super) fn folder_attributes(&mut self, unique: u64) {
        let mut body = [0; ANSWER];
        put_u64(&mut body, 0, FOLDER_VALID);
        put_u32(&mut body, IN_ANSWER + 60, 0o040_755);
        put_u32(&mut body, IN_ANSWER + 64, 2);
        put_u32(&mut body, IN_ANSWER + 80, 4_096);
        let mut reply = Reply::new(unique, &body);
        self.complete(&mut reply, IN_ANSWER, Kind::Root as u64);
        self.output.actions.push(Action::Reply(reply));
    }

    /// The attributes of a shared memory that the node no longer has.
    pub(super) fn old_shared_attributes(&mut self, unique: u64, number: u64) {
        let mut body = [0; ANSWER];
        put_u32(&mut body, IN_ANSWER + 60, 0o100_644);
        put_u32(&mut body, IN_ANSWER + 64, 1);
        put_u32(&mut body, IN_ANSWER + 80, 4_096);
        let mut reply = Reply::new(unique, &body);
        self.complete(&mut reply, IN_ANSWER, number);
        self.output.actions.push(Action::Reply(reply));
    }
}
