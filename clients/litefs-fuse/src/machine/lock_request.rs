//! A lock request of the kernel, kept while the node is asked.

use super::handles::Handle;
use super::request::{Caller, Request};
use crate::bytes::{put_u64, u32_at, u64_at};
use crate::wire::{lock, opcode, Kind};

/// The bytes of `fuse_lk_in`.
pub const LOCK_BODY: usize = 48;

/// A lock request. Both ends of the range are included.
#[derive(Clone, Copy, Debug, PartialEq, Eq)]
pub struct LockRequest {
    pub unique: u64,
    pub caller: Caller,
    pub kind: Kind,
    /// the kernel's handle, the node's, and what they belong to
    pub number: u64,
    pub fh: u64,
    pub epoch: u32,
    pub generation: u32,
    pub owner: u64,
    pub start: u64,
    pub end: u64,
    pub wish: u32,
    /// 0 where the kernel can't tell it to this program
    pub process: u32,
    /// whether the process waits until the lock is free
    pub waits: bool,
    body: [u8; LOCK_BODY],
}

impl LockRequest {
    pub fn read(request: &Request, handle: &Handle) -> LockRequest {
        let mut body = [0; LOCK_BODY];
        let size = request.body.len().min(LOCK_BODY);
        body[..size].copy_from_slice(&request.body[..size]);
        put_u64(&mut body, 0, handle.fh);
        LockRequest {
            unique: request.unique,
            caller: request.caller,
            kind: handle.kind,
            number: request.handle(),
            fh: handle.fh,
            epoch: handle.epoch,
            generation: handle.generation,
            owner: u64_at(&body, 8),
            start: u64_at(&body, 16),
            end: u64_at(&body, 24),
            wish: u32_at(&body, 32),
            process: u32_at(&body, 36),
            waits: request.opcode == opcode::SETLKW,
            body,
        }
    }

    /// Whether the range has the byte.
    pub fn touches(&self, byte: u64) -> bool {
        self.start <= byte && byte <= self.end
    }

    pub fn is_unlock(&self) -> bool {
        self.wish == lock::UNLOCK
    }

    /// The body of the message to the node, its range ended at `last` at the latest.
    pub fn body_until(&self, last: u64) -> [u8; LOCK_BODY] {
        let mut body = self.body;
        put_u64(&mut body, 24, self.end.min(last));
        body
    }
}
