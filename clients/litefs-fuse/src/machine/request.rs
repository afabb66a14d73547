//! A request of the kernel, its head read.

use crate::bytes::{u32_at, u64_at};
use crate::wire::REQUEST_HEAD;

/// The user, group and process that a request comes from, as they stand in its head.
pub type Caller = [u8; 12];

/// A request of the kernel.
pub struct Request<'a> {
    pub opcode: u32,
    pub unique: u64,
    /// the kernel's number of the file
    pub node: u64,
    pub caller: Caller,
    pub body: &'a [u8],
}

impl<'a> Request<'a> {
    /// Reads the head; none where the message is shorter than one.
    pub fn read(message: &'a [u8]) -> Option<Request<'a>> {
        let (head, body) = message.split_at_checked(REQUEST_HEAD)?;
        let mut caller = [0; 12];
        caller.copy_from_slice(&head[24..36]);
        Some(Request { opcode: u32_at(head, 4), unique: u64_at(head, 8), node: u64_at(head, 16), caller, body })
    }

    /// The name that the body is, from `at` on and without its zero byte.
    pub fn name(&self, at: usize) -> &'a [u8] {
        let name = self.body.get(at..).unwrap_or(&[]);
        name.strip_suffix(&[0]).unwrap_or(name)
    }

    /// The handle that the body begins with.
    pub fn handle(&self) -> u64 {
        u64_at(self.body, 0)
    }
}
