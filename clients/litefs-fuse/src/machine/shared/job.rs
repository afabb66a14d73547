//! One request on the shared memory that is taken in its turn.

use crate::machine::handles::Handle;
use crate::machine::lock_request::LockRequest;
use crate::machine::request::{Caller, Request};

/// What is asked.
pub enum Asked {
    Lock(LockRequest),
    Flush { owner: u64 },
    /// SETATTR, with its body
    Resize { body: Vec<u8> },
    Release,
}

/// A request. It belongs to the epoch and the generation in which it was made.
pub struct Job {
    pub unique: u64,
    pub caller: Caller,
    pub asked: Asked,
    /// the kernel's handle and the node's, 0 where the request names none
    pub number: u64,
    pub fh: u64,
    pub epoch: u32,
    pub generation: u32,
}

impl Job {
    pub fn new(request: &Request, handle: &Handle, asked: Asked) -> Job {
        Job {
            unique: request.unique,
            caller: request.caller,
            asked,
            number: request.handle(),
            fh: handle.fh,
            epoch: handle.epoch,
            generation: handle.generation,
        }
    }

    pub fn of_lock(wanted: LockRequest) -> Job {
        Job {
            unique: wanted.unique,
            caller: wanted.caller,
            number: wanted.number,
            fh: wanted.fh,
            epoch: wanted.epoch,
            generation: wanted.generation,
            asked: Asked::Lock(wanted),
        }
    }
}
