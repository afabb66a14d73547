//! Who holds the locks WRITE, CKPT and RECOVER for writing. Under WRITE and RECOVER the header is written.

use crate::machine::lock_request::LockRequest;
use crate::wire::lock;

/// The bytes of the locks under which the header is written.
const WRITE: u64 = 120;
const CHECKPOINT: u64 = 121;
const RECOVER: u64 = 122;

#[derive(Default)]
pub struct Writers {
    write: Option<u64>,
    checkpoint: Option<u64>,
    recover: Option<u64>,
}

impl Writers {
    fn all(&mut self) -> [(u64, &mut Option<u64>); 3] {
        [(WRITE, &mut self.write), (CHECKPOINT, &mut self.checkpoint), (RECOVER, &mut self.recover)]
    }

    /// Whether the request gives up a lock under which the header is written.
    pub fn are_given_up(&self, wanted: &LockRequest) -> bool {
        let touched = |(byte, holder)| wanted.touches(byte) && holder == Some(wanted.owner);
        wanted.wish != lock::WRITE && [(WRITE, self.write), (RECOVER, self.recover)].into_iter().any(touched)
    }

    /// Whether the owner holds any of the three.
    pub fn writes(&self, owner: u64) -> bool {
        self.has(owner) || self.checkpoint == Some(owner)
    }

    /// Whether the owner holds one under which the header is written.
    pub fn has(&self, owner: u64) -> bool {
        self.write == Some(owner) || self.recover == Some(owner)
    }

    /// The request was granted.
    pub fn granted(&mut self, wanted: &LockRequest) {
        for (byte, holder) in self.all() {
            if wanted.touches(byte) {
                let kept = holder.filter(|owner| *owner != wanted.owner);
                *holder = if wanted.wish == lock::WRITE { Some(wanted.owner) } else { kept };
            }
        }
    }

    /// The owner's locks are gone.
    pub fn flushed(&mut self, owner: u64) {
        for (_, holder) in self.all() {
            *holder = holder.filter(|other| *other != owner);
        }
    }
}
