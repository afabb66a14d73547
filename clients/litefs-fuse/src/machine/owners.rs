//! Who holds which locks of the database and of its shared memory. The whole mount is one session at the node; here its
//! processes are told apart. A lock request names its owner and its process.

use super::cache::SHARED;
use super::lock_request::LockRequest;
use crate::wire::{lock, Kind};

/// The bytes of SQLite's locks PENDING and RESERVED, and those of the shared memory.
const PENDING: u64 = 0x4000_0000;
const RESERVED: u64 = 0x4000_0001;
const MEMORY: std::ops::RangeInclusive<u64> = 120..=128;

/// One bit for each lock: three of the database, then those of the shared memory.
const EXCLUSIVE: u32 = 4;
const OF_DATABASE: u32 = 7;
const FIRST_OF_MEMORY: u32 = 8;

/// An owner and the locks that it holds, and holds for writing.
struct Owner {
    number: u64,
    /// 0 where it can't be seen
    process: u32,
    held: u32,
    for_writing: u32,
}

/// The owners that hold a lock.
#[derive(Default)]
pub struct Owners(Vec<Owner>);

impl Owners {
    /// A lock request was granted, which may be an unlock.
    pub fn granted(&mut self, wanted: &LockRequest) {
        let touched = bits(wanted);
        let owner = self.of(wanted.owner);
        if wanted.process != 0 {
            owner.process = wanted.process;
        }
        owner.held &= !touched;
        owner.for_writing &= !touched;
        if !wanted.is_unlock() {
            owner.held |= touched;
        }
        if wanted.wish == lock::WRITE {
            owner.for_writing |= touched;
        }
        self.0.retain(|owner| owner.held != 0);
    }

    fn of(&mut self, number: u64) -> &mut Owner {
        let at = self.0.iter().position(|owner| owner.number == number).unwrap_or_else(|| {
            self.0.push(Owner { number, process: 0, held: 0, for_writing: 0 });
            self.0.len() - 1
        });
        &mut self.0[at]
    }

    /// An owner's locks of a file are gone.
    pub fn left(&mut self, number: u64, kind: Kind) {
        let gone = if kind == Kind::Database { OF_DATABASE } else { !OF_DATABASE };
        for owner in self.0.iter_mut().filter(|owner| owner.number == number) {
            owner.held &= !gone;
            owner.for_writing &= !gone;
        }
        self.0.retain(|owner| owner.held != 0);
    }

    /// Whether a process of this number is among the owners.
    pub fn has_process(&self, process: u32) -> bool {
        self.0.iter().any(|owner| owner.process == process)
    }

    /// Whether the owner may write the journal: it holds RESERVED, PENDING or SHARED for writing.
    pub fn writes(&self, number: u64) -> bool {
        self.0.iter().any(|owner| owner.number == number && owner.for_writing & OF_DATABASE != 0)
    }

    pub fn has_exclusive(&self, number: u64) -> bool {
        self.0.iter().any(|owner| owner.number == number && owner.for_writing & EXCLUSIVE != 0)
    }

    /// The owner by which a process may write the journal, one that has EXCLUSIVE before others.
    pub fn writer_of(&self, process: u32) -> Option<u64> {
        let own = self.0.iter().filter(|owner| owner.process == process && owner.for_writing & OF_DATABASE != 0);
        own.max_by_key(|owner| owner.for_writing & EXCLUSIVE).map(|owner| owner.number)
    }

    /// Whether a process other than this one holds a lock. Who can't be seen is another, but where somebody has EXCLUSIVE, who
    /// is then the only one.
    pub fn has_others(&self, process: Option<u32>) -> bool {
        match process {
            Some(process) => self.0.iter().any(|owner| owner.process != process),
            None => !self.0.is_empty() && !self.0.iter().any(|owner| owner.for_writing & EXCLUSIVE != 0),
        }
    }
}

/// The locks that a request touches.
fn bits(wanted: &LockRequest) -> u32 {
    let overlaps = |first: u64, last: u64| u32::from(wanted.start <= last && first <= wanted.end);
    match wanted.kind {
        Kind::Database => {
            let shared = overlaps(*SHARED.start(), *SHARED.end()) * EXCLUSIVE;
            overlaps(PENDING, PENDING) | overlaps(RESERVED, RESERVED) << 1 | shared
        }
        Kind::Shared => MEMORY.zip(FIRST_OF_MEMORY..).map(|(byte, bit)| overlaps(byte, byte) << bit).sum(),
        _ => 0,
    }
}
