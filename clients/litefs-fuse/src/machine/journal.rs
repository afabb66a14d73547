//! What the processes of this mount do with the journal: who may remove it, and by whose name. Its removal commits the
//! transaction, and a removal names nobody at the node. So the journal is first cut, which names its owner, and then removed.

use super::handles::Handle;
use super::request::{Caller, Request};
use super::then::Then;
use super::Machine;
use crate::bytes::{put_u32, put_u64, u32_at, u64_at};
use crate::wire::{attribute, errno, opcode, Kind};

/// The bytes of `fuse_setattr_in`, and where a WRITE's data begin.
const SET_ATTRIBUTES: usize = 88;
const DATA: usize = 40;

/// The bytes by which a journal says that it is to be played back.
const MAGIC: usize = 8;

/// What is known of the journal.
#[derive(Default)]
pub struct Journal {
    /// who wrote its header, as long as it says that the journal is to be played back
    header_by: Option<u64>,
    /// who has closed it, and has not written it since
    closed_by: Option<u64>,
}

/// A removal of the journal that waits until it is cut.
pub struct Removal {
    unique: u64,
    caller: Caller,
    name: Vec<u8>,
}

impl Machine {
    /// The process that a request comes from, where it can be seen. The first thread of a process has its number.
    fn process(&self, caller: &Caller) -> Option<u32> {
        match u32_at(caller, 8) {
            0 => None,
            thread if self.owners.has_process(thread) => Some(thread),
            thread => (self.process_of)(thread),
        }
    }

    /// Whether a process other than the caller's holds a lock of the database or the shared memory.
    pub(super) fn is_used_by_others(&self, caller: &Caller) -> bool {
        self.owners.has_others(self.process(caller))
    }

    /// The owner in whose name the caller may finish the journal. A caller that can't be seen is taken for the one who has
    /// closed it: then its transaction is whole, whoever finishes it. A journal that another wrote is finished by who has EXCLUSIVE.
    fn journal_owner(&self, caller: &Caller) -> Option<u64> {
        let owner = match self.process(caller) {
            Some(process) => self.owners.writer_of(process),
            None => self.journal.closed_by.filter(|owner| self.owners.writes(*owner)),
        };
        let own = |owner: &u64| self.journal.header_by.is_none_or(|other| other == *owner);
        owner.filter(|owner| own(owner) || self.owners.has_exclusive(*owner))
    }

    /// UNLINK of the journal.
    pub(super) fn remove_journal(&mut self, request: &Request) {
        let Some(owner) = self.journal_owner(&request.caller) else {
            return self.refuse(request.unique, errno::EBUSY);
        };
        let removal = Removal { unique: request.unique, caller: request.caller, name: request.body.to_vec() };
        let mut body = [0; SET_ATTRIBUTES];
        name_owner(&mut body, attribute::SIZE, owner);
        self.send(request.caller, opcode::SETATTR, Kind::Journal, &[&body], Then::JournalCut(removal));
    }

    /// The journal is cut, or else it stays.
    pub(super) fn journal_cut(&mut self, removal: Removal, result: Result<&[u8], u32>) {
        match result {
            Ok(_) => {
                let then = Then::Removed { unique: removal.unique, kind: Kind::Journal };
                self.send(removal.caller, opcode::UNLINK, Kind::Root, &[&removal.name], then);
            }
            Err(error) => self.refuse(removal.unique, error),
        }
    }

    /// SETATTR of the journal. One of a size that names no owner gets one.
    pub(super) fn set_journal(&mut self, request: &Request) {
        let then = Then::Attributes { unique: request.unique, kind: Kind::Journal };
        let given = u32_at(request.body, 0);
        let mut body = request.body.to_vec();
        if given & attribute::SIZE != 0 && given & attribute::LOCK_OWNER == 0 {
            let Some(owner) = self.journal_owner(&request.caller) else {
                return self.refuse(request.unique, errno::EBUSY);
            };
            name_owner(&mut body, given, owner);
        }
        if given & attribute::SIZE != 0 && self.journal.header_by == Some(u64_at(&body, 24)) {
            self.journal = Journal::default();
        }
        self.send(request.caller, opcode::SETATTR, Kind::Journal, &[&body], then);
    }

    /// WRITE and FLUSH of the journal, by one who may write it.
    pub(super) fn on_journal(&mut self, request: &Request, handle: &Handle) {
        let (write, owner) = match request.opcode {
            opcode::WRITE => (true, u64_at(request.body, 24)),
            opcode::FLUSH => (false, u64_at(request.body, 16)),
            _ => return,
        };
        if handle.kind != Kind::Journal || !self.owners.writes(owner) {
            return;
        }
        self.journal.closed_by = (!write).then_some(owner);
        if write && u64_at(request.body, 8) == 0 {
            let magic = request.body.get(DATA..DATA + MAGIC).unwrap_or(&[]);
            self.journal.header_by = magic.iter().any(|byte| *byte != 0).then_some(owner);
        }
    }
}

/// Puts the owner into the body of a SETATTR of a size.
fn name_owner(body: &mut [u8], given: u32, owner: u64) {
    put_u32(body, 0, given | attribute::LOCK_OWNER);
    put_u64(body, 24, owner);
}
