//! What follows the reply to a message.

use super::journal::Removal;
use super::lock_request::LockRequest;
use super::opening::Open;
use super::shared::steps::Step;
use super::Machine;
use crate::wire::Kind;

/// What is done with the reply.
pub enum Then {
    /// to the node's INIT
    Greeted,
    /// nothing
    Ignored,
    /// the kernel gets it as it is
    Passed { unique: u64 },
    /// to a READ
    Data { unique: u64 },
    /// to a LOOKUP of the name
    Entry { unique: u64, name: Vec<u8> },
    /// to GETATTR and SETATTR
    Attributes { unique: u64, kind: Kind },
    /// to the LOOKUP that says whether the node is a replica
    Role(Open),
    /// to a READ of the position file before the database is opened
    OpenAt(Open),
    /// to OPEN
    Opened(Open),
    /// to CREATE
    Created { unique: u64 },
    /// to the SETATTR before the UNLINK of the journal
    JournalCut(Removal),
    /// to UNLINK
    Removed { unique: u64, kind: Kind },
    /// to SETLK
    Locked(LockRequest),
    /// to a LOOKUP of the n-th name of a listing
    Listed { unique: u64, index: usize },
    /// to a message about the shared memory
    Shared(Step),
    /// to the OPEN of the lock file by which the mount is marked, and to that lock
    MarkOpened,
    Marked,
    /// to the OPEN and a READ of the position file
    PositionOpened,
    Position,
    /// to a READ of the position file behind a lock of the database
    Checked(LockRequest),
    /// to one before EXCLUSIVE is given up
    ExclusiveLeft,
}

impl Machine {
    /// Goes on with the reply's body, or the number of its error.
    pub(super) fn answered(&mut self, then: Then, result: Result<&[u8], u32>) {
        match then {
            Then::Greeted => self.greeted(result),
            Then::Ignored | Then::Marked => {}
            Then::Passed { unique } => self.pass(unique, result),
            Then::Data { unique } => self.read_answered(unique, result),
            Then::Entry { unique, name } => self.looked_up(unique, &name, result),
            Then::Attributes { unique, kind } => self.attributes_answered(unique, kind, result),
            Then::Role(open) => self.role_answered(open, result),
            Then::OpenAt(open) => self.open_at(open, result),
            Then::Opened(open) => self.opened(open, result),
            Then::Created { unique } => self.created(unique, result),
            Then::JournalCut(removal) => self.journal_cut(removal, result),
            Then::Removed { unique, kind } => self.removed(unique, kind, result),
            Then::Locked(request) => self.lock_answered(request, result),
            Then::Listed { unique, index } => self.listed(unique, index, result),
            Then::Shared(step) => self.shared_answered(step, result),
            Then::MarkOpened => self.mark_opened(result),
            Then::PositionOpened => self.position_opened(result),
            Then::Position => self.position_read(result),
            Then::Checked(wanted) => self.lock_checked(wanted, result),
            Then::ExclusiveLeft => self.exclusive_left(result),
        }
    }
}
