//! Locks of every file but the shared memory.

use super::handles::Handle;
use super::lock_request::LockRequest;
use super::request::Request;
use super::then::Then;
use super::waits::Again;
use super::Machine;
use crate::wire::{errno, opcode};

impl Machine {
    pub(super) fn set_lock(&mut self, request: &Request, handle: &Handle) {
        let wanted = LockRequest::read(request, handle);
        if wanted.is_unlock() {
            return self.unlock(&wanted);
        }
        if wanted.waits {
            self.waits.begin(wanted.unique, Again::Plain(wanted));
        }
        self.ask_lock(wanted);
    }

    /// The node's answer to an unlock says nothing: whatever comes after it on the link finds the lock free.
    fn unlock(&mut self, wanted: &LockRequest) {
        let body = wanted.body_until(u64::MAX);
        self.before_lock(wanted);
        self.send(wanted.caller, opcode::SETLK, wanted.kind, &[&body], Then::Ignored);
        self.unlocked(wanted);
        self.owners.granted(wanted);
        self.accept(wanted.unique);
    }

    /// A lock that must be waited for is asked for too, again and again: the node would hold the one link.
    pub(super) fn ask_lock(&mut self, wanted: LockRequest) {
        let body = wanted.body_until(u64::MAX);
        let checked = self.is_checked(&wanted);
        self.before_lock(&wanted);
        self.send(wanted.caller, opcode::SETLK, wanted.kind, &[&body], Then::Locked(wanted));
        if checked {
            self.ask_position_then(Then::Checked(wanted));
        }
    }

    pub(super) fn lock_answered(&mut self, wanted: LockRequest, result: Result<&[u8], u32>) {
        let error = result.err().unwrap_or(0);
        if self.is_checked(&wanted) {
            return self.lock_to_check(error);
        }
        if error == 0 {
            self.keep_owner(&wanted);
        }
        self.answer_lock(&wanted, error);
    }

    /// Remembers what is held, and who locked by the handle, for its RELEASE.
    pub(super) fn keep_owner(&mut self, wanted: &LockRequest) {
        self.owners.granted(wanted);
        if let Some(handle) = self.handles.get_mut(wanted.number) {
            handle.lock_owner = Some(wanted.owner);
        }
    }

    /// Answers the kernel, or lets the process wait on.
    pub(super) fn answer_lock(&mut self, wanted: &LockRequest, error: u32) {
        let mut told = error;
        if wanted.waits && !wanted.is_unlock() {
            if error == errno::EAGAIN {
                match self.waits.refused(wanted.unique) {
                    true => told = errno::EINTR,
                    false => return,
                }
            } else {
                self.waits.end(wanted.unique);
            }
        }
        match told {
            0 => self.accept(wanted.unique),
            _ => self.refuse(wanted.unique, told),
        }
    }
}
