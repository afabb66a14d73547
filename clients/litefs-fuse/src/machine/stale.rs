//! Requests on what the node no longer has: files and handles of a lost link, and removed files.
//!
//! SQLite takes every error of a lock on the shared memory for a lock that another holds, and would wait for good. So
//! such a lock is granted there once the link is lost; the header has become zeros, and SQLite must read the log,
//! where it is told that the file is stale.

use super::handles::Handle;
use super::output::Action;
use super::request::Request;
use super::then::Then;
use super::Machine;
use crate::bytes::{u32_at, u64_at};
use crate::wire::{errno, lock, opcode, Kind, MAX_DATA};

impl Machine {
    /// A request by the number of a file of an older generation.
    pub(super) fn on_old_file(&mut self, request: &Request) {
        let kind = Kind::of(request.node & 255);
        match (request.opcode, kind) {
            (opcode::GETATTR, Some(Kind::Shared)) => self.old_shared_attributes(request.unique, request.node),
            (opcode::OPEN, _) => self.refuse(request.unique, errno::ENOENT),
            _ => self.refuse(request.unique, errno::ESTALE),
        }
    }

    /// A handle of another process, which has ended, is one of a lost link. The number of the file tells its kind.
    pub(super) fn on_unknown_handle(&mut self, request: &Request) {
        match Kind::of(request.node & 255) {
            Some(kind) if self.after_another => self.on_lost_handle(request, kind),
            _ => self.refuse(request.unique, errno::EBADF),
        }
    }

    /// A request by a handle of a lost link.
    pub(super) fn on_lost_handle(&mut self, request: &Request, kind: Kind) {
        let unlock = u32_at(request.body, 32) == lock::UNLOCK;
        match (request.opcode, kind) {
            (opcode::RELEASE, _) => {
                self.forget_handle(request.handle());
                self.accept(request.unique);
            }
            (opcode::FLUSH, _) => self.accept(request.unique),
            (opcode::SETLK | opcode::SETLKW, Kind::Shared) => self.accept(request.unique),
            (opcode::SETLK | opcode::SETLKW, _) if unlock => self.accept(request.unique),
            (opcode::READ | opcode::WRITE, Kind::Shared) => self.on_old_memory(request),
            _ => self.refuse(request.unique, errno::ESTALE),
        }
    }

    /// A request by a handle of a file that was removed since. The node still has the handle.
    pub(super) fn on_removed_file(&mut self, request: &Request, handle: &Handle) {
        let unlock = u32_at(request.body, 32) == lock::UNLOCK;
        match (request.opcode, handle.kind) {
            (opcode::RELEASE, Kind::Shared) => self.release_shared(request, handle),
            (opcode::RELEASE, _) => self.release(request.unique, request.handle()),
            (opcode::FLUSH, Kind::Shared) => self.flush_shared(request, handle),
            (opcode::FLUSH, _) => self.on_data(request, handle),
            (opcode::SETLK | opcode::SETLKW, Kind::Shared) if unlock => self.lock_shared(request, handle),
            (opcode::SETLK | opcode::SETLKW, _) if unlock => {
                let then = Then::Passed { unique: request.unique };
                let body = [&handle.fh.to_le_bytes(), request.body.get(8..).unwrap_or(&[])];
                self.send(request.caller, opcode::SETLK, handle.kind, &body, then);
            }
            (opcode::READ | opcode::WRITE, Kind::Shared) => self.on_old_memory(request),
            _ => self.refuse(request.unique, errno::ESTALE),
        }
    }

    /// Pages of an older shared memory that the kernel still has: a READ gives zeros, a WRITE goes nowhere.
    fn on_old_memory(&mut self, request: &Request) {
        let size = u32_at(request.body, 16).min(MAX_DATA);
        match request.opcode {
            opcode::READ => self.reply(request.unique, &vec![0; size as usize]),
            _ => self.reply(request.unique, &u64::from(size).to_le_bytes()),
        }
    }

    /// READ and WRITE of the shared memory, which lies around the machine.
    pub(super) fn read_shared(&mut self, request: &Request) {
        let size = u32_at(request.body, 16).min(MAX_DATA);
        let action = Action::ReadShared { unique: request.unique, offset: u64_at(request.body, 8), size };
        self.output.actions.push(action);
    }

    pub(super) fn write_shared(&mut self, request: &Request) {
        let bytes = request.body.get(40..).unwrap_or(&[]).to_vec();
        let action = Action::WriteShared { unique: request.unique, offset: u64_at(request.body, 8), bytes };
        self.output.actions.push(action);
    }
}
