//! READ, WRITE, FSYNC, FLUSH, GETLK, GETATTR and SETATTR: each is one message, and its reply the answer.

use super::handles::Handle;
use super::request::Request;
use super::then::Then;
use super::Machine;
use crate::bytes::u64_at;
use crate::wire::{errno, opcode, Kind};

impl Machine {
    pub(super) fn attributes(&mut self, request: &Request, kind: Kind) {
        let then = Then::Attributes { unique: request.unique, kind };
        if kind == Kind::Database && request.opcode == opcode::SETATTR {
            self.cache.written = true;
        }
        self.send(request.caller, request.opcode, kind, &[request.body], then);
    }

    pub(super) fn on_data(&mut self, request: &Request, handle: &Handle) {
        let unique = request.unique;
        if request.opcode == opcode::FLUSH {
            self.flushed(request.handle(), u64_at(request.body, 16));
        }
        if handle.kind == Kind::Database {
            self.on_database(request);
        }
        self.on_journal(request, handle);
        let then = if request.opcode == opcode::READ { Then::Data { unique } } else { Then::Passed { unique } };
        let rest = request.body.get(8..).unwrap_or(&[]);
        self.send(request.caller, request.opcode, handle.kind, &[&handle.fh.to_le_bytes(), rest], then);
    }

    fn on_database(&mut self, request: &Request) {
        match request.opcode {
            opcode::FLUSH => self.database_flushed(u64_at(request.body, 16)),
            opcode::READ => self.database_read(),
            opcode::WRITE => self.cache.written = true,
            _ => {}
        }
    }

    /// After a FLUSH its owner has no lock by this handle.
    pub(super) fn flushed(&mut self, number: u64, owner: u64) {
        if let Some(handle) = self.handles.get_mut(number) {
            handle.lock_owner = handle.lock_owner.filter(|other| *other != owner);
        }
    }

    /// SQLite takes three errors of a read for a damaged database; the kernel is told another in their place.
    pub(super) fn read_answered(&mut self, unique: u64, result: Result<&[u8], u32>) {
        let told = result.map_err(|error| match error {
            errno::EIO | errno::ENXIO | errno::ERANGE => errno::EREMOTEIO,
            other => other,
        });
        self.pass(unique, told);
    }
}
