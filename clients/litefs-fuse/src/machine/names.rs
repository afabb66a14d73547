//! LOOKUP, CREATE and UNLINK.

use super::attributes::ENTRY;
use super::files::kind_of;
use super::journal::Journal;
use super::output::{Action, Reply};
use super::request::Request;
use super::then::Then;
use super::Machine;
use crate::wire::{errno, opcode, Kind};

impl Machine {
    pub(super) fn look_up(&mut self, request: &Request) {
        let name = request.name(0).to_vec();
        if kind_of(&name) == Kind::Database {
            self.ask_position();
        }
        let then = Then::Entry { unique: request.unique, name };
        self.send(request.caller, opcode::LOOKUP, Kind::Root, &[request.body], then);
    }

    pub(super) fn looked_up(&mut self, unique: u64, name: &[u8], result: Result<&[u8], u32>) {
        let body = match result {
            Ok(body) if body.len() == ENTRY => body,
            Ok(_) => return self.refuse(unique, errno::EIO),
            Err(error) => return self.refuse(unique, error),
        };
        let mut reply = Reply::new(unique, body);
        match self.complete_entry(&mut reply) {
            Some(kind) => {
                self.files.learn(name, kind);
                self.output.actions.push(Action::Reply(reply));
            }
            None => self.refuse(unique, errno::EIO),
        }
    }

    /// UNLINK. The name of the database itself drops the database, which must be allowed. No process loses its journal or
    /// its log to another.
    pub(super) fn unlink(&mut self, request: &Request) {
        let kind = kind_of(request.name(0));
        match kind {
            Kind::Database if !self.settings.may_drop => self.refuse(request.unique, errno::EPERM),
            Kind::Journal if self.files.is_named(request.name(0), kind) => self.remove_journal(request),
            Kind::Log | Kind::Shared if self.is_used_by_others(&request.caller) => self.refuse(request.unique, errno::EBUSY),
            _ => self.remove(request, kind),
        }
    }

    fn remove(&mut self, request: &Request, kind: Kind) {
        let then = Then::Removed { unique: request.unique, kind };
        self.send(request.caller, opcode::UNLINK, Kind::Root, &[request.body], then);
    }

    pub(super) fn removed(&mut self, unique: u64, kind: Kind, result: Result<&[u8], u32>) {
        if result.is_ok() && kind == Kind::Journal {
            self.journal = Journal::default();
        }
        if result.is_ok() && matches!(kind, Kind::Journal | Kind::Log | Kind::Shared) {
            self.files.renew(kind);
        }
        self.pass(unique, result);
    }
}
