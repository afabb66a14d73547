//! OPEN, CREATE and RELEASE.

use super::attributes::ENTRY;
use super::files::PRIMARY;
use super::link::OWN;
use super::output::{Action, Reply};
use super::request::{Caller, Request};
use super::then::Then;
use super::Machine;
use crate::bytes::{put_u32, put_u64, u32_at, u64_at};
use crate::wire::{errno, opcode, open, Kind, REPLY_HEAD};

/// The bytes of `fuse_open_out`.
const OPENED: usize = 16;

/// The bits of the open flags that say how a file is opened, and the value for reading alone.
const ACCESS: u32 = 3;
const READ_ONLY: u32 = 0;

/// An OPEN of the kernel.
pub struct Open {
    unique: u64,
    caller: Caller,
    kind: Kind,
    generation: u32,
    /// whether the kernel keeps what it has of the file's pages
    keep: bool,
}

impl Machine {
    pub(super) fn open(&mut self, request: &Request, kind: Kind) {
        let generation = self.files.generation(kind);
        let open = Open { unique: request.unique, caller: request.caller, kind, generation, keep: false };
        let writes = u32_at(request.body, 0) & ACCESS != READ_ONLY;
        if kind == Kind::Database && writes && self.settings.read_only_at_replica {
            let name = [PRIMARY, &[0]].concat();
            return self.send(request.caller, opcode::LOOKUP, Kind::Root, &[&name], Then::Role(open));
        }
        self.open_fresh(open);
    }

    /// Only a replica has the file that names its primary: there the database is opened for reading alone.
    pub(super) fn role_answered(&mut self, open: Open, result: Result<&[u8], u32>) {
        match result {
            Ok(_) => self.refuse(open.unique, errno::EROFS),
            Err(errno::ENOENT) => self.open_fresh(open),
            Err(error) => self.refuse(open.unique, error),
        }
    }

    /// Who opens the database may read it without a lock. So its pages are kept only where they are those of now.
    fn open_fresh(&mut self, open: Open) {
        match self.settings.cache && open.kind == Kind::Database {
            true => self.ask_position_then(Then::OpenAt(open)),
            false => self.open_at_node(open),
        }
    }

    pub(super) fn open_at(&mut self, mut open: Open, position: Result<&[u8], u32>) {
        open.keep = self.is_fresh_at(position);
        self.position_read(position);
        self.open_at_node(open);
    }

    fn open_at_node(&mut self, open: Open) {
        match self.handles.at_node(open.kind, open.generation, self.link.epoch) {
            Some(fh) => self.add_handle(&open, fh),
            None => self.send(open.caller, opcode::OPEN, open.kind, &[&[0; 8]], Then::Opened(open)),
        }
    }

    pub(super) fn opened(&mut self, open: Open, result: Result<&[u8], u32>) {
        match result {
            Ok(body) if body.len() == OPENED => {
                let fh = self.one_handle(open.kind, open.generation, u64_at(body, 0));
                self.add_handle(&open, fh);
            }
            Ok(_) => self.refuse(open.unique, errno::EIO),
            Err(error) => self.refuse(open.unique, error),
        }
    }

    /// The node's handle to go on with: where the file is open already, the new one is given back.
    fn one_handle(&mut self, kind: Kind, generation: u32, new: u64) -> u64 {
        match self.handles.at_node(kind, generation, self.link.epoch) {
            Some(fh) if fh != new => {
                self.close_at_node(kind, new);
                fh
            }
            _ => new,
        }
    }

    pub(super) fn close_at_node(&mut self, kind: Kind, fh: u64) {
        let mut body = [0; 24];
        put_u64(&mut body, 0, fh);
        self.send(OWN, opcode::RELEASE, kind, &[&body], Then::Ignored);
    }

    fn add_handle(&mut self, open: &Open, fh: u64) {
        let mut reply = Reply::new(open.unique, &[0; OPENED]);
        self.complete_open(&mut reply, 0, open.kind, open.generation, fh);
        if open.keep {
            put_u32(reply.body(), 8, open::KEEP_CACHE);
        }
        self.output.actions.push(Action::Reply(reply));
    }

    /// Puts the kernel's handle and the way of opening at `at` of the body.
    fn complete_open(&mut self, reply: &mut Reply, at: usize, kind: Kind, generation: u32, fh: u64) {
        self.shared_known(kind);
        let number = self.handles.add(kind, generation, self.link.epoch, fh);
        put_u64(reply.body(), at, number);
        put_u32(reply.body(), at + 8, if self.is_cached(kind) { 0 } else { open::DIRECT_IO });
        if kind == Kind::Shared {
            reply.open_at = Some(REPLY_HEAD + at + 8);
        }
    }

    pub(super) fn create(&mut self, request: &Request) {
        self.send(request.caller, opcode::CREATE, Kind::Root, &[request.body], Then::Created { unique: request.unique });
    }

    pub(super) fn created(&mut self, unique: u64, result: Result<&[u8], u32>) {
        let body = match result {
            Ok(body) if body.len() == ENTRY + OPENED => body,
            Ok(_) => return self.refuse(unique, errno::EIO),
            Err(error) => return self.refuse(unique, error),
        };
        let mut reply = Reply::new(unique, body);
        let Some(kind) = self.complete_entry(&mut reply) else { return self.refuse(unique, errno::EIO) };
        let generation = self.files.generation(kind);
        let fh = self.one_handle(kind, generation, u64_at(body, ENTRY));
        self.complete_open(&mut reply, ENTRY, kind, generation, fh);
        self.output.actions.push(Action::Reply(reply));
    }

    /// RELEASE. Nobody says when the locks of an open file description end, so they are taken back here.
    pub(super) fn release(&mut self, unique: u64, number: u64) {
        if let Some(handle) = self.handles.get(number) {
            if let Some(owner) = handle.lock_owner {
                self.flush_at_node(handle.kind, handle.fh, owner);
                if handle.kind == Kind::Database {
                    self.database_flushed(owner);
                }
            }
            self.forget_handle(number);
        }
        self.accept(unique);
    }

    /// Forgets a handle, and closes the node's where it was the last over it.
    pub(super) fn forget_handle(&mut self, number: u64) {
        let Some(handle) = self.handles.get(number) else { return };
        let last = self.handles.remove(number);
        if last && handle.epoch == self.link.epoch {
            self.close_at_node(handle.kind, handle.fh);
        }
    }

    pub(super) fn flush_at_node(&mut self, kind: Kind, fh: u64, owner: u64) {
        let mut body = [0; 24];
        put_u64(&mut body, 0, fh);
        put_u64(&mut body, 16, owner);
        self.send(OWN, opcode::FLUSH, kind, &[&body], Then::Ignored);
    }
}
