//! Which request goes where.

use super::output::Action;
use super::request::Request;
use super::Machine;
use crate::bytes::u64_at;
use crate::wire::{errno, opcode, Kind};

impl Machine {
    /// One request, as it was read from the device.
    pub fn kernel(&mut self, message: &[u8]) {
        let Some(request) = Request::read(message) else { return };
        let unique = request.unique;
        match request.opcode {
            opcode::FORGET | opcode::BATCH_FORGET | opcode::NOTIFY_REPLY => {}
            opcode::INTERRUPT => self.interrupt(u64_at(request.body, 0)),
            opcode::INIT => self.start(unique, request.body),
            opcode::DESTROY => {
                self.accept(unique);
                self.output.actions.push(Action::Stop);
            }
            opcode::OPENDIR => self.reply(unique, &[0; 16]),
            opcode::RELEASEDIR | opcode::FSYNCDIR => self.accept(unique),
            opcode::READDIR => self.list(&request),
            opcode::STATFS => self.disk(unique),
            opcode::MKNOD | opcode::MKDIR | opcode::RMDIR | opcode::RENAME | opcode::RENAME2 | opcode::LINK => {
                self.refuse(unique, errno::EPERM)
            }
            opcode::LOOKUP => self.look_up(&request),
            opcode::CREATE => self.create(&request),
            opcode::UNLINK => self.unlink(&request),
            opcode::GETATTR | opcode::SETATTR | opcode::OPEN => self.on_file(&request),
            opcode::READ | opcode::WRITE | opcode::FSYNC | opcode::FLUSH | opcode::RELEASE => self.on_handle(&request),
            opcode::GETLK | opcode::SETLK | opcode::SETLKW => self.on_handle(&request),
            _ => self.refuse(unique, errno::ENOSYS),
        }
    }

    /// A request on a file by its number.
    fn on_file(&mut self, request: &Request) {
        match (request.opcode, self.files.of(request.node)) {
            (opcode::GETATTR, Some((Kind::Root, _))) => self.folder_attributes(request.unique),
            (_, Some((kind, true))) => self.on_present_file(request, kind),
            _ => self.on_old_file(request),
        }
    }

    fn on_present_file(&mut self, request: &Request, kind: Kind) {
        match (request.opcode, kind) {
            (opcode::OPEN, _) => self.open(request, kind),
            (opcode::SETATTR, Kind::Shared) => self.resize_shared(request),
            (opcode::SETATTR, Kind::Journal) => self.set_journal(request),
            _ => self.attributes(request, kind),
        }
    }

    /// A request on an open file. The handle decides which file it is.
    fn on_handle(&mut self, request: &Request) {
        let Some(handle) = self.handles.get(request.handle()) else {
            return self.on_unknown_handle(request);
        };
        if handle.epoch != self.link.epoch {
            return self.on_lost_handle(request, handle.kind);
        }
        if handle.generation != self.files.generation(handle.kind) {
            return self.on_removed_file(request, &handle);
        }
        match (handle.kind, request.opcode) {
            (Kind::Shared, opcode::READ) => self.read_shared(request),
            (Kind::Shared, opcode::WRITE) => self.write_shared(request),
            (Kind::Shared, opcode::GETLK) => self.get_shared_lock(request, &handle),
            (Kind::Shared, opcode::SETLK | opcode::SETLKW) => self.lock_shared(request, &handle),
            (Kind::Shared, opcode::FLUSH) => self.flush_shared(request, &handle),
            (Kind::Shared, opcode::RELEASE) => self.release_shared(request, &handle),
            (_, opcode::SETLK | opcode::SETLKW) => self.set_lock(request, &handle),
            (_, opcode::RELEASE) => self.release(request.unique, request.handle()),
            _ => self.on_data(request, &handle),
        }
    }
}
