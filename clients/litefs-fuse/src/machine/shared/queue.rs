//! Requests on the shared memory, one at a time.

use super::job::{Asked, Job};
use crate::machine::handles::Handle;
use crate::machine::lock_request::LockRequest;
use crate::bytes::{put_u32, put_u64, u64_at};
use crate::machine::link::OWN;
use crate::machine::request::Request;
use crate::machine::then::Then;
use crate::machine::waits::Again;
use crate::machine::Machine;
use crate::wire::{lock, opcode, Kind};
use std::collections::VecDeque;

/// The job that is being done, and those behind it.
#[derive(Default)]
pub struct Queue {
    pub current: Option<Job>,
    /// the first error of the current job
    pub failure: u32,
    /// how the current job's owner held DMS before, where the job changed it
    pub dms_before: Option<Option<u32>>,
    waiting: VecDeque<Job>,
}

impl Machine {
    fn shared_job(&mut self, job: Job) {
        self.shared.queue.waiting.push_back(job);
        self.shared_next();
    }

    /// Begins the next job where none is being done.
    pub(in crate::machine) fn shared_next(&mut self) {
        while self.shared.queue.current.is_none() {
            let Some(job) = self.shared.queue.waiting.pop_front() else { return };
            self.begin_shared(job);
        }
    }

    pub(in crate::machine) fn lock_shared(&mut self, request: &Request, handle: &Handle) {
        let wanted = LockRequest::read(request, handle);
        if wanted.waits && !wanted.is_unlock() {
            self.waits.begin(wanted.unique, Again::Shared(wanted));
        }
        self.lock_shared_again(wanted);
    }

    pub(in crate::machine) fn lock_shared_again(&mut self, wanted: LockRequest) {
        self.shared_job(Job::of_lock(wanted));
    }

    pub(in crate::machine) fn flush_shared(&mut self, request: &Request, handle: &Handle) {
        let owner = u64_at(request.body, 16);
        self.flushed(request.handle(), owner);
        self.shared_job(Job::new(request, handle, Asked::Flush { owner }));
    }

    pub(in crate::machine) fn release_shared(&mut self, request: &Request, handle: &Handle) {
        self.shared_job(Job::new(request, handle, Asked::Release));
    }

    pub(in crate::machine) fn resize_shared(&mut self, request: &Request) {
        let asked = Asked::Resize { body: request.body.to_vec() };
        self.shared_job(Job {
            unique: request.unique,
            caller: request.caller,
            asked,
            number: 0,
            fh: 0,
            epoch: self.link.epoch,
            generation: self.files.generation(Kind::Shared),
        });
    }

    /// GETLK. DMS at the node is this program's, so who asks for it is told of the holders here.
    pub(in crate::machine) fn get_shared_lock(&mut self, request: &Request, handle: &Handle) {
        let wanted = LockRequest::read(request, handle);
        let only_dms = wanted.start == super::dms::DMS && wanted.end == super::dms::DMS;
        let conflict = self.shared.dms.conflict(&wanted);
        if !only_dms || (conflict.is_none() && self.shared.dms.at_node.is_none()) {
            return self.on_data(request, handle);
        }
        let mut answer = [0; 24];
        put_u64(&mut answer, 0, wanted.start);
        put_u64(&mut answer, 8, wanted.end);
        put_u32(&mut answer, 16, conflict.unwrap_or(lock::UNLOCK));
        self.reply(request.unique, &answer);
    }

    /// FLUSH at the node, with this program as its caller.
    pub(super) fn flush_body(fh: u64, owner: u64) -> [u8; 24] {
        let mut body = [0; 24];
        put_u64(&mut body, 0, fh);
        put_u64(&mut body, 16, owner);
        body
    }

    /// Gives DMS back at the node where nobody here holds it any more.
    pub(super) fn leave_dms(&mut self, fh: u64) {
        if self.shared.dms.is_left() {
            self.shared.dms.at_node = None;
            let body = Self::flush_body(fh, super::dms::OWN_OWNER);
            self.send(OWN, opcode::FLUSH, Kind::Shared, &[&body], Then::Ignored);
        }
    }
}
