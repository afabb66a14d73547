//! The steps of one job: the header is fetched where the node may have to be told it, then the node is asked, then what
//! the node changed of the header is put in, and last the kernel is answered.

use super::header::{read_body, HEADER};
use super::job::{Asked, Job};
use crate::bytes::{put_u32, put_u64, u32_at, u64_at};
use crate::machine::cache::Granted;
use crate::machine::link::OWN;
use crate::machine::lock_request::LockRequest;
use crate::machine::output::Action;
use crate::machine::then::Then;
use crate::machine::Machine;
use crate::wire::{errno, lock, opcode, Kind};

/// The bit of SETATTR that says that a size is given.
const HAS_SIZE: u32 = 8;

/// The last byte of a lock that the node keeps; DMS is behind it.
const LAST_AT_NODE: u64 = super::dms::DMS - 1;

/// Which reply of the node comes.
pub enum Step {
    /// to the SETLK by which DMS is taken at the node
    TookDms,
    /// to the WRITE of this header
    Told([u8; HEADER]),
    /// to SETLK
    Locked,
    /// to the READ of the header behind it
    Header,
    /// to FLUSH
    Flushed,
    /// to SETATTR
    Resized,
}

impl Machine {
    /// Begins a job, or answers it where the node no longer has what it is about.
    pub(super) fn begin_shared(&mut self, job: Job) {
        self.shared.queue.failure = 0;
        self.shared.queue.dms_before = None;
        let lost = job.epoch != self.link.epoch;
        let removed = job.generation != self.files.generation(Kind::Shared);
        let takes = match &job.asked {
            Asked::Lock(wanted) => !wanted.is_unlock(),
            Asked::Resize { .. } => true,
            Asked::Flush { .. } | Asked::Release => false,
        };
        let dms = matches!(&job.asked, Asked::Lock(wanted) if wanted.touches(super::dms::DMS));
        self.shared.queue.current = Some(job);
        match (lost, removed && takes) {
            (true, _) => self.finish_shared(0),
            (_, true) => self.finish_shared(errno::ESTALE),
            _ if dms => self.lock_dms(),
            _ => self.prepare_shared(),
        }
    }

    /// Fetches the header where the job gives up a lock under which it is written.
    pub(super) fn prepare_shared(&mut self) {
        let Some(job) = &self.shared.queue.current else { return };
        let writers = &mut self.shared.writers;
        let gives_up = match &job.asked {
            Asked::Lock(wanted) => writers.are_given_up(wanted),
            Asked::Flush { owner } => writers.has(*owner),
            Asked::Release => self.handles.get(job.number).and_then(|h| h.lock_owner).is_some_and(|owner| writers.has(owner)),
            Asked::Resize { .. } => false,
        };
        if gives_up && job.generation == self.files.generation(Kind::Shared) {
            let node = self.files.number(Kind::Shared);
            return self.output.actions.push(Action::FetchShared { node });
        }
        self.ask_shared(None);
    }

    /// The header as it stands in the shared memory; fewer bytes where it has fewer.
    pub fn fetched(&mut self, memory: &[u8]) {
        match self.shared_is_lost() {
            true => self.finish_shared(errno::ENOTCONN),
            false => {
                let news = self.shared.header.news(memory);
                self.ask_shared(news);
            }
        }
        self.shared_next();
    }

    fn shared_is_lost(&self) -> bool {
        self.shared.queue.current.as_ref().is_none_or(|job| job.epoch != self.link.epoch)
    }

    /// Asks the node; in front goes the header that it must be told.
    fn ask_shared(&mut self, news: Option<[u8; HEADER]>) {
        let Some(job) = &self.shared.queue.current else { return };
        let (caller, fh, number) = (job.caller, job.fh, job.number);
        if let Some(header) = news {
            self.send(caller, opcode::WRITE, Kind::Shared, &[&read_body(fh), &header], Then::Shared(Step::Told(header)));
        }
        let Some(job) = &self.shared.queue.current else { return };
        match &job.asked {
            Asked::Lock(wanted) => {
                let wanted = *wanted;
                self.ask_shared_lock(&wanted, news.is_some());
            }
            Asked::Flush { owner } => {
                let body = Self::flush_body(fh, *owner);
                self.send(caller, opcode::FLUSH, Kind::Shared, &[&body], Then::Shared(Step::Flushed));
            }
            Asked::Resize { body } => {
                let body = body.clone();
                self.send(caller, opcode::SETATTR, Kind::Shared, &[&body], Then::Shared(Step::Resized));
            }
            Asked::Release => {
                if let Some(owner) = self.handles.get(number).and_then(|handle| handle.lock_owner) {
                    self.flush_at_node(Kind::Shared, fh, owner);
                }
                self.finish_shared(0);
            }
        }
    }

    /// Behind a lock the header is asked for. The answer to an unlock that tells nothing is not waited for.
    fn ask_shared_lock(&mut self, wanted: &LockRequest, told: bool) {
        let body = wanted.body_until(LAST_AT_NODE);
        let at_node = wanted.start <= LAST_AT_NODE;
        if wanted.is_unlock() && !told {
            if at_node {
                self.send(wanted.caller, opcode::SETLK, Kind::Shared, &[&body], Then::Ignored);
            }
            return self.finish_shared(0);
        }
        if !at_node {
            return self.finish_shared(0);
        }
        self.send(wanted.caller, opcode::SETLK, Kind::Shared, &[&body], Then::Shared(Step::Locked));
        if !wanted.is_unlock() {
            let read = read_body(wanted.fh);
            self.send(OWN, opcode::READ, Kind::Shared, &[&read], Then::Shared(Step::Header));
        }
    }

    pub(in crate::machine) fn shared_answered(&mut self, step: Step, result: Result<&[u8], u32>) {
        match (step, result) {
            (Step::TookDms, _) => self.took_dms(result.err().unwrap_or(0)),
            (Step::Told(header), Ok(_)) => self.shared.header.told(header),
            (Step::Told(_), Err(error)) => self.shared.queue.failure = error,
            (Step::Locked, _) => self.shared_lock_answered(result.err().unwrap_or(0)),
            (Step::Header, _) => self.shared_header_read(result),
            (Step::Flushed, _) => self.finish_shared(0),
            (Step::Resized, _) => self.shared_resized(result),
        }
        self.shared_next();
    }

    fn shared_lock_answered(&mut self, error: u32) {
        let queue = &mut self.shared.queue;
        if queue.failure == 0 {
            queue.failure = error;
        }
        let unlock = matches!(&queue.current, Some(Job { asked: Asked::Lock(wanted), .. }) if wanted.is_unlock());
        if unlock {
            self.finish_shared(self.shared.queue.failure);
        }
    }

    fn shared_header_read(&mut self, result: Result<&[u8], u32>) {
        let failure = self.shared.queue.failure;
        match result {
            _ if failure != 0 => self.finish_shared(failure),
            Err(_) => self.give_back_lock(),
            Ok(header) => {
                let known = self.shared.header.is_known();
                let pieces = self.shared.header.changes(header);
                if pieces.is_empty() {
                    return self.when_fresh(!known, Granted::Shared);
                }
                let node = self.files.number(Kind::Shared);
                self.output.actions.push(Action::PutShared { node, pieces });
            }
        }
    }

    /// The lock is held at the node, but its header could not be read: so it is not granted.
    fn give_back_lock(&mut self) {
        if let Some(Job { asked: Asked::Lock(wanted), .. }) = &self.shared.queue.current {
            let mut body = wanted.body_until(LAST_AT_NODE);
            put_u32(&mut body, 32, lock::UNLOCK);
            let caller = wanted.caller;
            self.send(caller, opcode::SETLK, Kind::Shared, &[&body], Then::Ignored);
        }
        self.finish_shared(errno::EREMOTEIO);
    }

    /// The node's changes of the header stand in the shared memory.
    pub fn put_done(&mut self) {
        self.when_fresh(true, Granted::Shared);
        self.shared_next();
    }

    fn shared_resized(&mut self, result: Result<&[u8], u32>) {
        let Some(Job { unique, asked: Asked::Resize { body }, .. }) = self.shared.queue.current.take() else { return };
        if result.is_ok() && u32_at(&body, 0) & HAS_SIZE != 0 {
            let size = u64_at(&body, 16);
            self.output.actions.push(Action::CutShared { size });
            if size < HEADER as u64 {
                self.shared.header.forget();
            }
        }
        self.attributes_answered(unique, Kind::Shared, result);
    }

    /// Answers the kernel.
    pub(in crate::machine) fn finish_shared(&mut self, error: u32) {
        let Some(job) = self.shared.queue.current.take() else { return };
        let lost = job.epoch != self.link.epoch;
        match &job.asked {
            Asked::Lock(wanted) => self.finish_lock(wanted, error, lost),
            Asked::Flush { owner } => {
                self.owner_left(job.fh, *owner, job.generation, lost);
                self.accept(job.unique);
            }
            Asked::Release => {
                if let Some(owner) = self.handles.get(job.number).and_then(|handle| handle.lock_owner) {
                    self.owner_left(job.fh, owner, job.generation, lost);
                }
                self.forget_handle(job.number);
                self.accept(job.unique);
            }
            Asked::Resize { .. } => self.refuse(job.unique, if error == 0 { errno::ESTALE } else { error }),
        }
    }

    fn finish_lock(&mut self, wanted: &LockRequest, error: u32, lost: bool) {
        if !lost && error == 0 {
            self.shared.writers.granted(wanted);
            match wanted.is_unlock() {
                true => self.owners.granted(wanted),
                false => self.keep_owner(wanted),
            }
        }
        if let (false, Some(before)) = (lost || error == 0, self.shared.queue.dms_before) {
            self.shared.dms.set(wanted.owner, wanted.generation, before);
            self.leave_dms(wanted.fh);
        }
        self.answer_lock(wanted, error);
    }

    /// An owner has no locks any more.
    fn owner_left(&mut self, fh: u64, owner: u64, generation: u32, lost: bool) {
        if !lost {
            self.cache.suspect |= self.shared.writers.writes(owner);
            self.shared.writers.flushed(owner);
            self.owners.left(owner, Kind::Shared);
            self.shared.dms.set(owner, generation, None);
            self.leave_dms(fh);
        }
    }

    /// The message by which DMS is taken at the node.
    pub(super) fn take_dms(&mut self, fh: u64) {
        let mut body = [0; crate::machine::lock_request::LOCK_BODY];
        put_u64(&mut body, 0, fh);
        put_u64(&mut body, 8, super::dms::OWN_OWNER);
        put_u64(&mut body, 16, super::dms::DMS);
        put_u64(&mut body, 24, super::dms::DMS);
        put_u32(&mut body, 32, lock::WRITE);
        self.send(OWN, opcode::SETLK, Kind::Shared, &[&body], Then::Shared(Step::TookDms));
    }
}
