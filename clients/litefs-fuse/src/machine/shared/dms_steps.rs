//! A lock request that touches DMS.

use super::job::{Asked, Job};
use crate::machine::lock_request::LockRequest;
use crate::machine::Machine;
use crate::wire::errno;

impl Machine {
    /// Grants DMS here, and takes it at the node for the first who holds it.
    pub(super) fn lock_dms(&mut self) {
        let Some(wanted) = self.wanted_dms() else { return };
        if wanted.is_unlock() {
            self.shared.dms.set(wanted.owner, wanted.generation, None);
            self.leave_dms(wanted.fh);
            return self.prepare_shared();
        }
        if self.shared.dms.conflict(&wanted).is_some() {
            return self.finish_shared(errno::EAGAIN);
        }
        match self.shared.dms.at_node == Some(wanted.generation) {
            true => self.hold_dms(&wanted),
            false => self.take_dms(wanted.fh),
        }
    }

    pub(super) fn took_dms(&mut self, error: u32) {
        match self.wanted_dms() {
            Some(wanted) if error == 0 => {
                self.shared.dms.at_node = Some(wanted.generation);
                self.hold_dms(&wanted);
            }
            _ => self.finish_shared(error),
        }
    }

    fn hold_dms(&mut self, wanted: &LockRequest) {
        let before = self.shared.dms.held(wanted.owner, wanted.generation);
        self.shared.queue.dms_before = Some(before);
        self.shared.dms.set(wanted.owner, wanted.generation, Some(wanted.wish));
        self.prepare_shared();
    }

    fn wanted_dms(&self) -> Option<LockRequest> {
        match &self.shared.queue.current {
            Some(Job { asked: Asked::Lock(wanted), .. }) => Some(*wanted),
            _ => None,
        }
    }
}
