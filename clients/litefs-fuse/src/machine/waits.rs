//! Processes that wait for a lock. Each is asked for again at every tick, one of the lock file more and more seldom: there the
//! node may have to ask the primary. A signal ends the wait.

use super::lock_request::LockRequest;
use super::Machine;
use crate::wire::{errno, Kind};

/// The most ticks from one question to the next, of the lock file and of others.
const LONGEST: u32 = 25;
const SHORTEST: u32 = 1;

/// What is asked again.
#[derive(Clone, Copy)]
pub enum Again {
    Plain(LockRequest),
    Shared(LockRequest),
}

struct Wait {
    unique: u64,
    again: Again,
    /// how many ticks it is left alone each time, and how many of them are left
    step: u32,
    left: u32,
    /// whether the node is being asked
    asked: bool,
    interrupted: bool,
}

#[derive(Default)]
pub struct Waits(Vec<Wait>);

impl Waits {
    pub fn begin(&mut self, unique: u64, again: Again) {
        self.0.push(Wait { unique, again, step: 0, left: 0, asked: true, interrupted: false });
    }

    pub fn end(&mut self, unique: u64) {
        self.0.retain(|wait| wait.unique != unique);
    }

    /// The lock is not free. Tells whether the wait has ended by a signal.
    pub fn refused(&mut self, unique: u64) -> bool {
        let Some(wait) = self.0.iter_mut().find(|wait| wait.unique == unique) else { return true };
        wait.rest();
        let ended = wait.interrupted;
        if ended {
            self.end(unique);
        }
        ended
    }
}

impl Wait {
    /// It is left alone for a while, twice as long as the last time.
    fn rest(&mut self) {
        let longest = match self.again {
            Again::Plain(wanted) if wanted.kind == Kind::Lock => LONGEST,
            _ => SHORTEST,
        };
        self.step = (2 * self.step).clamp(SHORTEST, longest);
        self.left = self.step;
        self.asked = false;
    }

    /// One tick more. Tells whether it is to be asked for now.
    fn is_due(&mut self) -> bool {
        self.left = self.left.saturating_sub(1);
        !self.asked && self.left == 0
    }
}

impl Machine {
    /// Whether somebody waits for a lock, so that `tick` is to be called every two milliseconds.
    pub fn is_waiting(&self) -> bool {
        !self.waits.0.is_empty()
    }

    /// Asks for every lock that is waited for and was left alone long enough.
    pub fn tick(&mut self) {
        let due = self.waits.0.iter_mut().filter_map(|wait| wait.is_due().then_some(wait));
        let again: Vec<Again> = due
            .map(|wait| {
                wait.asked = true;
                wait.again
            })
            .collect();
        for next in again {
            match next {
                Again::Plain(wanted) => self.ask_lock(wanted),
                Again::Shared(wanted) => self.lock_shared_again(wanted),
            }
        }
    }

    /// A signal came for the process that waits for this request.
    pub(super) fn interrupt(&mut self, unique: u64) {
        let Some(wait) = self.waits.0.iter_mut().find(|wait| wait.unique == unique) else { return };
        wait.interrupted = true;
        if !wait.asked {
            self.waits.end(unique);
            self.refuse(unique, errno::EINTR);
        }
    }

    /// The link is lost: who waits idly is answered, as a request by a lost handle is.
    pub(super) fn waits_lost(&mut self) {
        let (idle, asked) = std::mem::take(&mut self.waits.0).into_iter().partition(|wait: &Wait| !wait.asked);
        self.waits.0 = asked;
        let idle: Vec<Wait> = idle;
        for wait in idle {
            match wait.again {
                Again::Shared(wanted) if wanted.kind == Kind::Shared => self.accept(wait.unique),
                _ => self.refuse(wait.unique, errno::ESTALE),
            }
        }
    }
}
