//! The pages of the database and of its log in the kernel's cache. They are the node's as long as only this mount has changed
//! the database, so the cache is dropped before a lock is granted under which another change would be seen:
//!
//! - in a rollback mode behind each lock of SHARED the position is asked for, and it must be the one that is known. Before
//!   EXCLUSIVE is given up it is asked for too: the next transaction is then this mount's own;
//! - in WAL mode a change of another changes the header of the shared memory, which is read behind each lock;
//! - who opens the database keeps its pages only where they are those of the present position, and who opens the log keeps
//!   none;
//! - what may have been read or written without a lock, or by a process that died, is never trusted.

use super::lock_request::LockRequest;
use super::output::Action;
use super::then::Then;
use super::Machine;
use crate::wire::{errno, lock, Kind};
use std::collections::VecDeque;

/// The bytes of SQLite's lock SHARED.
pub const SHARED: std::ops::RangeInclusive<u64> = 0x4000_0002..=0x4000_01ff;

/// Who waits until the cache is dropped.
pub enum Granted {
    Database(LockRequest),
    Shared,
}

/// What is known of the cache.
#[derive(Default)]
pub struct Cache {
    /// the position whose pages it may have
    position: Vec<u8>,
    /// whether it may have pages of no position
    pub suspect: bool,
    /// whether the database was written since EXCLUSIVE was taken
    pub written: bool,
    /// who holds SHARED, and how
    holders: Vec<(u64, u32)>,
    /// answers to lock requests whose position comes next
    answers: VecDeque<u32>,
    /// drops that were begun, those that are done, and who waits for which
    begun: u64,
    done: u64,
    waiting: VecDeque<(u64, Granted)>,
}

impl Cache {
    /// The owner's lock of SHARED is this from now on, or none.
    fn hold(&mut self, owner: u64, wish: Option<u32>) {
        self.holders.retain(|(other, _)| *other != owner);
        self.holders.extend(wish.map(|wish| (owner, wish)));
    }

    fn has_exclusive(&self, owner: u64) -> bool {
        self.holders.contains(&(owner, lock::WRITE))
    }
}

fn touches_shared(wanted: &LockRequest) -> bool {
    wanted.start <= *SHARED.end() && *SHARED.start() <= wanted.end
}

/// The transaction's number in a line of the position file.
fn transaction(position: &[u8]) -> Option<u64> {
    let digits = position.split(|byte| *byte == b'/').next()?;
    u64::from_str_radix(std::str::from_utf8(digits).ok()?, 16).ok()
}

impl Machine {
    /// Whether the file is cached by the kernel.
    pub(super) fn is_cached(&self, kind: Kind) -> bool {
        self.settings.cache && matches!(kind, Kind::Database | Kind::Log)
    }

    /// Whether the cache has pages of this position alone.
    pub(super) fn is_fresh_at(&self, position: Result<&[u8], u32>) -> bool {
        !self.cache.suspect && position == Ok(&self.cache.position[..])
    }

    /// Whether the request is about the lock SHARED of a database that is cached.
    fn is_checkable(&self, wanted: &LockRequest) -> bool {
        self.settings.cache && wanted.kind == Kind::Database && touches_shared(wanted)
    }

    /// Whether the position is to be asked for behind the lock.
    pub(super) fn is_checked(&self, wanted: &LockRequest) -> bool {
        self.is_checkable(wanted) && !wanted.is_unlock()
    }

    /// Before a request that gives EXCLUSIVE up the position is asked for.
    pub(super) fn before_lock(&mut self, wanted: &LockRequest) {
        let given_up = wanted.wish != lock::WRITE && self.cache.has_exclusive(wanted.owner);
        if self.is_checkable(wanted) && given_up {
            self.ask_position_then(Then::ExclusiveLeft);
        }
    }

    pub(super) fn exclusive_left(&mut self, result: Result<&[u8], u32>) {
        let now = result.unwrap_or(&[]).to_vec();
        let _ = self.position_read(result);
        let own = transaction(&now).is_some_and(|new| transaction(&self.cache.position).unwrap_or(0) + 1 == new);
        match (self.cache.written, own && !self.cache.suspect) {
            (true, true) => self.cache.position = now,
            (true, false) => self.cache.suspect = true,
            (false, _) => {}
        }
        self.cache.written = false;
    }

    /// The node's answer to a lock whose position comes next.
    pub(super) fn lock_to_check(&mut self, error: u32) {
        self.cache.answers.push_back(error);
    }

    /// The position behind a lock: where it is another than the known one, the cache goes first.
    pub(super) fn lock_checked(&mut self, wanted: LockRequest, result: Result<&[u8], u32>) {
        let error = self.cache.answers.pop_front().unwrap_or(errno::EIO);
        let now = result.unwrap_or(&[]).to_vec();
        self.position_read(result);
        if error != 0 {
            return self.answer_lock(&wanted, error);
        }
        let exclusive = self.cache.has_exclusive(wanted.owner);
        if wanted.wish == lock::WRITE && !exclusive {
            self.cache.written = false;
        }
        let stale = now.is_empty() || now != self.cache.position;
        self.cache.position = now;
        self.cache.hold(wanted.owner, Some(wanted.wish));
        self.when_fresh(stale, Granted::Database(wanted));
    }

    /// Goes on once no page of the cache is stale.
    pub(super) fn when_fresh(&mut self, stale: bool, granted: Granted) {
        if self.settings.cache && (stale || self.cache.suspect) {
            self.cache.suspect = false;
            self.cache.begun += 1;
            let nodes = [Kind::Database, Kind::Log].map(|kind| self.files.number(kind));
            self.output.actions.push(Action::DropCache { nodes });
        }
        if self.cache.begun == self.cache.done {
            return self.fresh(granted);
        }
        self.cache.waiting.push_back((self.cache.begun, granted));
    }

    /// One drop of the cache is done.
    pub fn dropped(&mut self) {
        self.cache.done += 1;
        while self.cache.waiting.front().is_some_and(|(drop, _)| *drop <= self.cache.done) {
            if let Some((_, granted)) = self.cache.waiting.pop_front() {
                self.fresh(granted);
            }
        }
        self.shared_next();
    }

    fn fresh(&mut self, granted: Granted) {
        match granted {
            Granted::Shared => self.finish_shared(0),
            Granted::Database(wanted) if wanted.epoch != self.link.epoch => self.answer_lock(&wanted, errno::ESTALE),
            Granted::Database(wanted) => {
                self.keep_owner(&wanted);
                self.answer_lock(&wanted, 0);
            }
        }
    }

    /// An owner gives SHARED up.
    pub(super) fn unlocked(&mut self, wanted: &LockRequest) {
        if self.is_checkable(wanted) {
            self.cache.hold(wanted.owner, None);
        }
    }

    /// An owner's locks of the database go. One who held EXCLUSIVE may have written what goes with them.
    pub(super) fn database_flushed(&mut self, owner: u64) {
        self.owners.left(owner, Kind::Database);
        self.cache.suspect |= self.cache.has_exclusive(owner);
        self.cache.hold(owner, None);
    }

    /// A READ of the database. Without a lock it may see what no position has.
    pub(super) fn database_read(&mut self) {
        self.cache.suspect |= self.cache.holders.is_empty();
    }

    /// The link is lost, and with it every lock. The file gets a new number, and with it a new cache.
    pub(super) fn cache_lost(&mut self) {
        self.cache.position.clear();
        self.cache.suspect = true;
        self.cache.holders.clear();
    }
}
