//! The database's pages in the kernel's cache, and when they are dropped.

use super::trial::*;
use crate::bytes::u32_at;
use crate::machine::output::Action;
use crate::machine::{Settings, HEADER};
use crate::wire::opcode;

const READ: u32 = 0;
const WRITE: u32 = 1;
const UNLOCK: u32 = 2;

/// The lock SHARED.
const FIRST: u64 = 0x4000_0002;
const LAST: u64 = 0x4000_01ff;

const ONE: &[u8] = b"0000000000000001/00000000000000aa\n";
const TWO: &[u8] = b"0000000000000002/00000000000000bb\n";
const THREE: &[u8] = b"0000000000000003/00000000000000cc\n";

struct Cached {
    trial: Trial,
    number: u64,
    log: u64,
    handle: u64,
}

impl Cached {
    /// A mount whose cache has the pages of the first position.
    fn new() -> Cached {
        let mut trial = Trial::linked(Settings { cache: true, ..Settings::default() });
        let log = trial.look_up(b"app-wal", LOG);
        let (number, handle) = trial.opened(b"app", DATABASE, 5);
        let mut cached = Cached { trial, number, log, handle };
        assert!(cached.takes(40, READ, ONE));
        cached.gives_up(40);
        cached
    }

    /// An owner takes SHARED while the node stands there; whether the cache is dropped before it is granted.
    fn takes(&mut self, owner: u64, wish: u32, position: &[u8]) -> bool {
        let unique = self.trial.ask(opcode::SETLK, self.number, &lock(self.handle, owner, FIRST, LAST, wish));
        assert_eq!(self.trial.asked(), [(opcode::SETLK, DATABASE), (opcode::READ, POSITION)]);
        self.trial.answer(Ok(&[]));
        assert_eq!(self.trial.actions(), []);
        self.trial.answer(Ok(position));
        let mut actions = self.trial.actions();
        let drops = actions == [self.drop()];
        if drops {
            self.trial.machine.dropped();
            actions = self.trial.actions();
        }
        assert_eq!(actions.iter().filter_map(told).collect::<Vec<_>>(), [(unique, Ok(vec![]))]);
        drops
    }

    /// The pages of database and log are dropped.
    fn drop(&self) -> Action {
        Action::DropCache { nodes: [self.number, self.log] }
    }

    fn gives_up(&mut self, owner: u64) {
        self.trial.ask(opcode::SETLK, self.number, &lock(self.handle, owner, FIRST, LAST, UNLOCK));
        assert_eq!(self.trial.asked(), [(opcode::SETLK, DATABASE)]);
        self.trial.answer(Ok(&[]));
        self.trial.actions();
    }

    /// The owner of EXCLUSIVE gives it up while the node stands there.
    fn ends(&mut self, owner: u64, position: &[u8]) {
        self.trial.ask(opcode::SETLK, self.number, &lock(self.handle, owner, FIRST, LAST, UNLOCK));
        assert_eq!(self.trial.asked(), [(opcode::READ, POSITION), (opcode::SETLK, DATABASE)]);
        self.trial.answer(Ok(position));
        self.trial.answer(Ok(&[]));
        self.trial.actions();
    }

    fn does(&mut self, opcode: u32, body: &[u8]) {
        self.trial.ask(opcode, self.number, body);
        self.trial.answer(Ok(&[]));
        self.trial.actions();
        self.trial.sent();
    }

    fn writes(&mut self) {
        self.does(opcode::WRITE, &at(self.handle, 0, 0));
    }
}

#[test]
fn the_log_is_cached_from_its_opening_on_and_the_journal_not() {
    for (name, node, flags) in [(&b"app-wal"[..], LOG, 0), (b"app-journal", JOURNAL, 1)] {
        let mut trial = Trial::linked(Settings { cache: true, ..Settings::default() });
        let number = trial.look_up(name, node);
        trial.ask(opcode::OPEN, number, &[0; 8]);
        trial.answer(Ok(&opened(7)));
        assert_eq!(u32_at(&trial.reply().1.unwrap(), 8), flags);
    }
}

#[test]
fn who_opens_the_database_keeps_its_pages_only_where_the_node_stands_at_them() {
    for (position, flags) in [(ONE, 2), (TWO, 0)] {
        let mut cached = Cached::new();
        cached.trial.ask(opcode::OPEN, cached.number, &[0; 8]);
        assert_eq!(cached.trial.asked(), [(opcode::READ, POSITION)]);
        cached.trial.answer(Ok(position));
        assert_eq!(u32_at(&cached.trial.reply().1.unwrap(), 8), flags);
    }
    let mut cached = Cached::new();
    cached.does(opcode::READ, &at(cached.handle, 0, 0));
    cached.trial.ask(opcode::OPEN, cached.number, &[0; 8]);
    cached.trial.answer(Ok(ONE));
    assert_eq!(u32_at(&cached.trial.reply().1.unwrap(), 8), 0, "what was read without a lock");
}

#[test]
fn the_pages_of_a_position_are_kept_while_the_node_stands_there() {
    let mut cached = Cached::new();
    assert!(!cached.takes(40, READ, ONE));
    assert!(!cached.takes(41, READ, ONE));
}

#[test]
fn a_transaction_of_another_drops_the_cache() {
    let mut cached = Cached::new();
    assert!(cached.takes(40, READ, TWO));
    cached.gives_up(40);
    assert!(!cached.takes(40, READ, TWO));
}

#[test]
fn a_transaction_of_this_mount_drops_nothing() {
    let mut cached = Cached::new();
    assert!(!cached.takes(40, READ, ONE));
    assert!(!cached.takes(40, WRITE, ONE));
    cached.writes();
    cached.ends(40, TWO);
    assert!(!cached.takes(41, READ, TWO));
}

#[test]
fn what_was_written_without_a_transaction_is_not_trusted() {
    for ended_at in [ONE, THREE] {
        let mut cached = Cached::new();
        assert!(!cached.takes(40, WRITE, ONE));
        cached.writes();
        cached.ends(40, ended_at);
        assert!(cached.takes(41, READ, ended_at));
    }
}

#[test]
fn what_a_dying_owner_of_exclusive_wrote_is_not_trusted() {
    let mut cached = Cached::new();
    assert!(!cached.takes(40, WRITE, ONE));
    cached.does(opcode::FLUSH, &closing(cached.handle, 40));
    assert!(cached.takes(41, READ, ONE));
}

#[test]
fn the_end_of_a_reader_drops_nothing() {
    let mut cached = Cached::new();
    assert!(!cached.takes(40, READ, ONE));
    cached.does(opcode::FLUSH, &closing(cached.handle, 40));
    assert!(!cached.takes(41, READ, ONE));
}

#[test]
fn what_is_read_without_a_lock_is_not_trusted() {
    let mut cached = Cached::new();
    assert!(!cached.takes(40, READ, ONE));
    cached.does(opcode::READ, &at(cached.handle, 0, 0));
    cached.gives_up(40);
    assert!(!cached.takes(40, READ, ONE));
    cached.gives_up(40);
    cached.does(opcode::READ, &at(cached.handle, 0, 0));
    assert!(cached.takes(40, READ, ONE));
}

#[test]
fn a_lock_that_comes_while_the_cache_is_dropped_waits_too() {
    let mut cached = Cached::new();
    let body = |owner| lock(cached.handle, owner, FIRST, LAST, READ);
    let first = cached.trial.ask(opcode::SETLK, cached.number, &body(40));
    let second = cached.trial.ask(opcode::SETLK, cached.number, &body(41));
    for _ in 0..2 {
        cached.trial.answer(Ok(&[]));
        cached.trial.answer(Ok(TWO));
    }
    let drop = cached.drop();
    assert_eq!(cached.trial.actions(), [drop]);
    cached.trial.machine.dropped();
    assert_eq!(cached.trial.replies(), [(first, Ok(vec![])), (second, Ok(vec![]))]);
}

#[test]
fn a_refused_lock_and_other_locks_ask_for_nothing() {
    let mut cached = Cached::new();
    cached.trial.ask(opcode::SETLK, cached.number, &lock(cached.handle, 40, FIRST, LAST, WRITE));
    cached.trial.answer(Err(11));
    cached.trial.answer(Ok(TWO));
    assert_eq!(cached.trial.reply().1, Err(11));
    cached.trial.sent();
    cached.trial.ask(opcode::SETLK, cached.number, &lock(cached.handle, 40, 0x4000_0000, 0x4000_0000, READ));
    assert_eq!(cached.trial.asked(), [(opcode::SETLK, DATABASE)]);
}

#[test]
fn in_wal_mode_a_header_that_the_node_changed_drops_the_cache() {
    let mut cached = Cached::new();
    let (shared, handle) = cached.trial.opened(b"app-shm", SHARED, 9);
    let take = |cached: &mut Cached, header: &[u8]| {
        cached.trial.ask(opcode::SETLK, shared, &lock(handle, 40, 123, 123, READ));
        cached.trial.answer(Ok(&[]));
        cached.trial.answer(Ok(header));
        cached.trial.actions()
    };
    let drop = cached.drop();
    assert_eq!(take(&mut cached, &[0; HEADER]), [drop.clone()], "no header is known");
    cached.trial.machine.dropped();
    assert!(told(&cached.trial.actions()[0]).is_some());
    cached.trial.ask(opcode::SETLK, shared, &lock(handle, 40, 120, 120, WRITE));
    cached.trial.answer(Ok(&[]));
    cached.trial.answer(Ok(&[0; HEADER]));
    cached.trial.machine.dropped();
    cached.trial.ask(opcode::SETLK, shared, &lock(handle, 40, 120, 120, UNLOCK));
    cached.trial.machine.fetched(&[1; HEADER]);
    cached.trial.answer(Ok(&[0; 8]));
    cached.trial.answer(Ok(&[]));
    cached.trial.actions();
    assert!(told(&take(&mut cached, &[1; HEADER])[0]).is_some(), "the header is known");
    assert!(matches!(take(&mut cached, &[2; HEADER])[..], [Action::PutShared { .. }]));
    cached.trial.machine.put_done();
    assert_eq!(cached.trial.actions(), [drop]);
    cached.trial.machine.dropped();
    assert!(told(&cached.trial.actions()[0]).is_some());
}
