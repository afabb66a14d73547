//! Who may remove the journal and the log, and what the node is told of it.

use super::trial::*;
use crate::bytes::{put_u32, put_u64, u32_at, u64_at};
use crate::machine::Settings;
use crate::wire::opcode;

const READ: u32 = 0;
const WRITE: u32 = 1;
const UNLOCK: u32 = 2;

const PENDING: (u64, u64) = (0x4000_0000, 0x4000_0000);
const RESERVED: (u64, u64) = (0x4000_0001, 0x4000_0001);
const SHARED_LOCK: (u64, u64) = (0x4000_0002, 0x4000_01ff);
const READ_MARK: (u64, u64) = (123, 123);
const DMS: (u64, u64) = (128, 128);
const ALL: (u64, u64) = (0, u64::MAX);

const MAGIC: &[u8] = &[0xd9, 0xd5, 0x05, 0xf9, 0x20, 0xa1, 0x63, 0xd7];
const ZEROS: &[u8] = &[0; 28];

/// The owner of the locks and its process, whose second thread is SECOND; a process and an owner beside it; threads that
/// nobody sees.
const OWNER: u64 = 40;
const SECOND: u32 = 78;
const STRANGER: u32 = 90;
const OTHER: u64 = 50;
const UNSEEN: [u32; 2] = [0, 1_234];

struct Files {
    trial: Trial,
    database: (u64, u64),
    journal: (u64, u64),
    memory: (u64, u64),
}

impl Files {
    fn new() -> Files {
        let mut trial = Trial::linked(Settings::default());
        trial.machine.see_processes(Box::new(|thread| match thread {
            THREAD | SECOND => Some(THREAD),
            STRANGER => Some(STRANGER),
            _ => None,
        }));
        let database = trial.opened(b"app", DATABASE, 5);
        let journal = trial.opened(b"app-journal", JOURNAL, 8);
        let memory = trial.opened(b"app-shm", SHARED, 9);
        Files { trial, database, journal, memory }
    }

    /// A lock of the database by its owner, granted.
    fn locks(&mut self, owner: u64, range: (u64, u64), wish: u32) {
        self.locks_as(THREAD, owner, range, wish);
    }

    fn locks_as(&mut self, process: u32, owner: u64, (start, end): (u64, u64), wish: u32) {
        let mut body = lock(self.database.1, owner, start, end, wish);
        put_u32(&mut body, 36, process);
        self.trial.ask(opcode::SETLK, self.database.0, &body);
        self.trial.answer(Ok(&[]));
        self.done();
    }

    fn locks_memory(&mut self, owner: u64, (start, end): (u64, u64), wish: u32) {
        let mut body = lock(self.memory.1, owner, start, end, wish);
        put_u32(&mut body, 36, THREAD);
        self.trial.ask(opcode::SETLK, self.memory.0, &body);
        self.trial.answer_all();
        self.done();
    }

    fn writes(&mut self, owner: u64, offset: u64, bytes: &[u8]) {
        let mut body = at(self.journal.1, offset, bytes.len() as u32);
        put_u64(&mut body, 24, owner);
        self.trial.ask(opcode::WRITE, self.journal.0, &[&body[..], bytes].concat());
        self.trial.answer(Ok(&[0; 8]));
        self.done();
    }

    fn flushes(&mut self, (number, handle): (u64, u64), owner: u64) {
        self.trial.ask(opcode::FLUSH, number, &closing(handle, owner));
        self.trial.answer(Ok(&[]));
        self.done();
    }

    fn done(&mut self) {
        self.trial.sent();
        self.trial.replies();
    }

    /// A thread removes the journal. In which owner's name it is cut, or the error that is answered.
    fn removal(&mut self, thread: u32) -> Result<u64, u32> {
        self.trial.ask_by(thread, opcode::UNLINK, 1, b"app-journal\0");
        let Some(cut) = self.trial.sent().pop() else { return Err(self.trial.reply().1.unwrap_err()) };
        assert_eq!((cut.opcode, cut.node, cut.body.len()), (opcode::SETATTR, JOURNAL, 88));
        assert_eq!((u32_at(&cut.body, 0), u64_at(&cut.body, 16)), (8 | 512, 0));
        self.trial.answer(Err(13));
        assert_eq!((self.trial.reply().1, self.trial.sent()), (Err(13), vec![]));
        Ok(u64_at(&cut.body, 24))
    }

    /// A thread removes the log and the index; the errors that are answered.
    fn log_removals(&mut self, thread: u32) -> [Result<(), u32>; 2] {
        [&b"app-wal\0"[..], b"app-shm\0"].map(|name| {
            self.trial.ask_by(thread, opcode::UNLINK, 1, name);
            if self.trial.sent().is_empty() {
                return Err(self.trial.reply().1.unwrap_err());
            }
            self.trial.answer(Err(2));
            assert_eq!(self.trial.reply().1, Err(2));
            Ok(())
        })
    }
}

#[test]
fn the_journal_is_removed_by_the_process_that_may_write_it_and_by_no_other() {
    for range in [PENDING, RESERVED, SHARED_LOCK] {
        let mut files = Files::new();
        assert_eq!(files.removal(THREAD), Err(16));
        files.locks(OWNER, range, READ);
        assert_eq!(files.removal(THREAD), Err(16));
        files.locks(OWNER, range, WRITE);
        assert_eq!([THREAD, SECOND].map(|thread| files.removal(thread)), [Ok(OWNER); 2]);
        assert_eq!([STRANGER, UNSEEN[0], UNSEEN[1]].map(|thread| files.removal(thread)), [Err(16); 3]);
        files.locks_as(STRANGER, OTHER, (7, 7), WRITE);
        assert_eq!(files.removal(STRANGER), Err(16));
    }
}

#[test]
fn who_has_given_the_lock_up_may_remove_it_no_longer() {
    let ends: [fn(&mut Files); 5] = [
        |files| {
            files.trial.ask(opcode::SETLK, files.database.0, &lock(files.database.1, OWNER, ALL.0, ALL.1, UNLOCK));
            files.trial.answer(Ok(&[]));
        },
        |files| files.locks(OWNER, SHARED_LOCK, READ),
        |files| files.flushes(files.database, OWNER),
        |files| {
            files.trial.ask(opcode::RELEASE, files.database.0, &closing(files.database.1, 0));
            files.trial.answer(Ok(&[]));
            files.trial.answer(Ok(&[]));
        },
        |files| {
            files.trial.cut();
            files.trial.link();
        },
    ];
    for end in ends {
        let mut files = Files::new();
        files.locks(OWNER, SHARED_LOCK, WRITE);
        end(&mut files);
        files.done();
        assert_eq!(files.removal(THREAD), Err(16));
    }
}

#[test]
fn the_removal_follows_its_cut() {
    let mut files = Files::new();
    files.locks(OWNER, RESERVED, WRITE);
    let unique = files.trial.ask(opcode::UNLINK, 1, b"app-journal\0");
    assert_eq!(files.trial.asked(), [(opcode::SETATTR, JOURNAL)]);
    files.trial.answer(Ok(&[0; 104]));
    assert_eq!(files.trial.replies(), []);
    let removal = files.trial.sent().remove(0);
    assert_eq!((removal.opcode, removal.node, removal.body), (opcode::UNLINK, 1, b"app-journal\0".to_vec()));
    files.trial.answer(Ok(&[]));
    assert_eq!(files.trial.reply(), (unique, Ok(vec![])));
    assert_ne!(files.trial.look_up(b"app-journal", JOURNAL), files.journal.0);
}

#[test]
fn a_removal_is_answered_when_the_link_is_lost() {
    let mut files = Files::new();
    files.locks(OWNER, RESERVED, WRITE);
    let unique = files.trial.ask(opcode::UNLINK, 1, b"app-journal\0");
    files.trial.cut();
    assert_eq!(files.trial.replies(), [(unique, Err(107))]);
}

#[test]
fn the_journal_of_another_name_is_not_cut() {
    let mut files = Files::new();
    files.locks(OWNER, RESERVED, WRITE);
    files.trial.ask(opcode::UNLINK, 1, b"other-journal\0");
    assert_eq!(files.trial.asked(), [(opcode::UNLINK, 1)]);
}

#[test]
fn a_journal_that_another_wrote_is_removed_by_who_has_exclusive() {
    for (header, range, wanted) in [
        (MAGIC, RESERVED, Err(16)),
        (MAGIC, PENDING, Err(16)),
        (MAGIC, SHARED_LOCK, Ok(OTHER)),
        (ZEROS, RESERVED, Ok(OTHER)),
    ] {
        let mut files = Files::new();
        files.locks(OWNER, RESERVED, WRITE);
        files.writes(OWNER, 0, MAGIC);
        files.writes(OWNER, 512, b"page");
        assert_eq!(files.removal(THREAD), Ok(OWNER));
        files.writes(OWNER, 0, header);
        files.flushes(files.database, OWNER);
        files.locks_as(STRANGER, OTHER, range, WRITE);
        assert_eq!(files.removal(STRANGER), wanted);
    }
}

#[test]
fn a_journal_that_was_removed_or_cut_is_nobodys() {
    let ends: [fn(&mut Files); 2] = [
        |files| {
            files.trial.ask(opcode::UNLINK, 1, b"app-journal\0");
            files.trial.answer(Ok(&[]));
            files.trial.answer(Ok(&[]));
        },
        |files| {
            files.trial.ask(opcode::SETATTR, files.journal.0, &cut(8 | 512, OWNER));
            files.trial.answer(Ok(&[0; 104]));
        },
    ];
    for end in ends {
        let mut files = Files::new();
        files.locks(OWNER, RESERVED, WRITE);
        files.writes(OWNER, 0, MAGIC);
        end(&mut files);
        files.flushes(files.database, OWNER);
        files.locks_as(STRANGER, OTHER, RESERVED, WRITE);
        assert_eq!(files.removal(STRANGER), Ok(OTHER));
    }
}

#[test]
fn who_can_not_be_seen_removes_a_journal_that_its_writer_has_closed() {
    for thread in UNSEEN {
        let mut files = Files::new();
        files.locks_as(0, OWNER, RESERVED, WRITE);
        files.writes(OWNER, 0, MAGIC);
        files.flushes(files.journal, OTHER);
        assert_eq!(files.removal(thread), Err(16));
        files.flushes(files.journal, OWNER);
        files.flushes(files.journal, OTHER);
        assert_eq!(files.removal(thread), Ok(OWNER));
        files.writes(OWNER, 512, b"page");
        assert_eq!(files.removal(thread), Err(16));
        files.flushes(files.journal, OWNER);
        files.flushes(files.database, OWNER);
        assert_eq!(files.removal(thread), Err(16));
    }
}

/// `fuse_setattr_in` of the size 0.
fn cut(given: u32, owner: u64) -> Vec<u8> {
    let mut body = vec![0; 88];
    put_u32(&mut body, 0, given);
    put_u64(&mut body, 24, owner);
    body
}

#[test]
fn a_cut_of_the_journal_that_names_no_owner_gets_that_of_its_process() {
    let mut files = Files::new();
    files.locks(OWNER, RESERVED, WRITE);
    for (given, thread, wanted) in [
        (8, THREAD, Some((8 | 512, OWNER))),
        (8, STRANGER, None),
        (8 | 512, STRANGER, Some((8 | 512, 60))),
        (1, STRANGER, Some((1, 60))),
    ] {
        let named = if given == 8 { 0 } else { 60 };
        files.trial.ask_by(thread, opcode::SETATTR, files.journal.0, &cut(given, named));
        let sent = files.trial.sent().pop().map(|sent| (u32_at(&sent.body, 0), u64_at(&sent.body, 24)));
        assert_eq!(sent, wanted);
        if sent.is_some() {
            files.trial.answer(Err(13));
        }
        assert_eq!(files.trial.reply().1, Err(if sent.is_some() { 13 } else { 16 }));
    }
}

#[test]
fn no_process_loses_its_log() {
    let holds: [fn(&mut Files); 3] = [
        |files| files.locks(OWNER, SHARED_LOCK, READ),
        |files| files.locks_memory(OWNER, READ_MARK, READ),
        |files| files.locks_memory(OWNER, DMS, READ),
    ];
    for hold in holds {
        let mut files = Files::new();
        assert_eq!(files.log_removals(STRANGER), [Ok(()); 2]);
        hold(&mut files);
        assert_eq!(files.log_removals(STRANGER), [Err(16); 2]);
        assert_eq!(files.log_removals(UNSEEN[0]), [Err(16); 2]);
        assert_eq!(files.log_removals(THREAD), [Ok(()); 2]);
    }
}

#[test]
fn a_log_that_was_left_is_removed_by_anybody() {
    let ends: [fn(&mut Files); 3] = [
        |files| files.locks_memory(OWNER, (120, 128), UNLOCK),
        |files| files.flushes(files.memory, OWNER),
        |files| {
            files.trial.ask(opcode::RELEASE, files.memory.0, &closing(files.memory.1, 0));
            files.trial.answer_all();
        },
    ];
    for end in ends {
        let mut files = Files::new();
        files.locks_memory(OWNER, READ_MARK, READ);
        end(&mut files);
        files.trial.answer_all();
        files.done();
        assert_eq!(files.log_removals(STRANGER), [Ok(()); 2]);
    }
}

#[test]
fn under_exclusive_who_can_not_be_seen_removes_the_log() {
    let mut files = Files::new();
    files.locks_as(0, OWNER, SHARED_LOCK, WRITE);
    assert_eq!(files.log_removals(UNSEEN[0]), [Ok(()); 2]);
    assert_eq!(files.log_removals(STRANGER), [Err(16); 2]);
}
