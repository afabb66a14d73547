//! What the kernel is told of errors, and of a link that is lost.

use super::trial::*;
use crate::bytes::{u32_at, u64_at};
use crate::machine::link::Way;
use crate::machine::output::Action;
use crate::machine::{Machine, Settings};
use crate::wire::opcode;

#[test]
fn a_read_never_tells_what_sqlite_takes_for_damage() {
    for (error, told) in [(5, 121), (6, 121), (34, 121), (116, 116), (1, 1)] {
        let mut trial = Trial::linked(Settings::default());
        let (number, handle) = trial.opened(b"app", DATABASE, 5);
        trial.ask(opcode::READ, number, &at(handle, 0, 4));
        trial.answer(Err(error));
        assert_eq!(trial.reply().1, Err(told));
    }
}

#[test]
fn another_request_tells_the_nodes_error() {
    let mut trial = Trial::linked(Settings::default());
    let (number, handle) = trial.opened(b"app", DATABASE, 5);
    trial.ask(opcode::WRITE, number, &at(handle, 0, 0));
    trial.answer(Err(5));
    assert_eq!(trial.reply().1, Err(5));
}

#[test]
fn without_a_link_the_answer_comes_at_once() {
    let mut trial = Trial::new(Settings::default());
    for opcode in [opcode::LOOKUP, opcode::CREATE, opcode::UNLINK, opcode::READDIR] {
        trial.ask(opcode, 1, b"0123456789abcdefapp-wal\0");
        assert_eq!(trial.reply().1, Err(107), "opcode {opcode}");
    }
}

#[test]
fn what_is_on_its_way_is_answered_when_the_link_is_lost() {
    let mut trial = Trial::linked(Settings::default());
    let (number, handle) = trial.opened(b"app", DATABASE, 5);
    let asked = [
        trial.ask(opcode::READ, number, &at(handle, 0, 4)),
        trial.ask(opcode::SETLKW, number, &lock(handle, 1, 2, 3, 1)),
        trial.ask(opcode::LOOKUP, 1, b"app\0"),
        trial.ask(opcode::OPEN, number, &[0; 8]),
    ];
    assert_eq!(trial.replies().len(), 1);
    trial.cut();
    let told = trial.replies();
    assert_eq!(told, asked[..3].iter().map(|unique| (*unique, Err(107))).collect::<Vec<_>>());
    assert!(!trial.machine.is_waiting());
}

#[test]
fn a_handle_of_a_lost_link_is_stale_and_never_sent() {
    let mut trial = Trial::linked(Settings::default());
    let (number, handle) = trial.opened(b"app", DATABASE, 5);
    trial.cut();
    trial.link();
    for (opcode, body, wanted) in [
        (opcode::READ, at(handle, 0, 4), Err(116)),
        (opcode::WRITE, at(handle, 0, 0), Err(116)),
        (opcode::FSYNC, at(handle, 0, 0), Err(116)),
        (opcode::SETLK, lock(handle, 1, 2, 3, 0), Err(116)),
        (opcode::SETLK, lock(handle, 1, 2, 3, 2), Ok(vec![])),
        (opcode::GETATTR, vec![0; 16], Err(116)),
        (opcode::SETATTR, vec![0; 88], Err(116)),
        (opcode::FLUSH, closing(handle, 1), Ok(vec![])),
        (opcode::RELEASE, closing(handle, 1), Ok(vec![])),
        (opcode::RELEASE, closing(handle, 1), Err(9)),
    ] {
        trial.ask(opcode, number, &body);
        assert_eq!((trial.reply().1, trial.sent()), (wanted, vec![]), "opcode {opcode}");
    }
}

#[test]
fn a_new_link_has_new_numbers_and_handles() {
    let mut trial = Trial::linked(Settings::default());
    let (before, _) = trial.opened(b"app", DATABASE, 5);
    trial.cut();
    trial.link();
    let (after, handle) = trial.opened(b"app", DATABASE, 6);
    assert_ne!(before, after);
    trial.ask(opcode::READ, after, &at(handle, 0, 4));
    assert_eq!(u64_at(&trial.sent()[0].body, 0), 6);
}

#[test]
fn who_waits_for_a_lock_is_answered_when_the_link_is_lost() {
    let mut trial = Trial::linked(Settings::default());
    let (number, handle) = trial.opened(b"app", DATABASE, 5);
    let unique = trial.ask(opcode::SETLKW, number, &lock(handle, 1, 2, 3, 1));
    trial.answer(Err(11));
    trial.cut();
    assert_eq!(trial.reply(), (unique, Err(116)));
    assert!(!trial.machine.is_waiting());
}

#[test]
fn a_reply_that_is_not_the_next_ends_the_link() {
    let mut trial = Trial::linked(Settings::default());
    trial.ask(opcode::LOOKUP, 1, b"app-wal\0");
    trial.machine.node(Way::Main, &crate::machine::output::Reply::new(12_345, &[]).message);
    assert_eq!(trial.actions(), [Action::HangUp]);
    trial.cut();
    assert_eq!(trial.reply().1, Err(107));
}

#[test]
fn after_the_link_is_lost_the_header_is_void_and_locks_of_the_shared_memory_are_granted() {
    let mut trial = Trial::linked(Settings::default());
    let (number, handle) = trial.opened(b"app-shm", SHARED, 5);
    trial.cut();
    assert_eq!(trial.actions(), [Action::ClearShared { node: number }]);
    trial.link();
    for body in [lock(handle, 1, 123, 123, 0), lock(handle, 1, 120, 120, 1), lock(handle, 1, 128, 128, 1)] {
        trial.ask(opcode::SETLK, number, &body);
        assert_eq!((trial.reply().1, trial.sent()), (Ok(vec![]), vec![]));
    }
}

#[test]
fn pages_of_an_older_shared_memory_read_as_zeros_and_are_taken_back() {
    let mut trial = Trial::linked(Settings::default());
    let (number, handle) = trial.opened(b"app-shm", SHARED, 5);
    trial.cut();
    trial.actions();
    trial.ask(opcode::READ, number, &at(handle, 0, 6));
    assert_eq!(trial.reply().1, Ok(vec![0; 6]));
    trial.ask(opcode::WRITE, number, &[&at(handle, 0, 3)[..], b"abc"].concat());
    assert_eq!(u32_at(&trial.reply().1.unwrap(), 0), 3);
    trial.ask(opcode::GETATTR, number, &[0; 16]);
    assert_eq!(trial.reply().1.map(|body| body.len()), Ok(104));
}

/// The machine of the process that goes on where the one that knew the handles has ended.
#[test]
fn after_another_process_every_handle_is_one_of_a_lost_link() {
    let mut trial = Trial::new(Settings::default());
    trial.machine = Machine::after_another();
    let mut before = Trial::linked(Settings::default());
    let (database, handle) = before.opened(b"app", DATABASE, 5);
    let shared = database & !255 | SHARED;
    let page = vec![0; 64];
    for (opcode, number, body, wanted) in [
        (opcode::READ, database, at(handle, 0, 4), Err(116)),
        (opcode::WRITE, database, at(handle, 0, 0), Err(116)),
        (opcode::GETATTR, database, vec![0; 16], Err(116)),
        (opcode::SETLK, database, lock(handle, 1, 2, 3, 0), Err(116)),
        (opcode::SETLKW, database, lock(handle, 1, 2, 3, 1), Err(116)),
        (opcode::SETLK, database, lock(handle, 1, 2, 3, 2), Ok(vec![])),
        (opcode::SETLK, shared, lock(handle, 1, 120, 120, 1), Ok(vec![])),
        (opcode::SETLKW, shared, lock(handle, 1, 120, 120, 1), Ok(vec![])),
        (opcode::READ, shared, at(handle, 0, 64), Ok(page)),
        (opcode::FLUSH, database, closing(handle, 1), Ok(vec![])),
        (opcode::RELEASE, shared, closing(handle, 1), Ok(vec![])),
        (opcode::LOOKUP, 1, b"app\0".to_vec(), Err(107)),
        (opcode::READ, 255, at(handle, 0, 4), Err(9)),
    ] {
        trial.ask(opcode, number, &body);
        assert_eq!((trial.reply().1, trial.sent()), (wanted, vec![]), "opcode {opcode} of {number}");
    }
    assert!(!trial.machine.is_waiting());
}
