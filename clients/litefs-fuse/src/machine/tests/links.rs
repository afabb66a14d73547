//! The two connections, and the lock by which the mount is marked.

use super::trial::*;
use crate::bytes::{u32_at, u64_at};
use crate::machine::link::Way;
use crate::machine::output::Action;
use crate::machine::Settings;
use crate::wire::opcode;

#[test]
fn the_mount_is_marked_on_its_first_connection_and_nothing_waits_for_it() {
    for answer in [Ok(&[][..]), Err(22)] {
        let mut trial = Trial::new(Settings::default());
        trial.machine.link_up();
        let open = trial.sent().remove(2);
        assert_eq!((open.opcode, open.node, open.way), (opcode::OPEN, LOCK_FILE, Way::Main));
        trial.ask(opcode::LOOKUP, 1, b"app-wal\0");
        trial.answer(Ok(&[0; 64]));
        trial.answer(Ok(&opened(99)));
        trial.answer(Ok(&opened(31)));
        assert_eq!(trial.sent()[0].opcode, opcode::LOOKUP);
        trial.answer(Ok(&entry(LOG)));
        assert!(trial.reply().1.is_ok());
        trial.answer(Ok(b"position one\n"));
        trial.answer(answer);
        assert_eq!(trial.actions(), []);
    }
}

#[test]
fn its_mark_is_a_read_lock_of_byte_73_under_the_programs_own_owner() {
    let mut trial = Trial::new(Settings::default());
    trial.machine.link_up();
    trial.answer(Ok(&[0; 64]));
    trial.answer(Ok(&opened(99)));
    trial.answer(Ok(&opened(31)));
    let mark = trial.sent().pop().unwrap();
    assert_eq!((mark.opcode, mark.node, mark.way), (opcode::SETLK, LOCK_FILE, Way::Main));
    let body = &mark.body;
    assert_eq!([0, 8, 16, 24].map(|at| u64_at(body, at)), [31, 1, 73, 73]);
    assert_eq!(u32_at(body, 32), 0);
}

#[test]
fn a_lock_file_that_can_not_be_opened_marks_nothing() {
    let mut trial = Trial::new(Settings::default());
    trial.machine.link_up();
    trial.sent();
    trial.answer(Ok(&[0; 64]));
    trial.answer(Ok(&opened(99)));
    trial.answer(Err(2));
    assert_eq!(trial.asked(), [(opcode::READ, POSITION)]);
}

#[test]
fn the_lock_file_has_a_connection_of_its_own_from_its_first_use_on() {
    let mut trial = Trial::linked(Settings::default());
    let number = trial.look_up(b"app-lock", LOCK_FILE);
    trial.ask(opcode::OPEN, number, &2u64.to_le_bytes());
    let sent = trial.sent();
    let first: Vec<_> = sent.iter().map(|sent| (sent.way, sent.opcode, sent.unique)).collect();
    assert_eq!(first, [(Way::LockFile, opcode::INIT, 1), (Way::LockFile, opcode::OPEN, 2)]);
    assert_eq!((u32_at(&sent[0].body, 0), u32_at(&sent[0].body, 4)), (7, 31));
    trial.answer(Ok(&opened(5)));
    let handle = u64_at(&trial.reply().1.unwrap(), 0);
    for (opcode, body) in [
        (opcode::READ, at(handle, 0, 4)),
        (opcode::GETLK, lock(handle, 40, 72, 72, 1)),
        (opcode::SETLK, lock(handle, 40, 72, 72, 1)),
        (opcode::SETLK, lock(handle, 40, 72, 72, 2)),
        (opcode::FLUSH, closing(handle, 40)),
        (opcode::RELEASE, closing(handle, 0)),
    ] {
        trial.ask(opcode, number, &body);
        let sent = trial.sent().remove(0);
        assert_eq!((sent.way, sent.opcode, u64_at(&sent.body, 0)), (Way::LockFile, opcode, 5), "opcode {opcode}");
        trial.answer(Ok(&[]));
    }
    trial.ask(opcode::GETATTR, number, &[0; 16]);
    assert_eq!(trial.sent()[0].way, Way::Main);
}

#[test]
fn a_wait_on_the_lock_file_holds_up_nothing_else() {
    let mut trial = Trial::linked(Settings::default());
    let (lock_file, handle) = trial.opened(b"app-lock", LOCK_FILE, 5);
    let (number, other) = trial.opened(b"app", DATABASE, 6);
    let waiting = trial.ask(opcode::SETLKW, lock_file, &lock(handle, 40, 72, 72, 1));
    let asked = trial.sent().remove(0);
    let read = trial.ask(opcode::READ, number, &at(other, 0, 4));
    let sent = trial.sent().remove(0);
    assert_eq!(sent.way, Way::Main);
    trial.answer_to(&sent, Ok(b"abcd"));
    assert_eq!(trial.reply(), (read, Ok(b"abcd".to_vec())));
    trial.answer_to(&asked, Ok(&[]));
    assert_eq!(trial.reply(), (waiting, Ok(vec![])));
}

#[test]
fn both_connections_are_lost_together() {
    let mut trial = Trial::linked(Settings::default());
    let (lock_file, handle) = trial.opened(b"app-lock", LOCK_FILE, 5);
    let (number, other) = trial.opened(b"app", DATABASE, 6);
    let on_first = trial.ask(opcode::READ, number, &at(other, 0, 4));
    let on_second = trial.ask(opcode::SETLK, lock_file, &lock(handle, 40, 72, 72, 1));
    trial.cut();
    assert_eq!(trial.replies(), [(on_first, Err(107)), (on_second, Err(107))]);
    trial.link();
    for (number, body) in [(lock_file, lock(handle, 40, 72, 72, 1)), (number, lock(other, 40, 2, 3, 1))] {
        trial.ask(opcode::SETLK, number, &body);
        assert_eq!((trial.reply().1, trial.sent()), (Err(116), vec![]));
    }
    let number = trial.look_up(b"app-lock", LOCK_FILE);
    trial.ask(opcode::OPEN, number, &2u64.to_le_bytes());
    assert_eq!(trial.sent()[0].opcode, opcode::INIT);
}

#[test]
fn a_second_connection_that_is_refused_ends_the_link() {
    let mut trial = Trial::linked(Settings::default());
    trial.opened(b"app-lock", LOCK_FILE, 5);
    trial.machine.node(Way::LockFile, &crate::machine::output::Reply::new(12_345, &[]).message);
    assert_eq!(trial.actions(), [Action::HangUp]);
}
