//! Locks of the files beside the shared memory.

use super::trial::*;
use crate::bytes::u64_at;
use crate::machine::Settings;
use crate::wire::opcode;

const READ: u32 = 0;
const WRITE: u32 = 1;
const UNLOCK: u32 = 2;

#[test]
fn a_lock_is_the_nodes_answer() {
    for answer in [Ok(&[][..]), Err(11)] {
        let mut trial = Trial::linked(Settings::default());
        let (number, handle) = trial.opened(b"app", DATABASE, 5);
        trial.ask(opcode::SETLK, number, &lock(handle, 40, 10, 20, READ));
        assert_eq!(trial.replies(), []);
        let sent = trial.sent().remove(0);
        assert_eq!((sent.opcode, sent.body), (opcode::SETLK, lock(5, 40, 10, 20, READ)));
        trial.answer(answer);
        assert_eq!(trial.reply().1, answer.map(<[u8]>::to_vec));
    }
}

#[test]
fn an_unlock_is_sent_and_answered_at_once() {
    let mut trial = Trial::linked(Settings::default());
    let (number, handle) = trial.opened(b"app", DATABASE, 5);
    trial.ask(opcode::SETLK, number, &lock(handle, 40, 10, 20, UNLOCK));
    assert_eq!(trial.reply().1, Ok(vec![]));
    assert_eq!(trial.asked(), [(opcode::SETLK, DATABASE)]);
    trial.answer(Ok(&[]));
    assert_eq!(trial.replies(), []);
}

#[test]
fn a_wait_is_asked_again_and_never_sent_as_a_wait() {
    let mut trial = Trial::linked(Settings::default());
    let (number, handle) = trial.opened(b"app", DATABASE, 5);
    let unique = trial.ask(opcode::SETLKW, number, &lock(handle, 40, 72, 72, WRITE));
    assert!(trial.machine.is_waiting());
    for _ in 0..3 {
        assert_eq!(trial.asked(), [(opcode::SETLK, DATABASE)]);
        trial.answer(Err(11));
        assert_eq!(trial.replies(), []);
        trial.machine.tick();
    }
    trial.answer(Ok(&[]));
    assert_eq!(trial.reply(), (unique, Ok(vec![])));
    assert!(!trial.machine.is_waiting());
}

#[test]
fn a_signal_ends_a_wait() {
    for asked in [false, true] {
        let mut trial = Trial::linked(Settings::default());
        let (number, handle) = trial.opened(b"app-lock", LOCK_FILE, 5);
        let unique = trial.ask(opcode::SETLKW, number, &lock(handle, 40, 72, 72, WRITE));
        if !asked {
            trial.answer(Err(11));
        }
        trial.ask(opcode::INTERRUPT, 0, &unique.to_le_bytes());
        if asked {
            assert_eq!(trial.replies(), []);
            trial.answer(Err(11));
        }
        assert_eq!(trial.reply(), (unique, Err(4)));
        assert!(!trial.machine.is_waiting());
    }
}

#[test]
fn a_lock_that_is_granted_as_a_signal_comes_is_granted() {
    let mut trial = Trial::linked(Settings::default());
    let (number, handle) = trial.opened(b"app-lock", LOCK_FILE, 5);
    let unique = trial.ask(opcode::SETLKW, number, &lock(handle, 40, 72, 72, WRITE));
    trial.ask(opcode::INTERRUPT, 0, &unique.to_le_bytes());
    trial.answer(Ok(&[]));
    assert_eq!(trial.reply(), (unique, Ok(vec![])));
}

#[test]
fn the_locks_of_an_open_file_end_with_it() {
    let mut trial = Trial::linked(Settings::default());
    let (number, handle) = trial.opened(b"app-lock", LOCK_FILE, 5);
    trial.ask(opcode::SETLK, number, &lock(handle, 40, 72, 72, WRITE));
    trial.answer(Ok(&[]));
    trial.ask(opcode::FLUSH, number, &closing(handle, 41));
    trial.answer(Ok(&[]));
    trial.sent();
    trial.ask(opcode::RELEASE, number, &closing(handle, 0));
    let sent = trial.sent();
    assert_eq!((sent[0].opcode, u64_at(&sent[0].body, 0), u64_at(&sent[0].body, 16)), (opcode::FLUSH, 5, 40));
    assert_eq!(sent[1].opcode, opcode::RELEASE);
}

#[test]
fn what_its_owner_has_flushed_is_not_flushed_again() {
    let mut trial = Trial::linked(Settings::default());
    let (number, handle) = trial.opened(b"app", DATABASE, 5);
    trial.ask(opcode::SETLK, number, &lock(handle, 40, 10, 20, WRITE));
    trial.answer(Ok(&[]));
    trial.ask(opcode::FLUSH, number, &closing(handle, 40));
    trial.answer(Ok(&[]));
    trial.sent();
    trial.ask(opcode::RELEASE, number, &closing(handle, 0));
    assert_eq!(trial.asked(), [(opcode::RELEASE, DATABASE)]);
}

#[test]
fn a_wait_for_a_lock_of_the_lock_file_is_asked_again_more_and_more_seldom() {
    let mut trial = Trial::linked(Settings::default());
    let (number, handle) = trial.opened(b"app-lock", LOCK_FILE, 5);
    let unique = trial.ask(opcode::SETLKW, number, &lock(handle, 40, 72, 72, WRITE));
    for ticks in [1, 2, 4, 8, 16, 25, 25] {
        assert_eq!(trial.asked(), [(opcode::SETLK, LOCK_FILE)]);
        trial.machine.tick();
        trial.answer(Err(11));
        for _ in 1..ticks {
            trial.machine.tick();
            assert_eq!((trial.sent(), trial.replies()), (vec![], vec![]));
        }
        trial.machine.tick();
    }
    trial.answer(Ok(&[]));
    assert_eq!(trial.reply(), (unique, Ok(vec![])));
    assert!(!trial.machine.is_waiting());
}
