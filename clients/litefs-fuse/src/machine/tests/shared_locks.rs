//! Locks of the shared memory, and the header that goes with them.

use super::trial::*;
use crate::bytes::u64_at;
use crate::machine::output::{Action, Piece};
use crate::machine::{Settings, HEADER};
use crate::wire::opcode;

const READ: u32 = 0;
const WRITE: u32 = 1;
const UNLOCK: u32 = 2;

const WRITE_LOCK: u64 = 120;
const CHECKPOINT_LOCK: u64 = 121;
const RECOVER_LOCK: u64 = 122;
const READ_LOCK: u64 = 123;
const DMS: u64 = 128;

fn at_work() -> (Trial, u64, u64) {
    let mut trial = Trial::linked(Settings::default());
    let (number, handle) = trial.opened(b"app-shm", SHARED, 5);
    (trial, number, handle)
}

/// Takes a lock; the node's header is this.
fn take(trial: &mut Trial, number: u64, handle: u64, owner: u64, byte: u64, wish: u32, header: &[u8]) {
    trial.ask(opcode::SETLK, number, &lock(handle, owner, byte, byte, wish));
    assert_eq!(trial.asked(), [(opcode::SETLK, SHARED), (opcode::READ, SHARED)]);
    trial.answer(Ok(&[]));
    trial.answer(Ok(header));
}

/// Gives WRITE up with this header in the shared memory.
fn write(trial: &mut Trial, number: u64, handle: u64, header: &[u8; HEADER]) {
    take(trial, number, handle, 40, WRITE_LOCK, WRITE, &[]);
    trial.ask(opcode::SETLK, number, &lock(handle, 40, WRITE_LOCK, WRITE_LOCK, UNLOCK));
    trial.machine.fetched(header);
    trial.answer(Ok(&[0; 8]));
    trial.answer(Ok(&[]));
    trial.actions();
    trial.sent();
}

#[test]
fn a_lock_is_granted_after_the_nodes_words_were_put_in() {
    let (mut trial, number, handle) = at_work();
    write(&mut trial, number, handle, &[1; HEADER]);
    let mut changed = [1; HEADER];
    changed[8] = 2;
    changed[15] = 3;
    changed[132] = 4;
    take(&mut trial, number, handle, 41, READ_LOCK, READ, &changed);
    let pieces = vec![
        Piece { at: 8, bytes: vec![2, 1, 1, 1, 1, 1, 1, 3] },
        Piece { at: 132, bytes: vec![4, 1, 1, 1] },
    ];
    assert_eq!(trial.actions(), [Action::PutShared { node: number, pieces }]);
    trial.machine.put_done();
    assert_eq!(trial.reply().1, Ok(vec![]));
    take(&mut trial, number, handle, 42, READ_LOCK, READ, &changed);
    assert_eq!(trial.reply().1, Ok(vec![]));
}

#[test]
fn before_the_node_was_told_a_header_it_changes_none() {
    let (mut trial, number, handle) = at_work();
    take(&mut trial, number, handle, 41, READ_LOCK, READ, &[7; HEADER]);
    assert_eq!(trial.reply().1, Ok(vec![]));
}

#[test]
fn after_a_cut_below_the_header_the_node_changes_none() {
    let (mut trial, number, handle) = at_work();
    write(&mut trial, number, handle, &[1; HEADER]);
    let mut body = vec![0; 88];
    body[0] = 8;
    body[16] = 3;
    trial.ask(opcode::SETATTR, number, &body);
    trial.answer(Ok(&[0; 104]));
    trial.actions();
    trial.sent();
    take(&mut trial, number, handle, 41, READ_LOCK, READ, &[7; HEADER]);
    assert_eq!(trial.reply().1, Ok(vec![]));
}

#[test]
fn a_refused_lock_puts_nothing_in() {
    let (mut trial, number, handle) = at_work();
    write(&mut trial, number, handle, &[1; HEADER]);
    trial.ask(opcode::SETLK, number, &lock(handle, 41, READ_LOCK, READ_LOCK, READ));
    trial.answer(Err(11));
    trial.answer(Ok(&[2; HEADER]));
    assert_eq!(trial.actions().len(), 1);
}

#[test]
fn a_lock_whose_header_can_not_be_read_is_given_back() {
    let (mut trial, number, handle) = at_work();
    trial.ask(opcode::SETLK, number, &lock(handle, 41, READ_LOCK, READ_LOCK, READ));
    trial.sent();
    trial.answer(Ok(&[]));
    trial.answer(Err(5));
    assert_eq!(trial.reply().1, Err(121));
    assert_eq!(trial.sent()[0].body, lock(5, 41, READ_LOCK, READ_LOCK, UNLOCK));
}

#[test]
fn before_write_or_recover_goes_the_node_is_told_the_header() {
    for byte in [WRITE_LOCK, RECOVER_LOCK] {
        for ending in [opcode::SETLK, opcode::FLUSH] {
            let (mut trial, number, handle) = at_work();
            take(&mut trial, number, handle, 40, byte, WRITE, &[]);
            trial.actions();
            let body = if ending == opcode::SETLK { lock(handle, 40, byte, byte, UNLOCK) } else { closing(handle, 40) };
            let unique = trial.ask(ending, number, &body);
            assert_eq!((trial.actions(), trial.sent()), (vec![Action::FetchShared { node: number }], vec![]));
            trial.machine.fetched(&[6; HEADER]);
            let sent = trial.sent();
            assert_eq!((sent[0].opcode, u64_at(&sent[0].body, 0), &sent[0].body[40..]), (opcode::WRITE, 5, &[6; HEADER][..]));
            assert_eq!((sent[1].opcode, sent.len()), (ending, 2));
            trial.answer(Ok(&[0; 8]));
            assert_eq!(trial.replies(), []);
            trial.answer(Ok(&[]));
            assert_eq!(trial.reply(), (unique, Ok(vec![])));
        }
    }
}

#[test]
fn a_header_that_the_node_knows_is_not_told_again() {
    let (mut trial, number, handle) = at_work();
    write(&mut trial, number, handle, &[6; HEADER]);
    take(&mut trial, number, handle, 40, WRITE_LOCK, WRITE, &[6; HEADER]);
    trial.actions();
    trial.ask(opcode::SETLK, number, &lock(handle, 40, WRITE_LOCK, WRITE_LOCK, UNLOCK));
    trial.machine.fetched(&[6; HEADER]);
    assert_eq!(trial.asked(), [(opcode::SETLK, SHARED)]);
}

#[test]
fn a_header_that_the_node_refuses_is_an_error_of_the_unlock() {
    let (mut trial, number, handle) = at_work();
    take(&mut trial, number, handle, 40, WRITE_LOCK, WRITE, &[]);
    trial.actions();
    trial.ask(opcode::SETLK, number, &lock(handle, 40, WRITE_LOCK, WRITE_LOCK, UNLOCK));
    trial.machine.fetched(&[6; HEADER]);
    trial.answer(Err(28));
    trial.answer(Ok(&[]));
    assert_eq!(trial.reply().1, Err(28));
}

#[test]
fn other_unlocks_tell_nothing_and_are_answered_at_once() {
    let (mut trial, number, handle) = at_work();
    for byte in [CHECKPOINT_LOCK, READ_LOCK] {
        take(&mut trial, number, handle, 40, byte, WRITE, &[]);
        trial.actions();
        trial.ask(opcode::SETLK, number, &lock(handle, 40, byte, byte, UNLOCK));
        assert_eq!(trial.reply().1, Ok(vec![]));
        assert_eq!(trial.asked(), [(opcode::SETLK, SHARED)]);
        trial.answer(Ok(&[]));
    }
}

#[test]
fn an_unlock_of_who_does_not_hold_write_tells_nothing() {
    let (mut trial, number, handle) = at_work();
    take(&mut trial, number, handle, 40, WRITE_LOCK, WRITE, &[]);
    trial.actions();
    trial.ask(opcode::SETLK, number, &lock(handle, 41, WRITE_LOCK, WRITE_LOCK, UNLOCK));
    assert_eq!(trial.reply().1, Ok(vec![]));
}

#[test]
fn lock_requests_are_taken_one_after_another() {
    let (mut trial, number, handle) = at_work();
    let first = trial.ask(opcode::SETLK, number, &lock(handle, 40, READ_LOCK, READ_LOCK, READ));
    let second = trial.ask(opcode::SETLK, number, &lock(handle, 41, READ_LOCK, READ_LOCK, READ));
    assert_eq!(trial.sent().len(), 2);
    trial.answer(Ok(&[]));
    trial.answer(Ok(&[0; HEADER]));
    assert_eq!(trial.reply().0, first);
    assert_eq!(trial.sent().len(), 2);
    trial.answer(Ok(&[]));
    trial.answer(Ok(&[0; HEADER]));
    assert_eq!(trial.reply().0, second);
}

#[test]
fn dms_is_kept_here_and_held_at_the_node_by_an_owner_of_the_programs_own() {
    let (mut trial, number, handle) = at_work();
    trial.ask(opcode::SETLK, number, &lock(handle, 40, DMS, DMS, READ));
    assert_eq!(trial.sent()[0].body, lock(5, 1, DMS, DMS, WRITE));
    trial.answer(Ok(&[]));
    assert_eq!(trial.reply().1, Ok(vec![]));
    for (owner, wish, wanted) in [(41, READ, Ok(vec![])), (41, WRITE, Err(11)), (42, WRITE, Err(11)), (40, UNLOCK, Ok(vec![]))] {
        trial.ask(opcode::SETLK, number, &lock(handle, owner, DMS, DMS, wish));
        assert_eq!((trial.reply().1, trial.sent()), (wanted, vec![]), "{owner} {wish}");
    }
    trial.ask(opcode::SETLK, number, &lock(handle, 41, DMS, DMS, UNLOCK));
    assert_eq!(trial.reply().1, Ok(vec![]));
    let flush = trial.sent().remove(0);
    assert_eq!((flush.opcode, flush.body), (opcode::FLUSH, closing(5, 1)));
}

#[test]
fn dms_that_another_client_holds_is_refused() {
    let (mut trial, number, handle) = at_work();
    trial.ask(opcode::SETLK, number, &lock(handle, 40, DMS, DMS, READ));
    trial.answer(Err(11));
    assert_eq!(trial.reply().1, Err(11));
    trial.sent();
    trial.ask(opcode::SETLK, number, &lock(handle, 40, DMS, DMS, READ));
    assert_eq!(trial.sent().len(), 1);
}

#[test]
fn a_flush_gives_dms_up() {
    let (mut trial, number, handle) = at_work();
    trial.ask(opcode::SETLK, number, &lock(handle, 40, DMS, DMS, READ));
    trial.answer(Ok(&[]));
    trial.actions();
    trial.sent();
    trial.ask(opcode::FLUSH, number, &closing(handle, 40));
    trial.answer(Ok(&[]));
    assert_eq!(trial.reply().1, Ok(vec![]));
    let sent = trial.sent();
    assert_eq!([&sent[0].body, &sent[1].body], [&closing(5, 40), &closing(5, 1)]);
}

#[test]
fn the_holders_of_dms_are_told() {
    let (mut trial, number, handle) = at_work();
    trial.ask(opcode::SETLK, number, &lock(handle, 40, DMS, DMS, READ));
    trial.answer(Ok(&[]));
    trial.actions();
    trial.sent();
    for (owner, wish, kind) in [(41, WRITE, 0), (41, READ, 2), (40, WRITE, 2)] {
        trial.ask(opcode::GETLK, number, &lock(handle, owner, DMS, DMS, wish));
        assert_eq!(trial.reply().1.unwrap()[16], kind, "{owner} {wish}");
        assert_eq!(trial.sent(), []);
    }
}

#[test]
fn a_wait_for_a_lock_of_the_shared_memory_holds_nobody_up() {
    let (mut trial, number, handle) = at_work();
    let unique = trial.ask(opcode::SETLKW, number, &lock(handle, 40, READ_LOCK, READ_LOCK, READ));
    trial.answer(Err(11));
    trial.answer(Ok(&[0; HEADER]));
    assert_eq!(trial.replies(), []);
    trial.sent();
    take(&mut trial, number, handle, 41, CHECKPOINT_LOCK, WRITE, &[]);
    let _ = trial.reply();
    trial.machine.tick();
    trial.answer(Ok(&[]));
    trial.answer(Ok(&[0; HEADER]));
    assert_eq!(trial.reply(), (unique, Ok(vec![])));
}

#[test]
fn the_link_is_lost_while_a_header_is_fetched_or_put_in() {
    let (mut trial, number, handle) = at_work();
    take(&mut trial, number, handle, 40, WRITE_LOCK, WRITE, &[]);
    trial.actions();
    trial.ask(opcode::SETLK, number, &lock(handle, 40, WRITE_LOCK, WRITE_LOCK, UNLOCK));
    trial.actions();
    trial.cut();
    trial.link();
    trial.machine.fetched(&[6; HEADER]);
    assert_eq!((trial.reply().1, trial.sent()), (Err(107), vec![]));
}
