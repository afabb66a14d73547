//! The pages of the shared memory: their size, and who has them.

use super::trial::*;
use crate::bytes::{put_u32, put_u64};
use crate::machine::output::Action;
use crate::machine::Settings;
use crate::wire::opcode;

fn resize(size: u64) -> Vec<u8> {
    let mut body = vec![0; 88];
    put_u32(&mut body, 0, 8);
    put_u64(&mut body, 16, size);
    body
}

#[test]
fn a_shared_memory_of_a_new_generation_has_new_pages() {
    let mut trial = Trial::linked(Settings::default());
    trial.ask(opcode::LOOKUP, 1, b"app-shm\0");
    trial.answer(Ok(&entry(SHARED)));
    let actions = trial.actions();
    let Action::NewShared { node: first } = actions[0] else { panic!("{actions:?}") };
    let Action::Reply(reply) = &actions[1] else { panic!("{actions:?}") };
    assert_eq!(reply.size_at, Some(16 + 40 + 8));
    trial.ask(opcode::LOOKUP, 1, b"app-shm\0");
    trial.answer(Ok(&entry(SHARED)));
    assert_eq!(trial.actions().len(), 1);
    trial.ask(opcode::UNLINK, 1, b"app-shm\0");
    trial.answer(Ok(&[]));
    trial.actions();
    trial.ask(opcode::CREATE, 1, &[&[0; 16][..], b"app-shm\0"].concat());
    trial.answer(Ok(&[entry(SHARED), opened(3)].concat()));
    let actions = trial.actions();
    assert!(matches!(actions[0], Action::NewShared { node } if node != first));
    let Action::Reply(reply) = &actions[1] else { panic!("{actions:?}") };
    assert_eq!((reply.size_at, reply.open_at), (Some(16 + 40 + 8), Some(16 + 128 + 8)));
}

#[test]
fn a_new_size_goes_to_the_node_and_to_the_pages() {
    let mut trial = Trial::linked(Settings::default());
    let number = trial.look_up(b"app-shm", SHARED);
    trial.ask(opcode::SETATTR, number, &resize(3));
    assert_eq!(trial.asked(), [(opcode::SETATTR, SHARED)]);
    assert_eq!(trial.actions(), []);
    trial.answer(Ok(&[0; 104]));
    let actions = trial.actions();
    assert_eq!(actions[0], Action::CutShared { size: 3 });
    assert!(matches!(&actions[1], Action::Reply(reply) if reply.size_at == Some(16 + 16 + 8)));
}

#[test]
fn a_size_that_the_node_refuses_changes_nothing() {
    let mut trial = Trial::linked(Settings::default());
    let number = trial.look_up(b"app-shm", SHARED);
    trial.ask(opcode::SETATTR, number, &resize(3));
    trial.answer(Err(28));
    assert_eq!(trial.reply().1, Err(28));
}

#[test]
fn pages_are_read_and_written_beside_the_node() {
    let mut trial = Trial::linked(Settings::default());
    let (number, handle) = trial.opened(b"app-shm", SHARED, 5);
    let read = trial.ask(opcode::READ, number, &at(handle, 4_096, 100));
    let write = trial.ask(opcode::WRITE, number, &[&at(handle, 8, 3)[..], b"abc"].concat());
    assert_eq!(
        trial.actions(),
        [
            Action::ReadShared { unique: read, offset: 4_096, size: 100 },
            Action::WriteShared { unique: write, offset: 8, bytes: b"abc".to_vec() }
        ]
    );
    assert_eq!(trial.sent(), []);
}
