//! A recorded conversation: what the kernel and a node sent while two connections of SQLite 3.40.1 worked in the modes DELETE
//! and WAL on a real mount (Linux 6.18, passthrough), taken from outside by strace. Each line is one thing that came:
//! a request, a reply, the link, the header as it stood in the shared memory. What the machine made of them is not
//! recorded; it must be what the rules say. Five replies were put in since, to messages that this program didn't send then:
//! to those by which it marks the mount, and to the cut before each removal of the journal.

use crate::bytes::{u32_at, u64_at};
use crate::machine::link::Way;
use crate::machine::output::{Action, Output};
use crate::machine::{Machine, Settings, HEADER};
use crate::wire::{lock, opcode};
use std::collections::HashMap;

const RECORD: &str = include_str!("recorded.txt");
const SHARED: u64 = 5;
const DMS: u64 = 128;
const WITHOUT_REPLY: [u32; 2] = [opcode::FORGET, opcode::BATCH_FORGET];

/// All that came out: the messages to the node, and the numbers of the requests that were answered.
#[derive(Default)]
struct Replayed {
    asked: HashMap<u64, usize>,
    node_replies: usize,
    messages: Vec<Vec<u8>>,
    actions: Vec<Action>,
}

fn bytes(hex: &str) -> Vec<u8> {
    (0..hex.len()).step_by(2).map(|at| u8::from_str_radix(&hex[at..at + 2], 16).unwrap()).collect()
}

fn replay() -> Replayed {
    let mut machine = Machine::new(Settings { passthrough: true, name: Some(b"app".to_vec()), ..Settings::default() });
    let mut all = Replayed::default();
    for line in RECORD.lines() {
        let (what, hex) = line.split_once(' ').unwrap_or((line, ""));
        let came = bytes(hex);
        match what {
            "kernel" => {
                if !WITHOUT_REPLY.contains(&u32_at(&came, 4)) {
                    all.asked.insert(u64_at(&came, 8), 0);
                }
                machine.kernel(&came);
            }
            "node" => {
                all.node_replies += 1;
                machine.node(Way::Main, &came);
            }
            "up" => machine.link_up(),
            "fetched" => machine.fetched(&came),
            "put" => machine.put_done(),
            _ => panic!("{line}"),
        }
        all.gather(machine.take());
    }
    all
}

impl Replayed {
    fn gather(&mut self, output: Output) {
        let mut rest = &output.to_node[Way::Main as usize][..];
        while !rest.is_empty() {
            let (message, more) = rest.split_at(u32_at(rest, 0) as usize);
            self.messages.push(message.to_vec());
            rest = more;
        }
        for action in &output.actions {
            let unique = match action {
                Action::Reply(reply) => u64_at(&reply.message, 8),
                Action::ReadShared { unique, .. } | Action::WriteShared { unique, .. } => *unique,
                _ => continue,
            };
            *self.asked.get_mut(&unique).expect("a reply to a request") += 1;
        }
        self.actions.extend(output.actions);
    }

    /// The messages of this opcode on the shared memory, and each with the one behind it.
    fn shared(&self, opcode: u32) -> Vec<(&[u8], Option<&Vec<u8>>)> {
        let of = |message: &[u8]| u32_at(message, 4) == opcode && u64_at(message, 16) == SHARED;
        let all = self.messages.iter().enumerate().filter(|(_, message)| of(message));
        all.map(|(k, message)| (&message[40..], self.messages.get(k + 1))).collect()
    }
}

#[test]
fn each_request_is_answered_once_and_the_node_answers_each_message() {
    let all = replay();
    assert!(all.asked.len() > 100);
    assert!(all.asked.values().all(|replies| *replies == 1), "{:?}", all.asked);
    assert_eq!(all.messages.len(), all.node_replies);
    assert!(!all.actions.contains(&Action::HangUp));
}

#[test]
fn behind_each_lock_of_the_shared_memory_its_header_is_read() {
    let all = replay();
    let mut seen = 0;
    for (body, next) in all.shared(opcode::SETLK) {
        if u64_at(body, 16) == DMS || u32_at(body, 32) == lock::UNLOCK {
            continue;
        }
        let next = next.expect("a message behind a lock");
        assert_eq!((u32_at(next, 4), u64_at(next, 16), u64_at(next, 48), u32_at(next, 56)), (opcode::READ, SHARED, 0, HEADER as u32));
        seen += 1;
    }
    assert!(seen > 5, "{seen}");
}

#[test]
fn each_header_that_is_told_stands_before_an_unlock_or_a_flush() {
    let all = replay();
    let told = all.shared(opcode::WRITE);
    assert!(told.len() > 2);
    for (body, next) in told {
        assert_eq!((u64_at(body, 8), body.len()), (0, 40 + HEADER));
        let next = next.expect("a message behind a header");
        let unlock = u32_at(next, 4) == opcode::SETLK && u32_at(next, 72) == lock::UNLOCK;
        assert!(unlock || u32_at(next, 4) == opcode::FLUSH);
        assert_eq!(u64_at(next, 16), SHARED);
    }
}

#[test]
fn dms_is_taken_at_the_node_by_the_program_alone() {
    let dms = replay().shared(opcode::SETLK).into_iter().filter(|(body, _)| u64_at(body, 16) == DMS).map(|(body, _)| body.to_vec()).collect::<Vec<_>>();
    assert!(!dms.is_empty());
    assert!(dms.iter().all(|body| (u64_at(body, 8), u32_at(body, 32)) == (1, lock::WRITE)));
}
