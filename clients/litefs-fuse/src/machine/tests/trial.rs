//! A machine with a kernel on one side and a node on the other, both played by the test.

use crate::bytes::{put_u32, put_u64, u32_at, u64_at};
use crate::machine::link::{Way, WAYS};
use crate::machine::output::{Action, Reply};
use crate::machine::{Machine, Settings};
use crate::wire::opcode;
use std::collections::VecDeque;

/// A message to the node.
#[derive(Clone, Debug, PartialEq, Eq)]
pub struct Sent {
    pub way: Way,
    pub opcode: u32,
    pub node: u64,
    pub unique: u64,
    pub body: Vec<u8>,
}

pub struct Trial {
    pub machine: Machine,
    unique: u64,
    unanswered: VecDeque<Sent>,
    /// what came out and wasn't looked at yet
    sent: Vec<Sent>,
    actions: Vec<Action>,
}

pub const DATABASE: u64 = 2;
pub const JOURNAL: u64 = 3;
pub const LOG: u64 = 4;
pub const SHARED: u64 = 5;
pub const POSITION: u64 = 6;
pub const LOCK_FILE: u64 = 7;

/// The thread of the kernel's requests, which is the first of its process.
pub const THREAD: u32 = 77;

impl Trial {
    pub fn new(settings: Settings) -> Trial {
        Trial {
            machine: Machine::new(settings),
            unique: 0,
            unanswered: VecDeque::new(),
            sent: Vec::new(),
            actions: Vec::new(),
        }
    }

    /// A machine whose link is up and has been greeted.
    pub fn linked(settings: Settings) -> Trial {
        let mut trial = Trial::new(settings);
        trial.link();
        trial
    }

    /// Makes the link, and answers its first messages.
    pub fn link(&mut self) {
        self.machine.link_up();
        self.answer(Ok(&[0; 64]));
        self.answer(Ok(&opened(99)));
        self.answer(Ok(&opened(98)));
        self.answer(Ok(b"position one\n"));
        self.answer(Ok(&[]));
        self.sent();
        self.actions();
    }

    pub fn cut(&mut self) {
        self.machine.link_down();
        self.unanswered.clear();
    }

    /// A request of the kernel; answers its number.
    pub fn ask(&mut self, opcode: u32, node: u64, body: &[u8]) -> u64 {
        self.ask_by(THREAD, opcode, node, body)
    }

    /// A request that comes from a thread.
    pub fn ask_by(&mut self, thread: u32, opcode: u32, node: u64, body: &[u8]) -> u64 {
        self.unique += 2;
        let mut message = vec![0; 40];
        message.extend_from_slice(body);
        let size = message.len() as u32;
        put_u32(&mut message, 0, size);
        put_u32(&mut message, 4, opcode);
        put_u64(&mut message, 8, self.unique);
        put_u64(&mut message, 16, node);
        put_u32(&mut message, 24, 501);
        put_u32(&mut message, 32, thread);
        self.machine.kernel(&message);
        self.gather();
        self.unique
    }

    /// The node's reply to the oldest message.
    pub fn answer(&mut self, result: Result<&[u8], u32>) {
        self.gather();
        let message = self.unanswered.front().cloned().expect("the node has a message to answer");
        self.answer_to(&message, result);
    }

    /// Empty replies to all messages.
    pub fn answer_all(&mut self) {
        while self.has_unanswered() {
            self.answer(Ok(&[]));
        }
    }

    pub fn has_unanswered(&self) -> bool {
        !self.unanswered.is_empty()
    }

    /// The node's reply to a message.
    pub fn answer_to(&mut self, message: &Sent, result: Result<&[u8], u32>) {
        self.unanswered.retain(|other| other != message);
        let reply = match result {
            Ok(body) => Reply::new(message.unique, body),
            Err(error) => Reply::refusal(message.unique, error),
        };
        self.machine.node(message.way, &reply.message);
        self.gather();
    }

    /// The messages that went to the node since the last look.
    pub fn sent(&mut self) -> Vec<Sent> {
        self.gather();
        std::mem::take(&mut self.sent)
    }

    /// Opcodes and nodes of them.
    pub fn asked(&mut self) -> Vec<(u32, u64)> {
        self.sent().iter().map(|sent| (sent.opcode, sent.node)).collect()
    }

    pub fn actions(&mut self) -> Vec<Action> {
        self.gather();
        std::mem::take(&mut self.actions)
    }

    /// The replies that went to the kernel since the last look, each with its number and its body or error.
    pub fn replies(&mut self) -> Vec<(u64, Result<Vec<u8>, u32>)> {
        self.actions().iter().filter_map(told).collect()
    }

    /// The one reply since the last look.
    pub fn reply(&mut self) -> (u64, Result<Vec<u8>, u32>) {
        let mut replies = self.replies();
        assert_eq!(replies.len(), 1, "one reply: {replies:?}");
        replies.remove(0)
    }

    fn gather(&mut self) {
        let output = self.machine.take();
        WAYS.into_iter().for_each(|way| self.gather_from(way, &output.to_node[way as usize]));
        self.actions.extend(output.actions);
    }

    /// The first message of the second connection is answered at once.
    fn gather_from(&mut self, way: Way, mut bytes: &[u8]) {
        while !bytes.is_empty() {
            let (message, rest) = bytes.split_at(u32_at(bytes, 0) as usize);
            let sent = Sent {
                way,
                opcode: u32_at(message, 4),
                unique: u64_at(message, 8),
                node: u64_at(message, 16),
                body: message[40..].to_vec(),
            };
            self.sent.push(sent.clone());
            match (way, sent.opcode) {
                (Way::LockFile, opcode::INIT) => self.machine.node(way, &Reply::new(sent.unique, &[0; 64]).message),
                _ => self.unanswered.push_back(sent),
            }
            bytes = rest;
        }
    }

    /// Looks a name up, answered by the node's number.
    pub fn look_up(&mut self, name: &[u8], node: u64) -> u64 {
        self.ask(opcode::LOOKUP, 1, &[name, &[0]].concat());
        while self.unanswered.front().is_some_and(|sent| sent.opcode != opcode::LOOKUP) {
            self.answer(Ok(b"position one\n"));
        }
        self.answer(Ok(&entry(node)));
        let (_, body) = self.reply();
        self.sent();
        u64_at(&body.expect("an entry"), 0)
    }

    /// Opens a file, by the node's handle where it is asked; answers the kernel's.
    pub fn open(&mut self, number: u64, fh: u64) -> u64 {
        self.ask(opcode::OPEN, number, &2u64.to_le_bytes());
        if self.unanswered.front().is_some_and(|sent| sent.node == POSITION) {
            self.answer(Ok(b"position one\n"));
        }
        if !self.unanswered.is_empty() {
            self.answer(Ok(&opened(fh)));
        }
        let actions = self.actions();
        self.sent();
        let body = actions.iter().find_map(told).expect("a reply").1.expect("an open file");
        u64_at(&body, 0)
    }

    /// Looks up and opens.
    pub fn opened(&mut self, name: &[u8], node: u64, fh: u64) -> (u64, u64) {
        let number = self.look_up(name, node);
        (number, self.open(number, fh))
    }
}

/// The reply that an action is.
pub fn told(action: &Action) -> Option<(u64, Result<Vec<u8>, u32>)> {
    let Action::Reply(reply) = action else { return None };
    let error = u32_at(&reply.message, 4).wrapping_neg();
    let result = if error == 0 { Ok(reply.message[16..].to_vec()) } else { Err(error) };
    Some((u64_at(&reply.message, 8), result))
}

/// `fuse_entry_out` and `fuse_open_out` as a node writes them.
pub fn entry(node: u64) -> Vec<u8> {
    let mut body = vec![0; 128];
    put_u64(&mut body, 0, node);
    put_u64(&mut body, 40, node);
    put_u64(&mut body, 48, 8_192);
    put_u32(&mut body, 100, 0o100_644);
    body
}

pub fn opened(fh: u64) -> Vec<u8> {
    let mut body = vec![0; 16];
    put_u64(&mut body, 0, fh);
    put_u32(&mut body, 8, 1);
    body
}

/// `fuse_lk_in`.
pub fn lock(fh: u64, owner: u64, start: u64, end: u64, wish: u32) -> Vec<u8> {
    let mut body = vec![0; 48];
    put_u64(&mut body, 0, fh);
    put_u64(&mut body, 8, owner);
    put_u64(&mut body, 16, start);
    put_u64(&mut body, 24, end);
    put_u32(&mut body, 32, wish);
    body
}

/// `fuse_read_in` or `fuse_write_in`.
pub fn at(fh: u64, offset: u64, size: u32) -> Vec<u8> {
    let mut body = vec![0; 40];
    put_u64(&mut body, 0, fh);
    put_u64(&mut body, 8, offset);
    put_u32(&mut body, 16, size);
    body
}

/// `fuse_flush_in` or `fuse_release_in`.
pub fn closing(fh: u64, owner: u64) -> Vec<u8> {
    let mut body = vec![0; 24];
    put_u64(&mut body, 0, fh);
    put_u64(&mut body, 16, owner);
    body
}
