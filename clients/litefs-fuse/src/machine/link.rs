//! The link to the node: messages go out, each with what is to follow its reply. It is two connections, on each of which the
//! node answers in order: an answer on the lock file may be long in coming, and holds up nothing else.

use super::journal::Journal;
use super::owners::Owners;
use super::request::Caller;
use super::then::Then;
use super::Machine;
use crate::bytes::{put_u32, put_u64, u32_at, u64_at};
use crate::wire::{errno, opcode, Kind, REPLY_HEAD, REQUEST_HEAD};
use std::collections::VecDeque;

/// Nobody: the program's own messages.
pub const OWN: Caller = [0; 12];

/// The connections: that of the lock file, and that of all else.
#[derive(Clone, Copy, Debug, PartialEq, Eq)]
pub enum Way {
    Main,
    LockFile,
}

pub const WAYS: [Way; 2] = [Way::Main, Way::LockFile];

impl Way {
    /// The connection for a message. An open lock file is the second's, but for the lock that marks the first.
    fn of(opcode: u32, kind: Kind, then: &Then) -> Way {
        match (kind, opcode, then) {
            (_, _, Then::MarkOpened | Then::Marked) => Way::Main,
            (_, opcode::GETATTR | opcode::SETATTR, _) => Way::Main,
            (Kind::Lock, _, _) => Way::LockFile,
            _ => Way::Main,
        }
    }
}

/// The link. A handle belongs to the epoch in which it was opened. When one of the connections is lost, both are.
#[derive(Default)]
pub struct Link {
    pub up: bool,
    pub epoch: u32,
    lines: [Line; 2],
}

/// One connection.
#[derive(Default)]
struct Line {
    greeted: bool,
    unique: u64,
    waiting: VecDeque<(u64, Then)>,
}

impl Machine {
    /// Sends a message to the node. Where there is no link, it is answered at once.
    pub(super) fn send(&mut self, caller: Caller, opcode: u32, kind: Kind, body: &[&[u8]], then: Then) {
        if !self.link.up {
            return self.answered(then, Err(errno::ENOTCONN));
        }
        let way = Way::of(opcode, kind, &then);
        self.greet(way);
        let mut head = head(opcode, kind, body);
        head[24..36].copy_from_slice(&caller);
        self.put(way, head, body, then);
    }

    /// The first message of a connection.
    fn greet(&mut self, way: Way) {
        if !std::mem::replace(&mut self.link.lines[way as usize].greeted, true) {
            let mut version = [0; 16];
            put_u32(&mut version, 0, 7);
            put_u32(&mut version, 4, 31);
            let body: [&[u8]; 1] = [&version];
            self.put(way, head(opcode::INIT, Kind::Root, &body), &body, Then::Greeted);
        }
    }

    fn put(&mut self, way: Way, mut head: [u8; REQUEST_HEAD], body: &[&[u8]], then: Then) {
        let line = &mut self.link.lines[way as usize];
        line.unique += 1;
        line.waiting.push_back((line.unique, then));
        put_u64(&mut head, 8, line.unique);
        let to_node = &mut self.output.to_node[way as usize];
        to_node.extend_from_slice(&head);
        body.iter().for_each(|part| to_node.extend_from_slice(part));
    }

    /// A whole reply of the node on this connection.
    pub fn node(&mut self, way: Way, reply: &[u8]) {
        let waiting = &mut self.link.lines[way as usize].waiting;
        match waiting.pop_front() {
            Some((unique, then)) if reply.len() >= REPLY_HEAD && u64_at(reply, 8) == unique => {
                let error = u32_at(reply, 4).wrapping_neg();
                let body = &reply[REPLY_HEAD..];
                self.answered(then, if error == 0 { Ok(body) } else { Err(error) });
            }
            first => {
                first.into_iter().for_each(|first| waiting.push_front(first));
                self.hang_up();
            }
        }
    }

    /// A connection to the node was made.
    pub fn link_up(&mut self) {
        self.link.up = true;
        self.greet(Way::Main);
        self.open_position();
        self.open_mark();
    }

    /// A connection is lost, and with it every lock and handle of its session.
    pub fn link_down(&mut self) {
        if !self.link.up {
            return;
        }
        self.link.up = false;
        self.link.epoch += 1;
        self.output.to_node = Default::default();
        let shared = self.files.number(Kind::Shared);
        self.files.renew_all();
        self.forget_position();
        self.cache_lost();
        self.owners = Owners::default();
        self.journal = Journal::default();
        self.shared_lost(shared);
        for (_, then) in std::mem::take(&mut self.link.lines).into_iter().flat_map(|line| line.waiting) {
            self.answered(then, Err(errno::ENOTCONN));
        }
        self.waits_lost();
        self.shared_next();
    }

    pub(super) fn greeted(&mut self, result: Result<&[u8], u32>) {
        if result.is_err() {
            self.hang_up();
        }
    }
}

/// The head of a message, but for its number and who asks.
fn head(opcode: u32, kind: Kind, body: &[&[u8]]) -> [u8; REQUEST_HEAD] {
    let mut head = [0; REQUEST_HEAD];
    let size: usize = body.iter().map(|part| part.len()).sum();
    put_u32(&mut head, 0, (REQUEST_HEAD + size) as u32);
    put_u32(&mut head, 4, opcode);
    put_u64(&mut head, 16, kind as u64);
    head
}
