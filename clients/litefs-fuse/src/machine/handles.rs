//! Open files. The node has at most 1,024 handles for a session, so a file is open there once, however often the kernel
//! has it open.

use crate::wire::Kind;
use std::collections::HashMap;

/// A file that the kernel has open.
#[derive(Clone, Copy, Debug, PartialEq, Eq)]
pub struct Handle {
    pub kind: Kind,
    pub generation: u32,
    pub epoch: u32,
    /// the node's handle
    pub fh: u64,
    /// who locked by this handle and has not flushed since
    pub lock_owner: Option<u64>,
}

struct AtNode {
    kind: Kind,
    generation: u32,
    epoch: u32,
    fh: u64,
    count: usize,
}

/// The kernel's handles and the node's.
#[derive(Default)]
pub struct Handles {
    latest: u64,
    open: HashMap<u64, Handle>,
    at_node: Vec<AtNode>,
}

impl Handles {
    pub fn get(&self, number: u64) -> Option<Handle> {
        self.open.get(&number).copied()
    }

    pub fn get_mut(&mut self, number: u64) -> Option<&mut Handle> {
        self.open.get_mut(&number)
    }

    /// The node's handle of a file, where it has one.
    pub fn at_node(&self, kind: Kind, generation: u32, epoch: u32) -> Option<u64> {
        self.at_node.iter().find(|h| (h.kind, h.generation, h.epoch) == (kind, generation, epoch)).map(|h| h.fh)
    }

    /// A new handle of the kernel over one of the node.
    pub fn add(&mut self, kind: Kind, generation: u32, epoch: u32, fh: u64) -> u64 {
        self.latest += 1;
        self.open.insert(self.latest, Handle { kind, generation, epoch, fh, lock_owner: None });
        match self.at_node.iter_mut().find(|h| (h.kind, h.generation, h.epoch) == (kind, generation, epoch)) {
            Some(shared) => shared.count += 1,
            None => self.at_node.push(AtNode { kind, generation, epoch, fh, count: 1 }),
        }
        self.latest
    }

    /// Forgets a handle of the kernel. Tells whether it was the last over the node's.
    pub fn remove(&mut self, number: u64) -> bool {
        let Some(handle) = self.open.remove(&number) else { return false };
        let key = (handle.kind, handle.generation, handle.epoch);
        let Some(at) = self.at_node.iter().position(|h| (h.kind, h.generation, h.epoch) == key) else { return false };
        self.at_node[at].count -= 1;
        let last = self.at_node[at].count == 0;
        if last {
            self.at_node.swap_remove(at);
        }
        last
    }
}
