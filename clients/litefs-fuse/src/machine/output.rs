//! What the machine wants done: bytes for the node, and actions for what stands around it.

use crate::bytes::{put_u32, put_u64};
use crate::wire::REPLY_HEAD;

/// Bytes of the shared memory that the node changed.
#[derive(Clone, Debug, PartialEq, Eq)]
pub struct Piece {
    pub at: usize,
    pub bytes: Vec<u8>,
}

/// A reply to the kernel, whole. Two of its fields only the owner of the shared memory knows.
#[derive(Clone, Debug, PartialEq, Eq)]
pub struct Reply {
    pub message: Vec<u8>,
    /// where the size of the shared memory goes (8 bytes)
    pub size_at: Option<usize>,
    /// where the open flags of the shared memory go (4 bytes), and its backing file's number behind them (4 bytes)
    pub open_at: Option<usize>,
}

/// One thing to do. They are done in their order.
#[derive(Clone, Debug, PartialEq, Eq)]
pub enum Action {
    /// The kernel gets this reply.
    Reply(Reply),
    /// The kernel is ready; the shared memory may be passed through where it says so.
    Started { passthrough: bool },
    /// A new shared memory, empty, under this number of the kernel.
    NewShared { node: u64 },
    /// A READ of the shared memory is answered from it.
    ReadShared { unique: u64, offset: u64, size: u32 },
    /// A WRITE to the shared memory is done and answered.
    WriteShared { unique: u64, offset: u64, bytes: Vec<u8> },
    /// The shared memory gets this size.
    CutShared { size: u64 },
    /// These bytes go into the shared memory; then `put_done` is called.
    PutShared { node: u64, pieces: Vec<Piece> },
    /// The header is read from the shared memory; then `fetched` is called.
    FetchShared { node: u64 },
    /// The header of the shared memory becomes zeros.
    ClearShared { node: u64 },
    /// The kernel forgets the pages of these files; then `dropped` is called.
    DropCache { nodes: [u64; 2] },
    /// The link is of no use and is closed; then `link_down` is called.
    HangUp,
    /// The kernel has unmounted.
    Stop,
}

/// What has come together since the last look.
#[derive(Default)]
pub struct Output {
    /// on each of the two connections
    pub to_node: [Vec<u8>; 2],
    pub actions: Vec<Action>,
}

impl Output {
    /// Whether nothing has come together.
    pub fn is_empty(&self) -> bool {
        self.to_node.iter().all(Vec::is_empty) && self.actions.is_empty()
    }
}

impl Reply {
    /// A reply with a body.
    pub fn new(unique: u64, body: &[u8]) -> Reply {
        let mut message = vec![0; REPLY_HEAD];
        message.extend_from_slice(body);
        put_u32(&mut message, 0, (REPLY_HEAD + body.len()) as u32);
        put_u64(&mut message, 8, unique);
        Reply { message, size_at: None, open_at: None }
    }

    /// A reply that tells an error.
    pub fn refusal(unique: u64, error: u32) -> Reply {
        let mut reply = Reply::new(unique, &[]);
        put_u32(&mut reply.message, 4, error.wrapping_neg());
        reply
    }

    /// The body, to be changed.
    pub fn body(&mut self) -> &mut [u8] {
        &mut self.message[REPLY_HEAD..]
    }
}
