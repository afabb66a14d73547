//! The header of the shared memory: what the node was told, or said, last.

use crate::bytes::{put_u32, put_u64};
use crate::machine::output::Piece;

/// The bytes that the node sees: two copies of the index's header, and the checkpoint's words.
pub const HEADER: usize = 136;

const WORD: usize = 4;

/// The header as the node has it, where that is known.
pub struct Header {
    known: Option<[u8; HEADER]>,
}

impl Default for Header {
    fn default() -> Header {
        Header { known: None }
    }
}

impl Header {
    /// Whether the node was told a header, or told one.
    pub fn is_known(&self) -> bool {
        self.known.is_some()
    }

    /// Nothing is known any more.
    pub fn forget(&mut self) {
        self.known = None;
    }

    /// The header that the node has to be told, where the shared memory has another than it knows.
    pub fn news(&self, memory: &[u8]) -> Option<[u8; HEADER]> {
        let header: [u8; HEADER] = memory.get(..HEADER)?.try_into().ok()?;
        (self.known != Some(header)).then_some(header)
    }

    /// The node was told the header.
    pub fn told(&mut self, header: [u8; HEADER]) {
        self.known = Some(header);
    }

    /// The words that the node has changed. Before it was told a header it has none of its own.
    pub fn changes(&mut self, from_node: &[u8]) -> Vec<Piece> {
        let (Some(old), Some(new)) = (self.known, from_node.get(..HEADER)) else { return Vec::new() };
        let mut pieces: Vec<Piece> = Vec::new();
        for at in (0..HEADER).step_by(WORD) {
            let word = &new[at..at + WORD];
            if word == &old[at..at + WORD] {
                continue;
            }
            match pieces.last_mut().filter(|last| last.at + last.bytes.len() == at) {
                Some(last) => last.bytes.extend_from_slice(word),
                None => pieces.push(Piece { at, bytes: word.to_vec() }),
            }
        }
        self.known = new.try_into().ok();
        pieces
    }
}

/// The body of a READ of the header by this handle.
pub fn read_body(fh: u64) -> [u8; 40] {
    let mut body = [0; 40];
    put_u64(&mut body, 0, fh);
    put_u32(&mut body, 16, HEADER as u32);
    body
}
