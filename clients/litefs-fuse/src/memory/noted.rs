//! The pages lie in the kernel's cache of `x-shm`. This program has a copy, from which pages that the kernel lacks are
//! read and to which it gives them back. What the node changes goes into the copy and by a notification into the
//! kernel's page; the header is asked for by another.

use super::Memory;
use crate::machine::output::Piece;
use crate::machine::HEADER;
use crate::notifier::{retrieve, Done, Note, Notifier};
use crate::wire::open;
use std::fs::File;
use std::io::{Error, Result};

/// The most that SQLite needs for a log of 256 MiB, with room.
const MOST: u64 = 8 << 20;

pub struct Noted {
    device: File,
    notifier: Notifier,
    copy: Vec<u8>,
}

impl Noted {
    pub fn new(device: &File, notifier: Notifier) -> Result<Noted> {
        Ok(Noted { device: device.try_clone()?, notifier, copy: Vec::new() })
    }

    fn header(&self) -> Vec<u8> {
        self.copy[..self.copy.len().min(HEADER)].to_vec()
    }
}

impl Memory for Noted {
    fn renew(&mut self, _node: u64) -> Result<()> {
        self.copy.clear();
        Ok(())
    }

    fn pages(&self) -> Option<&File> {
        None
    }

    fn size(&self) -> u64 {
        self.copy.len() as u64
    }

    fn cut(&mut self, size: u64) -> Result<()> {
        if size > MOST {
            return Err(Error::other("the shared memory is too large"));
        }
        self.copy.resize(size as usize, 0);
        Ok(())
    }

    fn open_flags(&self) -> (u32, u32) {
        (open::KEEP_CACHE, 0)
    }

    fn read(&self, offset: u64, size: u32) -> Result<Vec<u8>> {
        let from = offset.min(self.size()) as usize;
        let to = (offset + u64::from(size)).min(self.size()) as usize;
        Ok(self.copy[from..to].to_vec())
    }

    fn write(&mut self, offset: u64, bytes: &[u8]) -> Result<()> {
        let end = offset + bytes.len() as u64;
        if end > self.size() {
            self.cut(end)?;
        }
        self.copy[offset as usize..end as usize].copy_from_slice(bytes);
        Ok(())
    }

    fn put_quietly(&mut self, node: u64, piece: &Piece) -> Result<()> {
        if let Some(place) = self.copy.get_mut(piece.at..piece.at + piece.bytes.len()) {
            place.copy_from_slice(&piece.bytes);
            self.notifier.send(Note::Store { node, at: piece.at as u64, bytes: piece.bytes.clone() });
        }
        Ok(())
    }

    fn put(&mut self, node: u64, pieces: &[Piece]) -> Result<bool> {
        pieces.iter().try_for_each(|piece| self.put_quietly(node, piece))?;
        self.notifier.send(Note::Tell(Done::Put));
        Ok(false)
    }

    fn fetch(&mut self, node: u64) -> Result<Option<Vec<u8>>> {
        match retrieve(&self.device, node, HEADER as u32) {
            Ok(()) => Ok(None),
            Err(_) => Ok(Some(self.header())),
        }
    }

    fn retrieved(&mut self, bytes: &[u8]) -> Vec<u8> {
        let size = bytes.len().min(HEADER).min(self.copy.len());
        self.copy[..size].copy_from_slice(&bytes[..size]);
        self.header()
    }
}
