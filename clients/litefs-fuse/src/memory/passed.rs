//! The pages lie in a file in memory, which the kernel uses for `x-shm` without asking this program.

use super::Memory;
use crate::foreign::{close_backing, memory_file, open_backing};
use crate::machine::output::Piece;
use crate::machine::HEADER;
use crate::wire::open;
use std::fs::File;
use std::io::{Error, Result};
use std::os::unix::fs::FileExt;

pub struct Passed {
    device: File,
    file: Option<File>,
    backing: Option<u32>,
}

impl Passed {
    /// Tries whether the kernel takes a backing file. Only root may give it one.
    pub fn attempt(device: &File) -> Result<Passed> {
        let number = open_backing(device, &memory_file()?)?;
        close_backing(device, number);
        Ok(Passed { device: device.try_clone()?, file: None, backing: None })
    }

    fn file(&self) -> Result<&File> {
        self.file.as_ref().ok_or_else(|| Error::other("no shared memory"))
    }
}

impl Memory for Passed {
    fn renew(&mut self, _node: u64) -> Result<()> {
        if let Some(number) = self.backing.take() {
            close_backing(&self.device, number);
        }
        let file = memory_file()?;
        self.backing = Some(open_backing(&self.device, &file)?);
        self.file = Some(file);
        Ok(())
    }

    fn pages(&self) -> Option<&File> {
        self.file.as_ref()
    }

    fn size(&self) -> u64 {
        self.file().and_then(|file| file.metadata()).map_or(0, |data| data.len())
    }

    fn cut(&mut self, size: u64) -> Result<()> {
        self.file()?.set_len(size)
    }

    fn open_flags(&self) -> (u32, u32) {
        match self.backing {
            Some(number) => (open::PASSTHROUGH, number),
            None => (open::DIRECT_IO, 0),
        }
    }

    fn read(&self, offset: u64, size: u32) -> Result<Vec<u8>> {
        let mut bytes = vec![0; size as usize];
        let got = self.file()?.read_at(&mut bytes, offset)?;
        bytes.truncate(got);
        Ok(bytes)
    }

    fn write(&mut self, offset: u64, bytes: &[u8]) -> Result<()> {
        self.file()?.write_all_at(bytes, offset)
    }

    fn put_quietly(&mut self, _node: u64, piece: &Piece) -> Result<()> {
        if (piece.at + piece.bytes.len()) as u64 > self.size() {
            return Ok(());
        }
        self.file()?.write_all_at(&piece.bytes, piece.at as u64)
    }

    fn put(&mut self, node: u64, pieces: &[Piece]) -> Result<bool> {
        pieces.iter().try_for_each(|piece| self.put_quietly(node, piece))?;
        Ok(true)
    }

    fn fetch(&mut self, _node: u64) -> Result<Option<Vec<u8>>> {
        self.read(0, HEADER as u32).map(Some)
    }

    fn retrieved(&mut self, _bytes: &[u8]) -> Vec<u8> {
        Vec::new()
    }
}
