//! The shared memory of a database in WAL mode, in one of two ways.

mod noted;
mod passed;

pub use noted::Noted;
pub use passed::Passed;

use crate::machine::output::Piece;
use crate::notifier::store;
use std::fs::File;
use std::io::Result;
use std::os::unix::fs::FileExt;

/// Both copies of the index's header.
const CLEARED: usize = 96;

/// Where the pages of the shared memory lie.
pub trait Memory {
    /// New pages, none yet, for the file of this number.
    fn renew(&mut self, node: u64) -> Result<()>;

    /// The file in memory that has the pages, where one has them.
    fn pages(&self) -> Option<&File>;

    /// The size in bytes.
    fn size(&self) -> u64;

    /// Gives it another size.
    fn cut(&mut self, size: u64) -> Result<()>;

    /// The flags with which the kernel opens it, and the number of its backing file.
    fn open_flags(&self) -> (u32, u32);

    /// A READ of pages that the kernel doesn't have.
    fn read(&self, offset: u64, size: u32) -> Result<Vec<u8>>;

    /// A WRITE of pages that the kernel gives back.
    fn write(&mut self, offset: u64, bytes: &[u8]) -> Result<()>;

    /// Makes the header zeros, but for the checkpoint's words.
    fn clear(&mut self, node: u64) -> Result<()> {
        let zeros = Piece { at: 0, bytes: vec![0; CLEARED] };
        self.put_quietly(node, &zeros)
    }

    /// Puts one piece in, and tells nobody when that is done.
    fn put_quietly(&mut self, node: u64, piece: &Piece) -> Result<()>;

    /// Puts the pieces in, where the file reaches so far. Tells whether that is done already.
    fn put(&mut self, node: u64, pieces: &[Piece]) -> Result<bool>;

    /// The header as the applications see it, where it can be had at once; else it is asked for, and the device's answer
    /// goes to `retrieved`.
    fn fetch(&mut self, node: u64) -> Result<Option<Vec<u8>>>;

    /// The device's answer; gives the header.
    fn retrieved(&mut self, bytes: &[u8]) -> Vec<u8>;
}

/// Makes the header zeros of pages that lie in a file, after the process that made it has ended.
pub fn clear_passed(pages: &File) {
    if pages.metadata().is_ok_and(|data| data.len() >= CLEARED as u64) {
        let _ = pages.write_all_at(&[0; CLEARED], 0);
    }
}

/// The same of pages in the kernel's cache.
pub fn clear_noted(device: &File, node: u64) {
    let _ = store(device, node, 0, &[0; CLEARED]);
}
