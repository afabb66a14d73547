//! READDIR: the node lists nothing, so each name is looked up.

use super::files::{ENDINGS, PRIMARY};
use super::request::Request;
use super::then::Then;
use super::Machine;
use crate::bytes::{u32_at, u64_at};
use crate::wire::{errno, opcode, Kind};

const FOLDER: u32 = 4;
const FILE: u32 = 8;

/// A listing whose names are being looked up. Its first two names are `.` and `..`.
pub struct Listing {
    unique: u64,
    offset: usize,
    size: usize,
    names: Vec<(Vec<u8>, Option<u64>)>,
    left: usize,
}

impl Machine {
    pub(super) fn list(&mut self, request: &Request) {
        let root = Some(Kind::Root as u64);
        let mut names = vec![(b".".to_vec(), root), (b"..".to_vec(), root)];
        names.extend(self.names().into_iter().map(|name| (name, None)));
        let asked: Vec<Vec<u8>> = names.iter().skip(2).map(|(name, _)| [name, &[0][..]].concat()).collect();
        self.listings.push(Listing {
            unique: request.unique,
            offset: u64_at(request.body, 8) as usize,
            size: u32_at(request.body, 16) as usize,
            left: asked.len(),
            names,
        });
        for (k, name) in asked.iter().enumerate() {
            let then = Then::Listed { unique: request.unique, index: k + 2 };
            self.send(request.caller, opcode::LOOKUP, Kind::Root, &[name], then);
        }
    }

    /// The names that the node may have.
    fn names(&self) -> Vec<Vec<u8>> {
        let of_database = self.files.name.iter().flat_map(|name| {
            let beside = ENDINGS.iter().map(|(ending, _)| [name, *ending].concat());
            std::iter::once(name.clone()).chain(beside)
        });
        of_database.chain([PRIMARY.to_vec()]).collect()
    }

    pub(super) fn listed(&mut self, unique: u64, index: usize, result: Result<&[u8], u32>) {
        let number = result.ok().and_then(|body| Kind::of(u64_at(body, 0))).map(|kind| self.files.number(kind));
        let Some(at) = self.listings.iter().position(|listing| listing.unique == unique) else { return };
        let listing = &mut self.listings[at];
        listing.names[index].1 = number;
        listing.left -= 1;
        if listing.left == 0 {
            let listing = self.listings.swap_remove(at);
            match self.link.up {
                true => self.reply(unique, &listing.bytes()),
                false => self.refuse(unique, errno::ENOTCONN),
            }
        }
    }
}

impl Listing {
    /// The entries from the offset on, as many as have room.
    fn bytes(&self) -> Vec<u8> {
        let mut bytes = Vec::new();
        for (k, (name, number)) in self.names.iter().enumerate().skip(self.offset) {
            let Some(number) = number else { continue };
            let entry = entry(*number, k as u64 + 1, name);
            if bytes.len() + entry.len() > self.size {
                break;
            }
            bytes.extend_from_slice(&entry);
        }
        bytes
    }
}

/// A `fuse_dirent`, filled up to eight bytes.
fn entry(number: u64, next: u64, name: &[u8]) -> Vec<u8> {
    let kind = if number == Kind::Root as u64 { FOLDER } else { FILE };
    let mut bytes = Vec::new();
    bytes.extend_from_slice(&number.to_le_bytes());
    bytes.extend_from_slice(&next.to_le_bytes());
    bytes.extend_from_slice(&(name.len() as u32).to_le_bytes());
    bytes.extend_from_slice(&kind.to_le_bytes());
    bytes.extend_from_slice(name);
    bytes.resize(bytes.len().next_multiple_of(8), 0);
    bytes
}
