//! The lock DMS (byte 128), by which SQLite knows whether it is the first to open the shared memory. It is kept here; while
//! anybody holds it, this program holds it for writing at the node, under an owner of its own. So no other client of the
//! node opens the database in WAL mode beside the mount, which could not see the pages.

use crate::machine::lock_request::LockRequest;
use crate::wire::lock;

/// The byte, and the owner under which it is held at the node.
pub const DMS: u64 = 128;
pub const OWN_OWNER: u64 = 1;

struct Holder {
    owner: u64,
    generation: u32,
    wish: u32,
}

/// Who holds DMS, and for which generation it is held at the node.
#[derive(Default)]
pub struct Dms {
    holders: Vec<Holder>,
    pub at_node: Option<u32>,
}

impl Dms {
    /// The lock of another owner that keeps this one from being granted.
    pub fn conflict(&self, wanted: &LockRequest) -> Option<u32> {
        let others = self.holders.iter().filter(|holder| holder.generation == wanted.generation && holder.owner != wanted.owner);
        others.map(|holder| holder.wish).find(|wish| wanted.wish == lock::WRITE || *wish == lock::WRITE)
    }

    /// How an owner holds it.
    pub fn held(&self, owner: u64, generation: u32) -> Option<u32> {
        self.holders.iter().find(|holder| (holder.owner, holder.generation) == (owner, generation)).map(|holder| holder.wish)
    }

    /// The owner holds it in this way from now on, or no longer.
    pub fn set(&mut self, owner: u64, generation: u32, wish: Option<u32>) {
        self.holders.retain(|holder| (holder.owner, holder.generation) != (owner, generation));
        self.holders.extend(wish.map(|wish| Holder { owner, generation, wish }));
    }

    /// Whether nobody holds it of the generation for which it is held at the node.
    pub fn is_left(&self) -> bool {
        self.at_node.is_some_and(|generation| !self.holders.iter().any(|holder| holder.generation == generation))
    }
}
