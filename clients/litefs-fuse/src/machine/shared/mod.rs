//! The shared memory of a database in WAL mode, `x-shm`. Applications of one mount share its pages by the kernel; the node
//! sees and changes only the header at its begin. Lock requests are taken one after another: behind a granted lock the
//! node's changes of the header are put in, and before a lock is given up under which the header is written, the node
//! is told it. The byte DMS is this program's own.

mod dms;
mod dms_steps;
pub mod header;
mod job;
mod queue;
pub mod steps;
mod writers;

use super::Machine;
use crate::machine::output::Action;
use crate::wire::Kind;
use dms::Dms;
pub use dms::OWN_OWNER;
use header::Header;
use queue::Queue;
use writers::Writers;

/// What is known of the shared memory.
#[derive(Default)]
pub struct Shared {
    /// the generation of the pages that are there, 0 for none
    generation: u32,
    header: Header,
    dms: Dms,
    writers: Writers,
    queue: Queue,
}

impl Machine {
    /// A file is about to be told to the kernel: a shared memory of a new generation gets pages of its own.
    pub(super) fn shared_known(&mut self, kind: Kind) {
        let generation = self.files.generation(Kind::Shared);
        if kind == Kind::Shared && self.shared.generation != generation {
            self.shared.generation = generation;
            self.shared.header = Header::default();
            self.shared.writers = Writers::default();
            let node = self.files.number(Kind::Shared);
            self.output.actions.push(Action::NewShared { node });
        }
    }

    /// The link is lost, and with it every lock. Its header says nothing from now on.
    pub(super) fn shared_lost(&mut self, node: u64) {
        self.shared.header = Header::default();
        self.shared.dms = Dms::default();
        self.shared.writers = Writers::default();
        if self.shared.generation != 0 {
            self.output.actions.push(Action::ClearShared { node });
        }
    }
}
