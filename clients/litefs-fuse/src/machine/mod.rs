//! The machine between the kernel and the node. It has no input or output: a request of the kernel or a reply of the node
//! goes in, and messages to the node, replies to the kernel and orders for the shared memory come out.
//!
//! What always holds: each request of the kernel that has a reply gets one, and one only; no handle of a lost link
//! reaches the node; a lock of the shared memory is granted only after the node's changes of the header were put in.

mod attributes;
mod cache;
mod data;
mod dispatch;
mod files;
mod handles;
mod journal;
pub mod link;
mod listing;
mod local;
mod lock_request;
mod locking;
mod mark;
mod names;
mod opening;
mod owners;
pub mod output;
mod position;
mod request;
mod shared;
mod stale;
mod then;
mod waits;

#[cfg(test)]
mod tests;


use cache::Cache;
use files::Files;
use handles::Handles;
use journal::Journal;
use link::Link;
use listing::Listing;
use output::Output;
use owners::Owners;
use position::{Position, Time};
use shared::Shared;
use waits::Waits;

pub use shared::header::HEADER;

/// What the mount was started with.
#[derive(Clone, Default)]
pub struct Settings {
    /// the owner that the attributes tell
    pub uid: u32,
    pub gid: u32,
    /// whether at a replica the database is opened for reading alone
    pub read_only_at_replica: bool,
    /// whether the name of the database may be removed, which drops it
    pub may_drop: bool,
    /// whether the shared memory is passed through where the kernel can
    pub passthrough: bool,
    /// whether the kernel caches the database's pages
    pub cache: bool,
    /// the database's name, for listings
    pub name: Option<Vec<u8>>,
}

/// The machine.
pub struct Machine {
    settings: Settings,
    /// whether another process, which has ended, opened what the kernel has open
    after_another: bool,
    now: Time,
    link: Link,
    files: Files,
    handles: Handles,
    owners: Owners,
    journal: Journal,
    /// the process of a thread, where it can be seen
    process_of: Box<dyn Fn(u32) -> Option<u32>>,
    position: Position,
    cache: Cache,
    shared: Shared,
    waits: Waits,
    listings: Vec<Listing>,
    output: Output,
}

impl Machine {
    pub fn new(settings: Settings) -> Machine {
        Machine {
            files: Files::new(settings.name.clone()),
            settings,
            after_another: false,
            now: (0, 0),
            link: Link::default(),
            handles: Handles::default(),
            owners: Owners::default(),
            journal: Journal::default(),
            process_of: Box::new(|_| None),
            position: Position::default(),
            cache: Cache::default(),
            shared: Shared::default(),
            waits: Waits::default(),
            listings: Vec::new(),
            output: Output::default(),
        }
    }

    /// From now on this tells the process of a thread.
    pub fn see_processes(&mut self, process_of: Box<dyn Fn(u32) -> Option<u32>>) {
        self.process_of = process_of;
    }

    /// A machine in place of one that is gone: it knows none of its handles, and never gets a link.
    pub fn after_another() -> Machine {
        let mut machine = Machine::new(Settings::default());
        machine.after_another = true;
        machine.files.renew_after_another();
        machine
    }

    /// Takes what has come together.
    pub fn take(&mut self) -> Output {
        std::mem::take(&mut self.output)
    }

    fn hang_up(&mut self) {
        self.output.actions.push(output::Action::HangUp);
    }
}
