//! A second process of this program, which has the device too. Where the first one dies the kernel would refuse every request
//! with 107, and SQLite takes a refused lock of the shared memory for one that another holds: it waits for ten
//! seconds. So the second answers in place of the first, as one does that has lost its node, until the last file is
//! closed; and the folder is unmounted at once.

use crate::cover::uncover;
use crate::device::{has_ended, Device};
use crate::driver::Driver;
use crate::foreign::{hold_signals, inherited, keep_on_exec, receive, send, wait_for_signal};
use crate::machine::Machine;
use crate::memory::{clear_noted, clear_passed};
use crate::mounting::{unmount_lazily, Mounted};
use crate::mounts::Place;
use crate::notifier::resend;
use std::fs::File;
use std::io::{Error, Result};
use std::os::fd::OwnedFd;
use std::os::unix::net::UnixStream;
use std::process::{exit, Child, Command, Stdio};
use std::thread::{self, JoinHandle};
use std::time::Duration;

/// The argument by which this program is the second.
pub const GUARD: &str = "--guard";

/// Whether the folder is to be bare or covered after its end.
const BARE: &str = "bare";
const COVERED: &str = "covered";

/// How long it goes on after it was asked to end: whoever was at work has been told by then.
const PATIENCE: Duration = Duration::from_secs(1);

/// The first process's way to the second.
pub struct Guard {
    socket: UnixStream,
    _child: Child,
}

impl Guard {
    /// Starts the second process. It takes the cover away too where the folder is to be bare after every end.
    pub fn start(mounted: &Mounted, bare: bool) -> Result<Guard> {
        let (socket, theirs) = UnixStream::pair()?;
        let device = mounted.device.try_clone()?;
        let numbers = [keep_on_exec(&device)?, keep_on_exec(&theirs)?].map(|number| number.to_string());
        let place = &mounted.place;
        let child = Command::new(std::env::current_exe()?)
            .arg(GUARD)
            .args(numbers)
            .args([&place.folder, &place.number])
            .arg(if bare { BARE } else { COVERED })
            .current_dir("/")
            .stdin(Stdio::null())
            .stdout(Stdio::null())
            .stderr(Stdio::null())
            .spawn()?;
        Ok(Guard { socket, _child: child })
    }

    /// Tells which file is the shared memory, and its pages where they lie in a file. A second process that is gone isn't told.
    pub fn tell(&self, node: u64, memory: Option<&File>) {
        let _ = send(&self.socket, &node.to_le_bytes(), memory);
    }
}

/// The shared memory that was told last.
type Shared = (u64, Option<File>);

/// The second process, by the words after its argument: it waits for the end of the first, and stands in for it.
pub fn stand_in(words: &[String]) -> Result<()> {
    let [device, socket, folder, number, then] = words else { return Err(Error::other("this is for the program itself")) };
    let parse = |number: &String| number.parse().map(inherited).map_err(Error::other);
    let (device, socket) = (parse(device)?, UnixStream::from(OwnedFd::from(parse(socket)?)));
    hold_signals();
    let shared = told_last(&socket);
    if has_ended(&device)? {
        return Ok(());
    }
    end_at_a_signal();
    clear(&device, shared);
    let left = leave(Place { folder: folder.clone(), number: number.clone() }, then == BARE);
    let answered = resend(&device).and_then(|()| Driver::new("", Machine::after_another(), Device::new(device)).run());
    let _ = left.join();
    answered
}

/// What the first process told last before it ended.
fn told_last(socket: &UnixStream) -> Option<Shared> {
    let mut last = None;
    let mut node = [0; 8];
    while let Ok((8, file)) = receive(socket, &mut node) {
        last = Some((u64::from_le_bytes(node), file));
    }
    last
}

/// SQLite is to read the log, where it is told. A notification can wait for a page that waits for an answer.
fn clear(device: &File, shared: Option<Shared>) {
    match (shared, device.try_clone()) {
        (Some((_, Some(pages))), _) => clear_passed(&pages),
        (Some((node, None)), Ok(device)) => drop(thread::spawn(move || clear_noted(&device, node))),
        _ => {}
    }
}

/// Unmounts the folder while the device is answered: `fusermount3` looks at it. The kernel gives the number to no other mount
/// as long as a file is open.
fn leave(place: Place, bare: bool) -> JoinHandle<()> {
    thread::spawn(move || {
        if place.stands() && unmount_lazily(&place.folder).is_ok() && bare {
            uncover(&place.folder);
        }
    })
}

fn end_at_a_signal() {
    thread::spawn(|| {
        wait_for_signal();
        thread::sleep(PATIENCE);
        exit(0);
    });
}
