//! Notifications to the kernel. Some of them wait for a page that the kernel holds while it waits for a READ, so they are
//! sent by a thread of their own, and the one that answers the kernel never waits.

use crate::bytes::{put_u32, put_u64};
use crate::wire::REPLY_HEAD;
use std::fs::File;
use std::io::{Read, Result, Write};
use std::os::unix::net::UnixStream;
use std::sync::mpsc::{channel, Receiver, Sender};
use std::thread;

const INVALIDATE: u32 = 2;
const STORE: u32 = 4;
const RETRIEVE: u32 = 5;
const RESEND: u32 = 7;

/// One thing to notify.
pub enum Note {
    /// these bytes go into the kernel's page of the file
    Store { node: u64, at: u64, bytes: Vec<u8> },
    /// the kernel forgets the pages of the file
    Drop { node: u64 },
    /// this program is told that all before is done
    Tell(Done),
}

/// What is done.
#[derive(Clone, Copy, Debug, PartialEq, Eq)]
pub enum Done {
    Put,
    Dropped,
}

/// The way to the thread.
#[derive(Clone)]
pub struct Notifier {
    to: Sender<Note>,
}

/// The end at which each `Tell` arrives.
pub struct Told {
    pub stream: UnixStream,
    done: Receiver<Done>,
}

impl Notifier {
    pub fn start(device: &File) -> Result<(Notifier, Told)> {
        let (to, notes) = channel();
        let (stream, bell) = UnixStream::pair()?;
        stream.set_nonblocking(true)?;
        let (teller, done) = channel();
        let device = device.try_clone()?;
        thread::spawn(move || send_all(&device, &notes, &teller, bell));
        Ok((Notifier { to }, Told { stream, done }))
    }

    pub fn send(&self, note: Note) {
        let _ = self.to.send(note);
    }
}

impl Told {
    /// What was done since the last look.
    pub fn take(&mut self) -> Vec<Done> {
        let _ = self.stream.read(&mut [0; 64]);
        self.done.try_iter().collect()
    }
}

fn send_all(device: &File, notes: &Receiver<Note>, teller: &Sender<Done>, mut bell: UnixStream) {
    for note in notes {
        match note {
            Note::Store { node, at, bytes } => {
                // a file that the kernel has forgotten has no page to change
                let _ = store(device, node, at, &bytes);
            }
            Note::Drop { node } => {
                let _ = forget(device, node);
            }
            Note::Tell(done) => {
                if teller.send(done).is_err() || bell.write_all(&[0]).is_err() {
                    return;
                }
            }
        }
    }
}

/// The kernel forgets all pages of a file, and its attributes.
fn forget(device: &File, node: u64) -> Result<()> {
    let mut body = [0; 24];
    put_u64(&mut body, 0, node);
    put_u64(&mut body, 16, u64::MAX);
    notify(device, INVALIDATE, &body, &[])
}

/// Puts bytes into the kernel's pages of a file. It waits for a page that waits for a READ.
pub fn store(device: &File, node: u64, at: u64, bytes: &[u8]) -> Result<()> {
    let mut body = [0; 24];
    put_u64(&mut body, 0, node);
    put_u64(&mut body, 8, at);
    put_u32(&mut body, 16, bytes.len() as u32);
    notify(device, STORE, &body, bytes)
}

/// Asks the kernel for the first bytes of a file as it has them. It waits for no page.
pub fn retrieve(device: &File, node: u64, size: u32) -> Result<()> {
    let mut body = [0; 32];
    put_u64(&mut body, 8, node);
    put_u32(&mut body, 24, size);
    notify(device, RETRIEVE, &body, &[])
}

/// Asks for every request anew that was read and not answered. Linux 6.9 and later knows it.
pub fn resend(device: &File) -> Result<()> {
    notify(device, RESEND, &[], &[])
}

fn notify(mut device: &File, code: u32, body: &[u8], data: &[u8]) -> Result<()> {
    let mut message = vec![0; REPLY_HEAD];
    message.extend_from_slice(body);
    message.extend_from_slice(data);
    let size = message.len() as u32;
    put_u32(&mut message, 0, size);
    put_u32(&mut message, 4, code);
    device.write_all(&message)
}
