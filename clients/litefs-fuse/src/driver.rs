//! The loop around the machine: it waits for the device, the node and the notifier, hands over what comes, and does what
//! the machine wants.

mod links;
mod processes;

use crate::bytes::{put_u32, put_u64, u32_at};
use crate::device::{Device, Got};
use crate::foreign::{polled, wait_ready, READABLE};
use crate::guard::Guard;
use crate::machine::output::{Action, Reply};
use crate::machine::Machine;
use crate::memory::{Memory, Noted, Passed};
use crate::notifier::{Done, Note, Notifier, Told};
use crate::wire::{errno, opcode, REQUEST_HEAD};
use links::Links;
use std::io::Result;
use std::time::{Duration, Instant, SystemTime, UNIX_EPOCH};

/// How long a lock that is waited for is left alone.
const TICK: Duration = Duration::from_millis(2);

/// The most requests that are read before their messages are sent.
const BURST: usize = 64;

/// Where the data of the answer to NOTIFY_RETRIEVE begin.
const RETRIEVED_AT: usize = REQUEST_HEAD + 40;

/// What has something to be taken.
struct Ready {
    device: bool,
    links: [bool; 2],
    told: bool,
}

pub struct Driver {
    machine: Machine,
    device: Device,
    links: Links,
    memory: Option<Box<dyn Memory>>,
    notifier: Option<Notifier>,
    told: Option<Told>,
    guard: Option<Guard>,
    ticked: Instant,
    stopped: bool,
}

impl Driver {
    pub fn new(socket: &str, mut machine: Machine, device: Device) -> Driver {
        machine.see_processes(processes::processes());
        Driver {
            machine,
            device,
            links: Links::new(socket),
            memory: None,
            notifier: None,
            told: None,
            guard: None,
            ticked: Instant::now(),
            stopped: false,
        }
    }

    /// The guard is told of each new shared memory.
    pub fn tell_memory(&mut self, guard: Guard) {
        self.guard = Some(guard);
    }

    /// Serves the kernel until it has unmounted.
    pub fn run(&mut self) -> Result<()> {
        while !self.stopped {
            let ready = self.wait()?;
            self.machine.set_time(now());
            if ready.told {
                self.take_told();
            }
            if !self.links.receive(ready.links, &mut self.machine) {
                self.hang_up();
            }
            if ready.device {
                self.take_requests()?;
            }
            if self.machine.is_waiting() && self.ticked.elapsed() >= TICK {
                self.ticked = Instant::now();
                self.machine.tick();
            }
            self.act()?;
        }
        Ok(())
    }

    /// Waits for one of them; tells which are ready.
    fn wait(&mut self) -> Result<Ready> {
        let mut questions = vec![polled(&self.device.file, READABLE)];
        let links_at = self.links.ask(&mut questions);
        let told_at = self.told.as_ref().map(|told| {
            questions.push(polled(&told.stream, READABLE));
            questions.len() - 1
        });
        let patience = if self.machine.is_waiting() { TICK.as_millis() as i32 } else { -1 };
        wait_ready(&mut questions, patience)?;
        let ready = |at: Option<usize>| at.is_some_and(|at| questions[at].ready != 0);
        Ok(Ready { device: ready(Some(0)), links: links_at.map(ready), told: ready(told_at) })
    }

    fn take_told(&mut self) {
        for done in self.told.as_mut().map_or(Vec::new(), Told::take) {
            match done {
                Done::Put => self.machine.put_done(),
                Done::Dropped => self.machine.dropped(),
            }
        }
    }

    /// Reads the requests that are there. Where there is no link, one is tried first.
    fn take_requests(&mut self) -> Result<()> {
        for _ in 0..BURST {
            match self.device.read()? {
                Got::Request(request) => {
                    if u32_at(request, 4) == opcode::NOTIFY_REPLY {
                        let bytes = request.get(RETRIEVED_AT..).unwrap_or(&[]);
                        let header = self.memory.as_mut().map_or(Vec::new(), |memory| memory.retrieved(bytes));
                        self.machine.fetched(&header);
                        continue;
                    }
                    if !self.links.are_up() && self.memory.is_some() && self.links.make() {
                        self.machine.link_up();
                    }
                    self.machine.kernel(request);
                }
                Got::Nothing => return Ok(()),
                Got::Ended => {
                    self.stopped = true;
                    return Ok(());
                }
            }
        }
        Ok(())
    }

    fn hang_up(&mut self) {
        if self.links.close() {
            eprintln!("litefs-fuse: the link to the node is lost");
        }
        self.machine.link_down();
    }

    /// Does what the machine wants, until it wants nothing more.
    fn act(&mut self) -> Result<()> {
        loop {
            let output = self.machine.take();
            let is_sent = self.links.send(&output.to_node).is_ok();
            if !is_sent {
                self.hang_up();
            } else if output.is_empty() {
                return Ok(());
            }
            for action in output.actions {
                self.perform(action)?;
            }
        }
    }

    fn perform(&mut self, action: Action) -> Result<()> {
        match action {
            Action::Reply(reply) => self.answer(reply)?,
            Action::Started { passthrough } => self.start_memory(passthrough)?,
            Action::DropCache { nodes } => {
                if let Some(notifier) = &self.notifier {
                    nodes.into_iter().for_each(|node| notifier.send(Note::Drop { node }));
                    notifier.send(Note::Tell(Done::Dropped));
                }
            }
            Action::HangUp => self.hang_up(),
            Action::Stop => self.stopped = true,
            other => {
                if let Some(mut memory) = self.memory.take() {
                    self.on_memory(memory.as_mut(), other)?;
                    self.memory = Some(memory);
                }
            }
        }
        Ok(())
    }

    /// An action on the shared memory.
    fn on_memory(&mut self, memory: &mut dyn Memory, action: Action) -> Result<()> {
        match action {
            Action::NewShared { node } => {
                memory.renew(node)?;
                self.guard.iter().for_each(|guard| guard.tell(node, memory.pages()));
            }
            Action::CutShared { size } => complain(memory.cut(size)),
            Action::PutShared { node, pieces } => {
                if memory.put(node, &pieces)? {
                    self.machine.put_done();
                }
            }
            Action::FetchShared { node } => {
                if let Some(header) = memory.fetch(node)? {
                    self.machine.fetched(&header);
                }
            }
            Action::ClearShared { node } => memory.clear(node)?,
            Action::ReadShared { unique, offset, size } => {
                let reply = match memory.read(offset, size) {
                    Ok(bytes) => Reply::new(unique, &bytes),
                    Err(_) => Reply::refusal(unique, errno::EREMOTEIO),
                };
                self.device.write(&reply.message)?;
            }
            Action::WriteShared { unique, offset, bytes } => {
                let reply = match memory.write(offset, &bytes) {
                    Ok(()) => Reply::new(unique, &(bytes.len() as u64).to_le_bytes()),
                    Err(_) => Reply::refusal(unique, errno::ENOSPC),
                };
                self.device.write(&reply.message)?;
            }
            _ => {}
        }
        Ok(())
    }

    /// Fills in what only the owner of the shared memory knows, and answers.
    fn answer(&mut self, mut reply: Reply) -> Result<()> {
        if let Some(memory) = &self.memory {
            if let Some(at) = reply.size_at {
                put_u64(&mut reply.message, at, memory.size());
            }
            if let Some(at) = reply.open_at {
                let (flags, backing) = memory.open_flags();
                put_u32(&mut reply.message, at, flags);
                put_u32(&mut reply.message, at + 4, backing);
            }
        }
        self.device.write(&reply.message)
    }

    /// Chooses the way of the shared memory, and says which it is.
    fn start_memory(&mut self, passthrough: bool) -> Result<()> {
        let (notifier, told) = Notifier::start(&self.device.file)?;
        self.notifier = Some(notifier.clone());
        self.told = Some(told);
        let passed = if passthrough { Passed::attempt(&self.device.file).ok() } else { None };
        let way = match passed {
            Some(passed) => {
                self.memory = Some(Box::new(passed));
                "passthrough"
            }
            None => {
                self.memory = Some(Box::new(Noted::new(&self.device.file, notifier)?));
                "notify"
            }
        };
        eprintln!("litefs-fuse: mounted, shared memory by {way}");
        Ok(())
    }
}

fn complain(result: Result<()>) {
    if let Err(error) = result {
        eprintln!("litefs-fuse: {error}");
    }
}

fn now() -> (u64, u32) {
    let since = SystemTime::now().duration_since(UNIX_EPOCH).unwrap_or_default();
    (since.as_secs(), since.subsec_nanos())
}
