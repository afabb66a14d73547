//! The device of the kernel: a read gives one request, a write takes one reply.

use crate::foreign::{polled, wait_ready, FAILED};
use crate::wire::MAX_MESSAGE;
use std::fs::File;
use std::io::{ErrorKind, Result, Write};
use std::io::Read;

/// What a read of the device gave.
pub enum Got<'a> {
    Request(&'a [u8]),
    Nothing,
    /// the kernel has unmounted
    Ended,
}

pub struct Device {
    pub file: File,
    buffer: Vec<u8>,
}

/// No such device: the mount is gone.
const ENODEV: i32 = 19;
/// The request was ended by a signal before it was read, or the one that is answered was.
const ENOENT: i32 = 2;

/// Whether the kernel has unmounted, and no file is open any more.
pub fn has_ended(file: &File) -> Result<bool> {
    let mut question = [polled(file, 0)];
    wait_ready(&mut question, 0)?;
    Ok(question[0].ready & FAILED != 0)
}

impl Device {
    pub fn new(file: File) -> Device {
        Device { file, buffer: vec![0; 2 * MAX_MESSAGE] }
    }

    /// The next request, if there is one now.
    pub fn read(&mut self) -> Result<Got<'_>> {
        match self.file.read(&mut self.buffer) {
            Ok(0) => Ok(Got::Ended),
            Ok(size) => Ok(Got::Request(&self.buffer[..size])),
            Err(error) => match (error.kind(), error.raw_os_error()) {
                (ErrorKind::WouldBlock | ErrorKind::Interrupted, _) | (_, Some(ENOENT)) => Ok(Got::Nothing),
                (_, Some(ENODEV)) => Ok(Got::Ended),
                _ => Err(error),
            },
        }
    }

    /// Answers a request. One that was ended meanwhile needs no answer.
    pub fn write(&mut self, reply: &[u8]) -> Result<()> {
        match self.file.write(reply) {
            Err(error) if error.raw_os_error() != Some(ENOENT) => Err(error),
            _ => Ok(()),
        }
    }
}
