//! Requests that this program answers by itself.

use super::output::{Action, Reply};
use super::Machine;
use crate::bytes::{put_u32, put_u64, u32_at};
use crate::wire::{init, MAX_DATA};

impl Machine {
    /// INIT: what of the kernel's offer is taken.
    pub(super) fn start(&mut self, unique: u64, body: &[u8]) {
        let offered = u64::from(u32_at(body, 12)) | u64::from(u32_at(body, 16)) << 32;
        let passthrough = self.settings.passthrough && offered & init::PASSTHROUGH != 0;
        let mut wanted = init::POSIX_LOCKS | init::BIG_WRITES | init::EXPLICIT_INVAL_DATA | init::INIT_EXT;
        if passthrough {
            wanted |= init::PASSTHROUGH;
        }
        let flags = wanted & offered;
        let mut answer = [0; 64];
        put_u32(&mut answer, 0, 7);
        put_u32(&mut answer, 4, if passthrough { 40 } else { 31 });
        put_u32(&mut answer, 8, MAX_DATA);
        put_u32(&mut answer, 12, flags as u32);
        put_u32(&mut answer, 16, 12 << 16 | 16);
        put_u32(&mut answer, 20, MAX_DATA);
        put_u32(&mut answer, 24, 1);
        put_u32(&mut answer, 32, (flags >> 32) as u32);
        put_u32(&mut answer, 36, u32::from(passthrough));
        self.reply(unique, &answer);
        self.output.actions.push(Action::Started { passthrough });
    }

    /// STATFS: a disk of 1 GiB, half of it free; nothing of the node's disk is known.
    pub(super) fn disk(&mut self, unique: u64) {
        let mut answer = [0; 80];
        put_u64(&mut answer, 0, 262_144);
        put_u64(&mut answer, 8, 131_072);
        put_u64(&mut answer, 16, 131_072);
        put_u64(&mut answer, 24, 16);
        put_u64(&mut answer, 32, 8);
        put_u32(&mut answer, 40, 4_096);
        put_u32(&mut answer, 44, 80);
        put_u32(&mut answer, 48, 4_096);
        self.reply(unique, &answer);
    }

    pub(super) fn reply(&mut self, unique: u64, body: &[u8]) {
        self.output.actions.push(Action::Reply(Reply::new(unique, body)));
    }

    pub(super) fn accept(&mut self, unique: u64) {
        self.reply(unique, &[]);
    }

    pub(super) fn refuse(&mut self, unique: u64, error: u32) {
        self.output.actions.push(Action::Reply(Reply::refusal(unique, error)));
    }

    pub(super) fn pass(&mut self, unique: u64, result: Result<&[u8], u32>) {
        match result {
            Ok(body) => self.reply(unique, body),
            Err(error) => self.refuse(unique, error),
        }
    }
}
