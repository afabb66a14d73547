//! When the program ends: at the kernel's unmount, and at a signal or the end of standard input, after it has unmounted.
//! Standard input ends where the node does, which comes back, so then the folder stays covered.

use crate::cover::Cover;
use crate::foreign::{hold_signals, wait_for_signal};
use crate::mounting::{unmount_in_time, Mounted};
use crate::mounts::Place;
use std::io::{copy, sink, stdin};
use std::process::exit;
use std::thread;

/// Waits for the reasons to end, each in a thread of its own. Called before any other thread is started.
pub fn watch_for_end(mounted: &Mounted, until_stdin_ends: bool) {
    hold_signals();
    let (place, cover) = (mounted.place.clone(), mounted.cover.clone());
    thread::spawn(move || {
        wait_for_signal();
        end(&place, &cover);
    });
    if until_stdin_ends {
        let (place, cover) = (mounted.place.clone(), mounted.cover.clone());
        thread::spawn(move || {
            wait_for_end_of_stdin();
            cover.keep();
            end(&place, &cover);
        });
    }
}

fn end(place: &Place, cover: &Cover) {
    unmount_in_time(place);
    cover.take_away();
    exit(0);
}

fn wait_for_end_of_stdin() {
    let _ = copy(&mut stdin(), &mut sink());
}
