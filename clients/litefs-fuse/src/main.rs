//! A mount of a LiteFS node's files: `litefs-fuse SOCKET FOLDER`. README.md says what it does.

mod bytes;
mod connection;
mod cover;
mod device;
mod driver;
mod foreign;
mod guard;
mod lifetime;
mod machine;
mod memory;
mod mounting;
mod mounts;
mod notifier;
mod options;
mod wire;

use device::Device;
use driver::Driver;
use guard::Guard;
use machine::{Machine, Settings};
use options::{Options, Sharing, USAGE};
use std::process::ExitCode;

fn main() -> ExitCode {
    let arguments: Vec<String> = std::env::args().skip(1).collect();
    if arguments.first().is_some_and(|first| first == guard::GUARD) {
        return ended(guard::stand_in(&arguments[1..]));
    }
    let options = match Options::read(&arguments) {
        Ok(options) => options,
        Err(what) => {
            eprintln!("litefs-fuse: {what}\n{USAGE}");
            return ExitCode::from(2);
        }
    };
    ended(serve(&options))
}

fn ended(result: std::io::Result<()>) -> ExitCode {
    match result {
        Ok(()) => ExitCode::SUCCESS,
        Err(error) => {
            eprintln!("litefs-fuse: {error}");
            ExitCode::FAILURE
        }
    }
}

/// Mounts, and serves until the folder is unmounted.
fn serve(options: &Options) -> std::io::Result<()> {
    let mounted = mounting::mount(options)?;
    let guard = Guard::start(&mounted, options.auto_unmount);
    lifetime::watch_for_end(&mounted, options.until_stdin_ends);
    let device = Device::new(mounted.device.try_clone()?);
    let mut driver = Driver::new(&options.socket, Machine::new(settings(options)), device);
    match guard {
        Ok(guard) => driver.tell_memory(guard),
        Err(error) => eprintln!("litefs-fuse: no second process: {error}"),
    }
    driver.run()?;
    mounted.cover.take_away();
    Ok(())
}

fn settings(options: &Options) -> Settings {
    let (uid, gid, _) = foreign::user();
    Settings {
        uid: options.uid.unwrap_or(uid),
        gid: options.gid.unwrap_or(gid),
        read_only_at_replica: options.read_only_at_replica,
        may_drop: options.drop,
        cache: options.cache,
        passthrough: options.sharing == Sharing::Best,
        name: options.name.as_ref().map(|name| name.clone().into_bytes()),
    }
}
