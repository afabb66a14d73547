//! The folder becomes a mount, and is none again.

use crate::cover::Cover;
use crate::foreign::{keep_on_exec, mount_fuse, never_wait, receive_file, unmount, user};
use crate::mounts::{is_of_another, Place};
use crate::options::Options;
use std::fs::{canonicalize, create_dir_all, metadata, File, OpenOptions};
use std::io::{Error, ErrorKind, Result};
use std::os::fd::AsRawFd;
use std::os::unix::net::UnixStream;
use std::path::{Path, PathBuf};
use std::process::{Command, Stdio};
use std::thread::sleep;
use std::time::{Duration, Instant};

const DEVICE: &str = "/dev/fuse";

/// Transport endpoint is not connected: the program behind a mount is gone.
const ENOTCONN: i32 = 107;

/// How long an unmount of a folder in use is tried before it is done lazily.
const PATIENCE: Duration = Duration::from_secs(2);

/// How long a folder that another run of this program has mounted is waited for: that one may be about to unmount it.
const OTHERS_PATIENCE: Duration = Duration::from_secs(5);

/// A mounted folder, and what must live as long as it does.
pub struct Mounted {
    pub device: File,
    pub place: Place,
    pub cover: Cover,
    /// `fusermount3` unmounts when it sees its end of the socket close
    _helper: Option<UnixStream>,
}

/// The device of a folder that was mounted, and the socket of its helper where that stays.
type Device = (File, Option<UnixStream>);

/// Mounts the folder, after a dead mount on it was cleared.
pub fn mount(options: &Options) -> Result<Mounted> {
    let folder = folder_of(options).map_err(|error| of_path(&options.folder, error))?;
    outside(&options.socket, &folder)?;
    let folder = folder.to_string_lossy().into_owned();
    wait_for_another(&folder)?;
    let cover = Cover::over(&folder)?;
    let mounted = match user() {
        (_, _, true) => by_system(&folder, options),
        _ => by_helper(&folder, options),
    };
    let (device, helper) = mounted.inspect_err(|_| cover.take_away())?;
    cover.close();
    never_wait(&device)?;
    Ok(Mounted { device, place: Place::at(&folder), cover, _helper: helper })
}

/// The folder's path without links.
fn folder_of(options: &Options) -> Result<PathBuf> {
    clear_dead(&options.folder)?;
    if options.make_folder {
        create_dir_all(&options.folder)?;
    }
    canonicalize(&options.folder)
}

fn of_path(path: &str, error: Error) -> Error {
    Error::new(error.kind(), format!("{path}: {error}"))
}

/// Waits until no other run of this program has mounted the folder, but not for ever.
fn wait_for_another(folder: &str) -> Result<()> {
    let begin = Instant::now();
    while is_of_another(folder) {
        if begin.elapsed() >= OTHERS_PATIENCE {
            return Err(Error::other(format!("{folder}: another litefs-fuse has mounted it")));
        }
        sleep(Duration::from_millis(20));
        clear_dead(folder)?;
    }
    Ok(())
}

/// A socket in the folder would be looked for in the mount, by the program that answers for it.
fn outside(socket: &str, folder: &Path) -> Result<()> {
    let beside = match Path::new(socket).parent() {
        Some(parent) if parent != Path::new("") => parent,
        _ => Path::new("."),
    };
    match canonicalize(beside) {
        Ok(place) if place.starts_with(folder) => Err(Error::other("the socket lies in the folder that is to be mounted")),
        _ => Ok(()),
    }
}

/// Unmounts what this program has mounted; where it stays in use, lazily after two seconds.
pub fn unmount_in_time(place: &Place) {
    let begin = Instant::now();
    while place.stands() {
        match unmount_by(&place.folder, false) {
            Err(error) if begin.elapsed() < PATIENCE && error.kind() == ErrorKind::ResourceBusy => sleep(Duration::from_millis(20)),
            Err(_) => return drop(unmount_lazily(&place.folder)),
            Ok(()) => return,
        }
    }
}

/// Unmounts the folder, and lets its open files go on.
pub fn unmount_lazily(folder: &str) -> Result<()> {
    unmount_by(folder, true)
}

/// Unmounts the folder where it is a mount whose program is gone.
pub fn clear_dead(folder: &str) -> Result<()> {
    match metadata(folder) {
        Err(error) if error.raw_os_error() == Some(ENOTCONN) => unmount_lazily(folder),
        _ => Ok(()),
    }
}

fn by_system(folder: &str, options: &Options) -> Result<Device> {
    let device = OpenOptions::new().read(true).write(true).open(DEVICE).map_err(|error| of_path(DEVICE, error))?;
    let (uid, gid, _) = user();
    let descriptor = device.as_raw_fd();
    let others = for_others(options);
    mount_fuse(folder, &format!("fd={descriptor},rootmode=40000,user_id={uid},group_id={gid}{others}"))?;
    Ok((device, None))
}

/// The kernel asks the files' modes where others may come in.
fn for_others(options: &Options) -> &'static str {
    if options.allow_other {
        ",allow_other,default_permissions"
    } else {
        ""
    }
}

/// `fusermount3` opens the device, mounts, and sends the descriptor over a socket.
fn by_helper(folder: &str, options: &Options) -> Result<Device> {
    let (ours, theirs) = UnixStream::pair()?;
    let descriptor = keep_on_exec(&theirs)?;
    let unmount = if options.auto_unmount { ",auto_unmount" } else { "" };
    let list = format!("fsname=litefs,subtype=litefs{}{unmount}", for_others(options));
    let mut child = Command::new("fusermount3")
        .args(["-o", &list, "--", folder])
        .env("_FUSE_COMMFD", descriptor.to_string())
        .stdin(Stdio::null())
        .spawn()
        .map_err(|error| Error::other(format!("fusermount3: {error}")))?;
    drop(theirs);
    let device = receive_file(&ours)?;
    if options.auto_unmount {
        return Ok((device, Some(ours)));
    }
    child.wait()?;
    Ok((device, None))
}

fn unmount_by(folder: &str, lazily: bool) -> Result<()> {
    if user().2 {
        return unmount(folder, lazily);
    }
    let how = if lazily { "-uz" } else { "-u" };
    let status = Command::new("fusermount3").args([how, "--", folder]).stderr(Stdio::null()).status()?;
    match status.success() {
        true => Ok(()),
        false => Err(ErrorKind::ResourceBusy.into()),
    }
}
