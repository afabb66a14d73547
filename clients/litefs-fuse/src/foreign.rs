//! The foreign functions, and all of the unsafe code. Each is wrapped so that its caller needs none.

use std::ffi::{c_char, c_int, c_uint, c_ulong, c_void, CString};
use std::fs::File;
use std::io::{Error, Result};
use std::os::fd::{AsRawFd, FromRawFd, RawFd};
use std::os::unix::net::UnixStream;
use std::ptr;

/// Events of `poll`.
pub const READABLE: i16 = 0x001;
pub const WRITABLE: i16 = 0x004;
pub const FAILED: i16 = 0x008;
pub const ENDED: i16 = 0x2000;

/// Signals that end the program in order.
const SIGHUP: c_int = 1;
const SIGINT: c_int = 2;
const SIGTERM: c_int = 15;

const SIG_BLOCK: c_int = 0;
const F_SETFD: c_int = 2;
const F_SETFL: c_int = 4;
const O_RDWR: c_int = 2;
const O_NONBLOCK: c_int = 0o4000;
const MFD_CLOEXEC: c_uint = 1;
const MS_RDONLY: c_ulong = 1;
const MS_NOSUID: c_ulong = 2;
const MS_NODEV: c_ulong = 4;
const MS_NOEXEC: c_ulong = 8;
const MNT_DETACH: c_int = 2;
const SOL_SOCKET: c_int = 1;
const SCM_RIGHTS: c_int = 1;
const MSG_DONTWAIT: c_int = 0x40;
const MSG_NOSIGNAL: c_int = 0x4000;
const MSG_CMSG_CLOEXEC: c_int = 0x4000_0000;

/// `_IOW(229, 1, struct fuse_backing_map)` and `_IOW(229, 2, uint32_t)`.
const BACKING_OPEN: c_ulong = 0x4010_e501;
const BACKING_CLOSE: c_ulong = 0x4004_e502;

/// What `poll` is asked about one descriptor, and its answer.
#[repr(C)]
#[derive(Clone, Copy)]
pub struct Polled {
    descriptor: c_int,
    wanted: i16,
    pub ready: i16,
}

#[repr(C)]
struct Vector {
    base: *mut c_void,
    len: usize,
}

#[repr(C)]
struct MessageHeader {
    name: *mut c_void,
    name_len: c_uint,
    vectors: *mut Vector,
    vector_count: usize,
    control: *mut c_void,
    control_len: usize,
    flags: c_int,
}

/// A control message that carries one descriptor.
#[repr(C, align(8))]
struct Control {
    len: usize,
    level: c_int,
    kind: c_int,
    descriptor: c_int,
    padding: c_int,
}

/// The length of a control message without its padding.
const CONTROL: usize = size_of::<Control>() - size_of::<c_int>();

#[repr(C)]
struct BackingMap {
    descriptor: i32,
    flags: u32,
    padding: u64,
}

#[repr(C, align(8))]
struct SignalSet([u64; 16]);

extern "C" {
    fn mount(source: *const c_char, target: *const c_char, kind: *const c_char, flags: c_ulong, data: *const c_void) -> c_int;
    fn umount2(target: *const c_char, flags: c_int) -> c_int;
    fn ioctl(descriptor: c_int, request: c_ulong, argument: *mut c_void) -> c_int;
    fn memfd_create(name: *const c_char, flags: c_uint) -> c_int;
    fn poll(descriptors: *mut Polled, count: c_ulong, timeout: c_int) -> c_int;
    fn recvmsg(descriptor: c_int, message: *mut MessageHeader, flags: c_int) -> isize;
    fn sendmsg(descriptor: c_int, message: *const MessageHeader, flags: c_int) -> isize;
    fn fcntl(descriptor: c_int, command: c_int, argument: c_int) -> c_int;
    fn getuid() -> c_uint;
    fn geteuid() -> c_uint;
    fn getgid() -> c_uint;
    fn sigemptyset(set: *mut SignalSet) -> c_int;
    fn sigaddset(set: *mut SignalSet, signal: c_int) -> c_int;
    fn pthread_sigmask(how: c_int, set: *const SignalSet, old: *mut SignalSet) -> c_int;
    fn sigwait(set: *const SignalSet, signal: *mut c_int) -> c_int;
}

fn checked(result: c_int) -> Result<c_int> {
    if result < 0 {
        return Err(Error::last_os_error());
    }
    Ok(result)
}

fn text(value: &str) -> Result<CString> {
    CString::new(value).map_err(|_| Error::other("a zero byte in a path"))
}

/// The user and group of this process, and whether it acts as root.
pub fn user() -> (u32, u32, bool) {
    // SAFETY: the three calls have no arguments and can't fail.
    unsafe { (getuid(), getgid(), geteuid() == 0) }
}

/// Mounts a file system of FUSE on the folder. `data` names the device's descriptor.
pub fn mount_fuse(folder: &str, data: &str) -> Result<()> {
    mount_as("fuse.litefs", folder, MS_NOSUID | MS_NODEV, data)
}

/// Mounts a small empty file system on the folder, to which nobody may write.
pub fn mount_empty(folder: &str) -> Result<()> {
    mount_as("tmpfs", folder, MS_RDONLY | MS_NOSUID | MS_NODEV | MS_NOEXEC, "size=4k,mode=0555")
}

fn mount_as(kind: &str, folder: &str, flags: c_ulong, data: &str) -> Result<()> {
    let (source, target, kind, data) = (text("litefs")?, text(folder)?, text(kind)?, text(data)?);
    // SAFETY: the four texts end with a zero byte and live over the call.
    checked(unsafe { mount(source.as_ptr(), target.as_ptr(), kind.as_ptr(), flags, data.as_ptr().cast()) })?;
    Ok(())
}

/// Unmounts the folder; lazily: its open files go on.
pub fn unmount(folder: &str, lazily: bool) -> Result<()> {
    let target = text(folder)?;
    // SAFETY: the text ends with a zero byte and lives over the call.
    checked(unsafe { umount2(target.as_ptr(), if lazily { MNT_DETACH } else { 0 }) })?;
    Ok(())
}

/// A new file in memory.
pub fn memory_file() -> Result<File> {
    // SAFETY: the name ends with a zero byte; the descriptor is new and nobody else's.
    unsafe { Ok(File::from_raw_fd(checked(memfd_create(c"litefs-shm".as_ptr(), MFD_CLOEXEC))?)) }
}

/// Registers a file as a backing file of the device, and tells its number.
pub fn open_backing(device: &File, file: &File) -> Result<u32> {
    let mut map = BackingMap { descriptor: file.as_raw_fd(), flags: 0, padding: 0 };
    // SAFETY: the argument is the structure of this request and lives over the call.
    let number = checked(unsafe { ioctl(device.as_raw_fd(), BACKING_OPEN, ptr::from_mut(&mut map).cast()) })?;
    u32::try_from(number).map_err(Error::other)
}

/// Gives up a number of `open_backing`. Open files keep what they have.
pub fn close_backing(device: &File, mut number: u32) {
    // SAFETY: the argument is the number of this request and lives over the call.
    unsafe { ioctl(device.as_raw_fd(), BACKING_CLOSE, ptr::from_mut(&mut number).cast()) };
}

/// A question to `wait_ready`.
pub fn polled(of: &impl AsRawFd, wanted: i16) -> Polled {
    Polled { descriptor: of.as_raw_fd(), wanted, ready: 0 }
}

/// Waits until one of the descriptors is ready, or for so many milliseconds; -1 is for ever.
pub fn wait_ready(questions: &mut [Polled], milliseconds: i32) -> Result<()> {
    // SAFETY: the slice holds as many structures as it says.
    match checked(unsafe { poll(questions.as_mut_ptr(), questions.len() as c_ulong, milliseconds) }) {
        Err(error) if error.kind() == std::io::ErrorKind::Interrupted => Ok(()),
        other => other.map(|_| ()),
    }
}

/// Makes reads that find nothing answer at once.
pub fn never_wait(device: &File) -> Result<()> {
    // SAFETY: the call touches no memory.
    checked(unsafe { fcntl(device.as_raw_fd(), F_SETFL, O_RDWR | O_NONBLOCK) })?;
    Ok(())
}

/// Lets the next program that is started have this descriptor.
pub fn keep_on_exec(of: &impl AsRawFd) -> Result<RawFd> {
    let descriptor = of.as_raw_fd();
    // SAFETY: the call touches no memory.
    checked(unsafe { fcntl(descriptor, F_SETFD, 0) })?;
    Ok(descriptor)
}

/// Receives one descriptor that `fusermount3` sent over the socket.
pub fn receive_file(from: &UnixStream) -> Result<File> {
    receive(from, &mut [0])?.1.ok_or_else(|| Error::other("fusermount3 sent no descriptor"))
}

/// Receives bytes, and the descriptor that was sent with them. The other's end is 0 bytes.
pub fn receive(from: &UnixStream, bytes: &mut [u8]) -> Result<(usize, Option<File>)> {
    let mut vector = Vector { base: bytes.as_mut_ptr().cast(), len: bytes.len() };
    let mut control = Control { len: 0, level: 0, kind: 0, descriptor: -1, padding: 0 };
    let mut message = message_of(&mut vector, &mut control, size_of::<Control>());
    // SAFETY: every pointer of the message is to a value above, of the size that stands beside it.
    let got = unsafe { recvmsg(from.as_raw_fd(), &mut message, MSG_CMSG_CLOEXEC) };
    let got = usize::try_from(got).map_err(|_| Error::last_os_error())?;
    if control.level != SOL_SOCKET || control.kind != SCM_RIGHTS || control.descriptor < 0 {
        return Ok((got, None));
    }
    // SAFETY: the kernel has just made this descriptor for this process.
    Ok((got, Some(unsafe { File::from_raw_fd(control.descriptor) })))
}

/// Sends bytes, and a descriptor with them, where the other takes them at once.
pub fn send(to: &UnixStream, bytes: &[u8], file: Option<&File>) -> Result<()> {
    let mut vector = Vector { base: bytes.as_ptr().cast_mut().cast(), len: bytes.len() };
    let descriptor = file.map_or(-1, AsRawFd::as_raw_fd);
    let mut control = Control { len: CONTROL, level: SOL_SOCKET, kind: SCM_RIGHTS, descriptor, padding: 0 };
    let message = message_of(&mut vector, &mut control, file.map_or(0, |_| size_of::<Control>()));
    // SAFETY: every pointer of the message is to a value above, of the size that stands beside it; the bytes are only read.
    match unsafe { sendmsg(to.as_raw_fd(), &message, MSG_DONTWAIT | MSG_NOSIGNAL) } {
        sent if sent < 0 => Err(Error::last_os_error()),
        _ => Ok(()),
    }
}

fn message_of(vectors: &mut Vector, control: &mut Control, control_len: usize) -> MessageHeader {
    MessageHeader {
        name: ptr::null_mut(),
        name_len: 0,
        vectors,
        vector_count: 1,
        control: ptr::from_mut(control).cast(),
        control_len,
        flags: 0,
    }
}

/// A descriptor that this process was started with. Each number is asked for once.
pub fn inherited(number: RawFd) -> File {
    // SAFETY: who started this process has left the descriptor to it alone.
    unsafe { File::from_raw_fd(number) }
}

fn ending_signals() -> SignalSet {
    let mut set = SignalSet([0; 16]);
    // SAFETY: the set is as large as the C library's.
    unsafe {
        sigemptyset(&mut set);
        [SIGHUP, SIGINT, SIGTERM].into_iter().for_each(|signal| {
            sigaddset(&mut set, signal);
        });
    }
    set
}

/// Holds back the signals that end a program, in this thread and in those that it starts.
pub fn hold_signals() {
    // SAFETY: the set lives over the call, and the old one isn't asked for.
    unsafe { pthread_sigmask(SIG_BLOCK, &ending_signals(), ptr::null_mut()) };
}

/// Waits for one of the signals that were held back.
pub fn wait_for_signal() {
    let mut signal = 0;
    // SAFETY: both values live over the call.
    unsafe { sigwait(&ending_signals(), &mut signal) };
}
