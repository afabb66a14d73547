//! The numbers of FUSE 7.31 and of the errors, as the kernel's `fuse.h` and `errno.h` have them.

/// Opcodes of requests.
pub mod opcode {
    pub const LOOKUP: u32 = 1;
    pub const FORGET: u32 = 2;
    pub const GETATTR: u32 = 3;
    pub const SETATTR: u32 = 4;
    pub const MKNOD: u32 = 8;
    pub const MKDIR: u32 = 9;
    pub const UNLINK: u32 = 10;
    pub const RMDIR: u32 = 11;
    pub const RENAME: u32 = 12;
    pub const LINK: u32 = 13;
    pub const OPEN: u32 = 14;
    pub const READ: u32 = 15;
    pub const WRITE: u32 = 16;
    pub const STATFS: u32 = 17;
    pub const RELEASE: u32 = 18;
    pub const FSYNC: u32 = 20;
    pub const FLUSH: u32 = 25;
    pub const INIT: u32 = 26;
    pub const OPENDIR: u32 = 27;
    pub const READDIR: u32 = 28;
    pub const RELEASEDIR: u32 = 29;
    pub const FSYNCDIR: u32 = 30;
    pub const GETLK: u32 = 31;
    pub const SETLK: u32 = 32;
    pub const SETLKW: u32 = 33;
    pub const CREATE: u32 = 35;
    pub const INTERRUPT: u32 = 36;
    pub const DESTROY: u32 = 38;
    pub const NOTIFY_REPLY: u32 = 41;
    pub const BATCH_FORGET: u32 = 42;
    pub const RENAME2: u32 = 45;
}

/// Numbers of errors.
pub mod errno {
    pub const EPERM: u32 = 1;
    pub const ENOENT: u32 = 2;
    pub const EINTR: u32 = 4;
    pub const EIO: u32 = 5;
    pub const ENXIO: u32 = 6;
    pub const EBADF: u32 = 9;
    pub const EAGAIN: u32 = 11;
    pub const EBUSY: u32 = 16;
    pub const ENOSPC: u32 = 28;
    pub const EROFS: u32 = 30;
    pub const ERANGE: u32 = 34;
    pub const ENOSYS: u32 = 38;
    pub const ENOTCONN: u32 = 107;
    pub const ESTALE: u32 = 116;
    pub const EREMOTEIO: u32 = 121;
}

/// The bytes of a request's head and of a reply's.
pub const REQUEST_HEAD: usize = 40;
pub const REPLY_HEAD: usize = 16;

/// The largest WRITE and READ, and the largest message.
pub const MAX_DATA: u32 = 131_072;
pub const MAX_MESSAGE: usize = 135_168;

/// Flags of INIT that this program asks the kernel for.
pub mod init {
    pub const POSIX_LOCKS: u64 = 1 << 1;
    pub const BIG_WRITES: u64 = 1 << 5;
    pub const EXPLICIT_INVAL_DATA: u64 = 1 << 25;
    pub const INIT_EXT: u64 = 1 << 30;
    pub const PASSTHROUGH: u64 = 1 << 37;
}

/// Flags of an open file.
pub mod open {
    pub const DIRECT_IO: u32 = 1;
    pub const KEEP_CACHE: u32 = 2;
    pub const PASSTHROUGH: u32 = 128;
}

/// What a SETATTR gives.
pub mod attribute {
    pub const SIZE: u32 = 1 << 3;
    pub const LOCK_OWNER: u32 = 1 << 9;
}

/// Kinds of byte-range locks.
pub mod lock {
    pub const WRITE: u32 = 1;
    pub const UNLOCK: u32 = 2;
}

/// The files of a node, by the node's own numbers.
#[derive(Clone, Copy, Debug, PartialEq, Eq)]
pub enum Kind {
    Root = 1,
    Database = 2,
    Journal = 3,
    Log = 4,
    Shared = 5,
    Position = 6,
    Lock = 7,
    Primary = 8,
}

impl Kind {
    /// The file of the node's number.
    pub fn of(number: u64) -> Option<Kind> {
        use Kind::*;
        [Root, Database, Journal, Log, Shared, Position, Lock, Primary]
            .into_iter()
            .find(|kind| *kind as u64 == number)
    }
}
