//! One test for each rule of the machine. The numbers are those of the kernel's `fuse.h` and `errno.h`, and the lock
//! bytes those of SQLite's `os_unix.c` and `wal.c`.

mod cache;
mod errors;
mod files;
mod links;
mod locks;
mod names;
mod recorded;
mod removals;
mod shared;
mod shared_locks;
mod trial;
