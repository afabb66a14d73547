//! What is mounted, as the kernel tells it (proc_pid_mountinfo(5)).

use std::fs::read_to_string;

/// A mount of this program: the folder, and the kernel's number of what is mounted there.
#[derive(Clone)]
pub struct Place {
    pub folder: String,
    pub number: String,
}

impl Place {
    /// What is mounted at the folder.
    pub fn at(folder: &str) -> Place {
        let number = last_at(folder).and_then(|line| line.split(' ').nth(2).map(str::to_string));
        Place { folder: folder.to_string(), number: number.unwrap_or_default() }
    }

    /// Whether it still is what the folder shows.
    pub fn stands(&self) -> bool {
        Place::at(&self.folder).number == self.number
    }
}

/// Whether the folder is a mount of a run of this program that is not gone. Where the kernel doesn't tell it is none.
pub fn is_of_another(folder: &str) -> bool {
    last_at(folder).is_some_and(|line| is_ours(&line))
}

/// Whether the folder is covered by this program's small empty file system, and by nothing else.
pub fn is_covered(folder: &str) -> bool {
    last_at(folder).is_some_and(|line| is_cover(&line))
}

fn last_at(folder: &str) -> Option<String> {
    last_in(&read_to_string("/proc/self/mountinfo").ok()?, folder).map(str::to_string)
}

/// Of several mounts on a folder the last one counts.
fn last_in<'a>(mounts: &'a str, folder: &str) -> Option<&'a str> {
    mounts.lines().filter(|line| line.split(' ').nth(4).map(plain).as_deref() == Some(folder)).next_back()
}

fn is_ours(line: &str) -> bool {
    has_kind(line, "fuse.litefs litefs ")
}

fn is_cover(line: &str) -> bool {
    has_kind(line, "tmpfs litefs ")
}

/// The kind and the source stand after a dash.
fn has_kind(line: &str, kind_and_source: &str) -> bool {
    line.split_once(" - ").is_some_and(|(_, rest)| rest.starts_with(kind_and_source))
}

/// A path without the kernel's escapes: a backslash and three octal digits for a blank, a tab, a newline and a backslash.
fn plain(path: &str) -> String {
    let escapes = [("\\040", " "), ("\\011", "\t"), ("\\012", "\n"), ("\\134", "\\")];
    escapes.iter().fold(path.to_string(), |path, (escape, byte)| path.replace(escape, byte))
}

#[cfg(test)]
mod tests {
    use super::*;

    const MOUNTS: &str = "\
22 1 8:1 / / rw,relatime - ext4 /dev/sda1 rw
61 22 0:52 / /mnt/a\\040b rw,nosuid,nodev - fuse.litefs litefs rw,user_id=0,group_id=0
62 22 0:53 / /mnt/disk rw - tmpfs tmpfs rw
63 62 0:54 / /mnt/disk rw,nosuid shared:7 - fuse.litefs litefs rw
64 22 0:55 / /mnt/other rw - fuse.sshfs litefs rw
65 22 0:56 / /mnt/under rw - fuse.litefs litefs rw
66 65 0:57 / /mnt/under rw - tmpfs litefs rw
";

    fn last_is(folder: &str, kind: fn(&str) -> bool) -> bool {
        last_in(MOUNTS, folder).is_some_and(kind)
    }

    #[test]
    fn mounts_of_this_program_are_known() {
        for folder in ["/mnt/a b", "/mnt/disk"] {
            assert!(last_is(folder, is_ours), "{folder}");
        }
        for folder in ["/", "/mnt", "/mnt/a", "/mnt/other", "/mnt/under", "/mnt/none"] {
            assert!(!last_is(folder, is_ours), "{folder}");
        }
    }

    #[test]
    fn the_small_file_system_below_is_known() {
        assert!(last_is("/mnt/under", is_cover));
        for folder in ["/mnt/disk", "/mnt/a b", "/mnt/other", "/mnt/none"] {
            assert!(!last_is(folder, is_cover), "{folder}");
        }
    }

    #[test]
    fn escapes_are_read() {
        assert_eq!(plain("/a\\134040\\040b\\011"), "/a\\040 b\t");
    }
}
