//! What the folder is while this program is not mounted there. A bare folder is one in which SQLite makes a database of its
//! own, which the next mount would hide; so a small empty file system lies below the mount, to which nobody may write.

use crate::foreign::{mount_empty, unmount, user};
use crate::mounts::is_covered;
use std::fs::{read_dir, File, Permissions};
use std::io::{Error, Result};
use std::os::unix::fs::{MetadataExt, PermissionsExt};
use std::sync::{Arc, Mutex, MutexGuard, PoisonError};

/// The modes of a folder in which nobody makes a file, and the right of its owner to do so.
const CLOSED: u32 = 0o555;
const OWNER_WRITES: u32 = 0o200;

/// What is said of a file in the bare folder.
const IN_THE_WAY: &str = "stands in the folder, and the mount would hide it: move it away, and where it is a database whose rows are wanted \
                          give it to the node by `litefs import`";

/// How the folder is covered.
enum Kind {
    /// by a file system
    Mounted,
    /// by the modes of the folder below, where this user may not mount one; and what they are without this program
    Modes { below: File, before: u32 },
}

/// What lies below the mount. It stays where this program ends without being asked to unmount.
#[derive(Clone)]
pub struct Cover {
    folder: String,
    kind: Arc<Mutex<Option<Kind>>>,
}

impl Cover {
    /// Covers the folder; a cover that is there already is taken. A bare folder with a file in it is refused.
    pub fn over(folder: &str) -> Result<Cover> {
        let kind = if is_covered(folder) { Kind::Mounted } else { Cover::bare(folder)? };
        Ok(Cover { folder: folder.to_string(), kind: Arc::new(Mutex::new(Some(kind))) })
    }

    fn bare(folder: &str) -> Result<Kind> {
        refuse_files(folder)?;
        if user().2 && mount_empty(folder).is_ok() {
            return Ok(Kind::Mounted);
        }
        let below = File::open(folder)?;
        let now = below.metadata()?.mode() & 0o7777;
        let before = if now == CLOSED { now | OWNER_WRITES } else { now };
        // fusermount3 mounts where the user may write
        let _ = below.set_permissions(Permissions::from_mode(before));
        Ok(Kind::Modes { below, before })
    }

    /// This program has mounted over it.
    pub fn close(&self) {
        if let Some(Kind::Modes { below, .. }) = &*self.lock() {
            let _ = below.set_permissions(Permissions::from_mode(CLOSED));
        }
    }

    /// It stays, whatever comes.
    pub fn keep(&self) {
        self.lock().take();
    }

    /// Takes it away, where it isn't to stay.
    pub fn take_away(&self) {
        let mut kind = self.lock();
        match kind.take() {
            Some(Kind::Mounted) => uncover(&self.folder),
            Some(Kind::Modes { below, before }) => {
                let _ = below.set_permissions(Permissions::from_mode(before));
            }
            None => {}
        }
    }

    fn lock(&self) -> MutexGuard<'_, Option<Kind>> {
        self.kind.lock().unwrap_or_else(PoisonError::into_inner)
    }
}

/// Unmounts the small file system where nothing lies on it.
pub fn uncover(folder: &str) {
    if is_covered(folder) && unmount(folder, false).is_err() {
        let _ = unmount(folder, true);
    }
}

/// An empty file holds nothing that the mount would hide.
fn refuse_files(folder: &str) -> Result<()> {
    let entries = read_dir(folder).map_err(|error| Error::new(error.kind(), format!("{folder}: {error}")))?;
    for entry in entries {
        let entry = entry?;
        let about = entry.metadata()?;
        if about.is_file() && about.len() > 0 {
            return Err(Error::other(format!("{} {IN_THE_WAY}", entry.path().display())));
        }
    }
    Ok(())
}

#[cfg(test)]
mod tests {
    use super::*;
    use std::fs::{create_dir, remove_dir_all, set_permissions, write};

    /// A new folder, removed at the end.
    struct Folder(String);

    impl Folder {
        fn new(name: &str) -> Folder {
            let path = std::env::temp_dir().join(format!("litefs-cover-{name}-{}", std::process::id()));
            create_dir(&path).unwrap();
            Folder(path.to_string_lossy().into_owned())
        }

        fn mode(&self) -> u32 {
            std::fs::metadata(&self.0).unwrap().mode() & 0o777
        }
    }

    impl Drop for Folder {
        fn drop(&mut self) {
            set_permissions(&self.0, Permissions::from_mode(0o755)).unwrap();
            remove_dir_all(&self.0).unwrap();
        }
    }

    #[test]
    fn a_file_in_the_folder_is_refused_by_its_name() {
        let folder = Folder::new("file");
        write(format!("{}/empty", folder.0), "").unwrap();
        create_dir(format!("{}/sub", folder.0)).unwrap();
        assert!(refuse_files(&folder.0).is_ok());
        write(format!("{}/app", folder.0), "rows").unwrap();
        let told = refuse_files(&folder.0).unwrap_err().to_string();
        assert!(told.starts_with(&format!("{}/app stands in the folder", folder.0)), "{told}");
    }

    fn by_modes(folder: &Folder, before: u32) -> Cover {
        let below = File::open(&folder.0).unwrap();
        Cover { folder: folder.0.clone(), kind: Arc::new(Mutex::new(Some(Kind::Modes { below, before }))) }
    }

    #[test]
    fn modes_come_back_only_where_the_program_was_asked_to_end() {
        let folder = Folder::new("modes");
        let cover = by_modes(&folder, 0o750);
        cover.close();
        assert_eq!(folder.mode(), 0o555);
        cover.take_away();
        assert_eq!(folder.mode(), 0o750);
        let kept = by_modes(&folder, 0o750);
        kept.close();
        kept.keep();
        kept.take_away();
        assert_eq!(folder.mode(), 0o555);
    }
}
