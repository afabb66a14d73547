//! The command line.

/// The two ways in which the shared memory's pages are shared.
#[derive(Clone, Copy, Debug, PartialEq, Eq)]
pub enum Sharing {
    /// passthrough where the kernel lets us, else notify
    Best,
    Notify,
}

/// What the command line says.
#[derive(Clone, Debug, PartialEq, Eq)]
pub struct Options {
    pub socket: String,
    pub folder: String,
    pub read_only_at_replica: bool,
    pub allow_other: bool,
    pub auto_unmount: bool,
    pub drop: bool,
    pub cache: bool,
    pub make_folder: bool,
    pub uid: Option<u32>,
    pub gid: Option<u32>,
    pub name: Option<String>,
    pub sharing: Sharing,
    pub until_stdin_ends: bool,
}

pub const USAGE: &str = "litefs-fuse SOCKET FOLDER [-o OPTION[,OPTION..]] [--until-stdin-ends]
  ro             at a replica the database is opened for reading alone
  allow_other    other users may use the mount, as the files' modes say
  uid=N, gid=N   the owner of the files (by default who starts this program)
  auto_unmount   the folder is unmounted however this program ends
  drop           removing the database's name drops the database
  cache          the kernel caches the pages of the database and the log
  mkdir          the folder is made where it is missing
  name=NAME      the database's name, for listings before its first use
  notify         the shared memory by notifications also where passthrough can be had";

impl Options {
    /// Reads the arguments behind the program's name; the error says what is wrong.
    pub fn read(arguments: &[String]) -> Result<Options, String> {
        let mut options = Options::none();
        let mut plain = Vec::new();
        let mut rest = arguments.iter();
        while let Some(argument) = rest.next() {
            match argument.as_str() {
                "-o" => options.set_all(rest.next().ok_or("-o wants a list")?)?,
                "--until-stdin-ends" => options.until_stdin_ends = true,
                other if other.starts_with('-') => return Err(format!("unknown option {other}")),
                other => plain.push(other.to_string()),
            }
        }
        let [socket, folder] = plain.try_into().map_err(|_| "a socket and a folder are wanted")?;
        Ok(Options { socket, folder, ..options })
    }

    fn none() -> Options {
        Options {
            socket: String::new(),
            folder: String::new(),
            read_only_at_replica: false,
            allow_other: false,
            auto_unmount: false,
            drop: false,
            cache: false,
            make_folder: false,
            uid: None,
            gid: None,
            name: None,
            sharing: Sharing::Best,
            until_stdin_ends: false,
        }
    }

    fn set_all(&mut self, list: &str) -> Result<(), String> {
        list.split(',').filter(|one| !one.is_empty()).try_for_each(|one| self.set(one))
    }

    fn set(&mut self, one: &str) -> Result<(), String> {
        match one.split_once('=') {
            None => self.set_word(one),
            Some(("uid", value)) => number(value).map(|uid| self.uid = Some(uid)),
            Some(("gid", value)) => number(value).map(|gid| self.gid = Some(gid)),
            Some(("name", value)) => {
                self.name = Some(value.to_string());
                Ok(())
            }
            Some(_) => Err(format!("unknown option {one}")),
        }
    }

    fn set_word(&mut self, word: &str) -> Result<(), String> {
        let place = match word {
            "ro" => &mut self.read_only_at_replica,
            "allow_other" => &mut self.allow_other,
            "auto_unmount" => &mut self.auto_unmount,
            "drop" => &mut self.drop,
            "cache" => &mut self.cache,
            "mkdir" => &mut self.make_folder,
            "notify" => {
                self.sharing = Sharing::Notify;
                return Ok(());
            }
            _ => return Err(format!("unknown option {word}")),
        };
        *place = true;
        Ok(())
    }
}

fn number(value: &str) -> Result<u32, String> {
    value.parse().map_err(|_| format!("{value} is no number"))
}

#[cfg(test)]
mod tests {
    use super::*;

    fn read(line: &str) -> Result<Options, String> {
        Options::read(&line.split(' ').map(str::to_string).collect::<Vec<_>>())
    }

    #[test]
    fn options_stand_behind_the_socket_and_the_folder() {
        let options = read("app.sock /mnt -o ro,uid=7,gid=8,drop --until-stdin-ends -o mkdir,name=app").unwrap();
        assert_eq!((options.socket.as_str(), options.folder.as_str()), ("app.sock", "/mnt"));
        assert!(options.read_only_at_replica && options.drop && options.make_folder && options.until_stdin_ends);
        assert!(!options.allow_other && !options.auto_unmount && !options.cache);
        assert_eq!((options.uid, options.gid), (Some(7), Some(8)));
        assert_eq!(options.name.as_deref(), Some("app"));
    }

    #[test]
    fn what_is_unknown_is_refused() {
        for line in ["app.sock", "a b c", "a b -o rw", "a b -o uid=x", "a b -o", "a b --lazily", "a b -o x=1"] {
            assert!(read(line).is_err(), "{line}");
        }
    }
}
