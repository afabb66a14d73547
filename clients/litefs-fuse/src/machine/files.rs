//! The kernel's numbers of the files. The node's number of a file stays when the file is removed and made anew; the
//! kernel's has a generation in it, which changes then and when the link is lost.

use crate::wire::Kind;

/// The endings of the names beside the database's own.
pub const ENDINGS: [(&[u8], Kind); 5] = [
    (b"-journal", Kind::Journal),
    (b"-wal", Kind::Log),
    (b"-shm", Kind::Shared),
    (b"-pos", Kind::Position),
    (b"-lock", Kind::Lock),
];

/// The file that tells a replica's primary.
pub const PRIMARY: &[u8] = b".primary";

/// Generations, and the database's name once it is known.
pub struct Files {
    generations: [u32; 9],
    latest: u32,
    pub name: Option<Vec<u8>>,
}

impl Files {
    pub fn new(name: Option<Vec<u8>>) -> Files {
        let mut files = Files { generations: [0; 9], latest: 0, name };
        files.renew_all();
        files
    }

    /// The file gets a new generation.
    pub fn renew(&mut self, kind: Kind) {
        self.latest += 1;
        self.generations[kind as usize] = self.latest;
    }

    /// Every file but the root gets a new generation.
    pub fn renew_all(&mut self) {
        (2..9).filter_map(Kind::of).for_each(|kind| self.renew(kind));
    }

    /// Every file gets a generation that none has had in another process.
    pub fn renew_after_another(&mut self) {
        self.latest |= 1 << 31;
        self.renew_all();
    }

    pub fn generation(&self, kind: Kind) -> u32 {
        self.generations[kind as usize]
    }

    /// The kernel's number of a file.
    pub fn number(&self, kind: Kind) -> u64 {
        kind as u64 | u64::from(self.generation(kind)) << 8
    }

    /// The file of a kernel's number, and whether it is of the present generation.
    pub fn of(&self, number: u64) -> Option<(Kind, bool)> {
        let kind = Kind::of(number & 255)?;
        Some((kind, number == self.number(kind)))
    }

    /// Remembers the database's name by the name of one of its files.
    pub fn learn(&mut self, name: &[u8], kind: Kind) {
        if self.name.is_none() && kind != Kind::Primary && kind != Kind::Root {
            self.name = name.strip_suffix(ending(kind)).map(<[u8]>::to_vec);
        }
    }

    /// Whether the name is that of the database's file of this kind.
    pub fn is_named(&self, name: &[u8], kind: Kind) -> bool {
        self.name.is_some() && self.name.as_deref() == name.strip_suffix(ending(kind))
    }
}

fn ending(kind: Kind) -> &'static [u8] {
    ENDINGS.iter().find(|(_, other)| *other == kind).map_or(b"", |(ending, _)| ending)
}

/// The file that a name is the name of, where it is one of a node's.
pub fn kind_of(name: &[u8]) -> Kind {
    if name == PRIMARY {
        return Kind::Primary;
    }
    ENDINGS.iter().find(|(ending, _)| name.ends_with(ending)).map_or(Kind::Database, |(_, kind)| *kind)
}
