//! The calls of a script, as they are handed to a volume, and how each is answered in its line.

use crate::files::Data;
use crate::numbers::{DIR, FILE};
use crate::volume::Volume;
use std::io::Write;

/// A path, as a script has it: `/`, or a slash before each name.
#[derive(Clone, Copy)]
pub struct Path<'a>(pub &'a [u8]);

impl<'a> Path<'a> {
    pub fn is_root(self) -> bool {
        self.0.len() == 1
    }

    /// The names, of which the root has none.
    pub fn names(self) -> impl Iterator<Item = &'a [u8]> {
        self.0[1..]
            .split(|byte| *byte == b'/')
            .filter(|name| !name.is_empty())
    }

    /// The path without its last name, and that name.
    pub fn split(self) -> (Path<'a>, &'a [u8]) {
        let at = self.0.iter().rposition(|byte| *byte == b'/').unwrap_or(0);
        (Path(&self.0[..at.max(1)]), &self.0[at + 1..])
    }

    pub fn is_long(self) -> bool {
        self.0.len() > 1023 || self.names().any(|name| name.len() > 55)
    }

    /// Whether it lies under another one, which is not the root.
    pub fn lies_under(self, other: Path) -> bool {
        self.0.len() > other.0.len() && self.0.starts_with(other.0) && self.0[other.0.len()] == b'/'
    }
}

/// A call on a volume.
pub enum Call<'a> {
    Mkdir(Path<'a>),
    Rmdir(Path<'a>),
    Create(Path<'a>),
    Unlink(Path<'a>),
    Rename(Path<'a>, Path<'a>),
    Write(Path<'a>, u64, Vec<u8>),
    Fill(Path<'a>, u64, u32, u8),
    Read(Path<'a>, u64, u32),
    Truncate(Path<'a>, u64),
    Stat(Path<'a>),
    List(Path<'a>),
    Sync,
    Clean,
}

/// Why a call is refused.
#[derive(Clone, Copy)]
pub enum Refusal {
    NotThere,
    IsThere,
    NotDirectory,
    IsDirectory,
    NotEmpty,
    Invalid,
    NameTooLong,
    FileTooBig,
    NoSpaceDir,
    NoSpaceNodes,
    NoSpaceMeta,
    NoSpaceData,
}

pub type Done = Result<(), Refusal>;

impl Refusal {
    fn word(self) -> &'static str {
        match self {
            Refusal::NotThere => "ENOENT",
            Refusal::IsThere => "EEXIST",
            Refusal::NotDirectory => "ENOTDIR",
            Refusal::IsDirectory => "EISDIR",
            Refusal::NotEmpty => "ENOTEMPTY",
            Refusal::Invalid => "EINVAL",
            Refusal::NameTooLong => "ENAMETOOLONG",
            Refusal::FileTooBig => "EFBIG",
            Refusal::NoSpaceDir => "ENOSPC dir",
            Refusal::NoSpaceNodes => "ENOSPC nodes",
            Refusal::NoSpaceMeta => "ENOSPC meta",
            Refusal::NoSpaceData => "ENOSPC data",
        }
    }
}

fn push_hex(text: &mut Vec<u8>, bytes: &[u8]) {
    const DIGITS: &[u8; 16] = b"0123456789abcdef";
    let front = text.len();
    text.resize(front + 2 * bytes.len(), 0);
    for (two, byte) in text[front..].chunks_exact_mut(2).zip(bytes) {
        two[0] = DIGITS[usize::from(byte >> 4)];
        two[1] = DIGITS[usize::from(byte & 15)];
    }
}

/// Writes a text, which a list of bytes always takes.
macro_rules! put {
    ($text:expr, $($word:tt)*) => {
        let _ = write!($text, $($word)*);
    };
}

impl Volume {
    /// Does the call of a line, and adds the line of its answer.
    pub fn answer(&mut self, line: u32, call: &Call, text: &mut Vec<u8>) {
        put!(text, "{line} @{} ", self.count + 1);
        let front = text.len();
        text.extend_from_slice(b"ok");
        if let Err(refusal) = self.perform(call, text) {
            text.truncate(front);
            text.extend_from_slice(refusal.word().as_bytes());
        }
        text.push(b'\n');
        self.count += 1;
    }

    /// Does a call, and adds what stands behind `ok`.
    fn perform(&mut self, call: &Call, text: &mut Vec<u8>) -> Done {
        match call {
            Call::Mkdir(path) => self.make(*path, DIR),
            Call::Rmdir(path) => self.remove(*path, DIR),
            Call::Create(path) => self.make(*path, FILE),
            Call::Unlink(path) => self.remove(*path, FILE),
            Call::Rename(from, to) => self.rename_path(*from, *to),
            Call::Write(path, from, bytes) => {
                self.write(*path, *from, Data::Bytes(bytes))?;
                put!(text, " {}", bytes.len());
                Ok(())
            }
            Call::Fill(path, from, len, byte) => {
                self.write(*path, *from, Data::Fill(*len as usize, *byte))?;
                put!(text, " {len}");
                Ok(())
            }
            Call::Read(path, from, len) => {
                text.push(b' ');
                let front = text.len();
                self.read(*path, *from, *len, |bytes| push_hex(text, bytes))?;
                if text.len() == front {
                    text.push(b'-');
                }
                Ok(())
            }
            Call::Truncate(path, size) => self.truncate(*path, *size),
            Call::Stat(path) => self.stat(*path, text),
            Call::List(path) => self.list(*path, text),
            Call::Sync => {
                put!(text, " {}", self.sync());
                Ok(())
            }
            Call::Clean => {
                self.round();
                Ok(())
            }
        }
    }

    /// What stands at a path: a file with its size and its pages, or a directory with its entries.
    fn stat(&mut self, path: Path, text: &mut Vec<u8>) -> Done {
        let ino = self.find(path)?;
        let (kind, size) = (self.meta.node(ino).kind(), self.meta.node(ino).size());
        if kind == FILE {
            put!(text, " file {size} {}", self.count_pages(ino));
        } else {
            put!(text, " dir {size}");
        }
        Ok(())
    }

    /// How many pages of a file hold bytes.
    pub fn count_pages(&self, ino: u32) -> u32 {
        let mut count = 0;
        self.meta.each_pointer(ino, 0, |_, _| count += 1);
        count
    }

    /// The names of a directory, in the order of their bytes.
    fn list(&mut self, path: Path, text: &mut Vec<u8>) -> Done {
        let ino = self.find(path)?;
        if self.meta.node(ino).kind() != DIR {
            return Err(Refusal::NotDirectory);
        }
        let entries = self.sorted(ino);
        put!(text, " {}", entries.len());
        for entry in entries {
            text.push(b' ');
            text.extend_from_slice(entry.name());
            if self.meta.node(entry.ino()).kind() == DIR {
                text.push(b'/');
            }
        }
        Ok(())
    }
}
