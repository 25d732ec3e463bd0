//! The image file: a header, and a record for each page. Each page is read, programmed and erased at once, by calls
//! of the same sizes and in the same order as those of `nl_imgfile`.

use crate::fail;
use crate::numbers::{put_u32, u32_at, Shape, Spare, MAIN, SPARE};
use std::fs::{File, OpenOptions};
use std::os::unix::fs::FileExt;

const HEADER: usize = 4096;
const STATE: usize = 8;
const BYTES: usize = STATE + MAIN + SPARE;

/// A page's record: its state, its main bytes and its spare bytes.
pub struct Record(Box<[u8; BYTES]>);

impl Record {
    pub fn new() -> Record {
        Record(Box::new([0; BYTES]))
    }

    pub fn main(&self) -> &[u8] {
        &self.0[STATE..STATE + MAIN]
    }

    pub fn main_mut(&mut self) -> &mut [u8] {
        &mut self.0[STATE..STATE + MAIN]
    }

    /// What the spare bytes spell.
    pub fn spare(&self) -> Option<Spare> {
        Spare::of(&self.0[STATE + MAIN..])
    }

    pub fn set_spare(&mut self, spare: &Spare) {
        spare.put(&mut self.0[STATE + MAIN..]);
    }
}

/// What a page is found as.
#[derive(PartialEq, Eq)]
pub enum Found {
    Erased,
    Written,
    Neither,
}

/// A medium in a file.
pub struct Image {
    file: File,
    pages: u32,
}

fn position(page: u32) -> u64 {
    HEADER as u64 + BYTES as u64 * u64::from(page)
}

fn header(blocks: u32, pages: u32) -> [u8; HEADER] {
    let mut bytes = [0; HEADER];
    bytes[..7].copy_from_slice(b"NLIMAGE");
    put_u32(&mut bytes, 8, 1);
    put_u32(&mut bytes, 12, blocks);
    put_u32(&mut bytes, 16, pages);
    bytes
}

impl Image {
    /// The medium in a file with its numbers, if it was formed.
    pub fn open(path: &str) -> Option<(Image, Shape)> {
        let file = OpenOptions::new()
            .read(true)
            .write(true)
            .open(path)
            .unwrap_or_else(|_| fail());
        let mut bytes = [0; HEADER];
        file.read_exact_at(&mut bytes, 0).ok()?;
        let (blocks, pages) = (u32_at(&bytes, 12), u32_at(&bytes, 16));
        let shape = Shape::of(blocks, pages)?;
        (bytes == header(blocks, pages)).then_some((Image { file, pages }, shape))
    }

    /// Forms a medium of these numbers, whose pages are erased.
    pub fn form(path: &str, shape: &Shape) -> Image {
        let options = OpenOptions::new()
            .read(true)
            .write(true)
            .create(true)
            .truncate(false)
            .open(path);
        let file = options.unwrap_or_else(|_| fail());
        let resized = file
            .set_len(0)
            .and_then(|()| file.set_len(position(shape.blocks * shape.pages)));
        let formed =
            resized.and_then(|()| file.write_all_at(&header(shape.blocks, shape.pages), 0));
        formed.unwrap_or_else(|_| fail());
        Image {
            file,
            pages: shape.pages,
        }
    }

    pub fn read(&self, page: u32, into: &mut Record) -> Found {
        self.file
            .read_exact_at(&mut into.0[..], position(page))
            .unwrap_or_else(|_| fail());
        match u64::from_le_bytes(into.0[..STATE].try_into().unwrap()) {
            0 => Found::Erased,
            1 => Found::Written,
            _ => Found::Neither,
        }
    }

    /// Programs main and spare bytes of a record: the bytes come first, and then the state.
    pub fn program(&mut self, page: u32, from: &Record) {
        let at = position(page);
        let bytes = self.file.write_all_at(&from.0[STATE..], at + STATE as u64);
        bytes
            .and_then(|()| self.file.write_all_at(&1u64.to_le_bytes(), at))
            .unwrap_or_else(|_| fail());
    }

    /// Erases the pages of a block, from the first one on.
    pub fn erase(&mut self, block: u32) {
        let erased = [0; BYTES];
        for page in block * self.pages..(block + 1) * self.pages {
            self.file
                .write_all_at(&erased, position(page))
                .unwrap_or_else(|_| fail());
        }
    }
}
