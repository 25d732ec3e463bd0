//! Opens a volume: a scan of all pages, the journal's transaction brought back, the walk that looks for a fault, and the
//! pages of files made live, each at its place.

use crate::blocks::{Blocks, State};
use crate::files_segment::Files;
use crate::free::FreeSet;
use crate::image::{Image, Record};
use crate::meta::Meta;
use crate::numbers::{
    commit_of, header_of, is_zero, super_count, Entry, Pointer, Shape, Tag, DIR, FILE, MAIN,
    NODES_AT, SLOTS, UNUSED,
};
use crate::scan::{scan, Scan};
use crate::virtuals::{Virtuals, NOWHERE};
use crate::volume::{Due, Journal, Volume};
use std::collections::HashSet;

/// Why a volume was not opened.
pub enum NotOpened {
    Blank,
    /// The first fault of the walk: its place, and what is at fault.
    Damaged(u64, &'static str),
}

/// What the walk goes over.
struct Walk<'a> {
    shape: &'a Shape,
    meta: &'a Meta,
    scan: &'a mut Scan,
}

type Fault = Option<u32>;

/// Opens the volume on a medium.
pub fn open(image: Image, shape: Shape) -> Result<Volume, NotOpened> {
    let mut scan = scan(&image, &shape);
    if scan.readable == 0 {
        return Err(NotOpened::Blank);
    }
    let virtuals = open_virtuals(&shape, &scan);
    let mut meta = Meta::new(shape.vaddrs);
    let journal = bring_back(&image, &shape, &virtuals, &mut meta);
    load(&image, &shape, &virtuals, &mut meta);
    let mut walk = Walk {
        shape: &shape,
        meta: &meta,
        scan: &mut scan,
    };
    let held = walk.first_fault()?;
    let count = super_count(meta.page(0), &shape).unwrap_or(0);
    let (nodes, pool) = free_sets(&shape, &meta);
    let files = open_files(&shape, &scan, &held);
    Ok(Volume {
        image,
        shape,
        virtuals,
        files,
        stamp: scan.greatest + 1,
        meta,
        journal,
        nodes,
        pool,
        flight: Vec::new(),
        freeing: Vec::new(),
        leaving: 0,
        count,
        committed: count,
        frozen: count,
        data: held.len() as u32,
        record: Record::new(),
        other: Record::new(),
    })
}

/// Tells the blocks of a segment what the scan found of them.
fn soil(blocks: &mut Blocks, scan: &Scan) {
    for block in blocks.numbers() {
        let (soiled, wear) = scan.blocks[block as usize];
        let at = blocks.at_mut(block);
        (at.soiled, at.wear) = (soiled, wear);
    }
}

/// The virtual segment: each address has its newest page.
fn open_virtuals(shape: &Shape, scan: &Scan) -> Virtuals {
    let mut virtuals = Virtuals::new(shape);
    soil(&mut virtuals.blocks, scan);
    virtuals.places = scan.places();
    for place in virtuals
        .places
        .iter()
        .filter(|place| place.page != NOWHERE.page)
    {
        virtuals
            .blocks
            .set_state(place.page / shape.pages, State::Sealed);
    }
    virtuals
}

/// The physical segment: each pointer has its page at its place.
fn open_files(shape: &Shape, scan: &Scan, held: &[(Pointer, Tag)]) -> Files {
    let mut files = Files::new(shape);
    soil(&mut files.blocks, scan);
    let spare = scan.file_spare().unwrap_or(0);
    for (at, tag) in held {
        files.load(*at, *tag, scan.place_of(*at, spare));
    }
    files
}

/// Brings the transaction back that counts, if one does: its images become the running pages, and are to be copied home.
fn bring_back(image: &Image, shape: &Shape, virtuals: &Virtuals, meta: &mut Meta) -> Journal {
    let mut record = Record::new();
    let mut read = |address: u32| {
        virtuals
            .read(image, address, &mut record)
            .then(|| record.main().to_vec())
    };
    let header = read(1).and_then(|main| header_of(&main, shape.vaddrs));
    let commit = read(66).and_then(|main| commit_of(&main));
    let number = header
        .as_ref()
        .map_or(0, |(number, _)| *number)
        .max(commit.unwrap_or(0));
    let nothing = Journal {
        number,
        due: Due::Header,
    };
    let Some((_, addresses)) = header.filter(|(number, _)| Some(*number) == commit) else {
        return nothing;
    };
    for (place, address) in addresses.into_iter().enumerate() {
        let mut image_page = Record::new();
        if !virtuals.read(image, 2 + place as u32, &mut image_page) {
            meta.clear();
            return nothing;
        }
        meta.restore(address, image_page);
    }
    Journal {
        number,
        due: Due::Home(0),
    }
}

/// Reads the pages at which the walk looks: the super page, the pages of nodes, and those of the pool that used nodes name.
fn load(image: &Image, shape: &Shape, virtuals: &Virtuals, meta: &mut Meta) {
    let mut record = Record::new();
    let mut load = |meta: &mut Meta, address: u32| {
        if !meta.is_resident(address) && virtuals.read(image, address, &mut record) {
            meta.load(address, record.main());
        }
    };
    load(meta, 0);
    (NODES_AT..shape.pool_at()).for_each(|address| load(meta, address));
    for ino in used_nodes(shape, meta) {
        for address in meta.node(ino).addresses() {
            if (shape.pool_at()..shape.vaddrs).contains(&address) {
                load(meta, address);
            }
        }
    }
}

/// The nodes that are used.
fn used_nodes(shape: &Shape, meta: &Meta) -> Vec<u32> {
    let pages = (0..shape.inode_pages).filter(|page| meta.is_resident(NODES_AT + page));
    let nodes = pages.flat_map(|page| 16 * page..16 * page + 16);
    nodes
        .filter(|ino| *ino < shape.nodes && meta.node(*ino).kind() != UNUSED)
        .collect()
}

/// The free nodes, and the free addresses of the pool.
fn free_sets(shape: &Shape, meta: &Meta) -> (FreeSet, FreeSet) {
    let (mut nodes, mut pool) = (FreeSet::new(shape.nodes), FreeSet::new(shape.meta));
    for ino in used_nodes(shape, meta) {
        nodes.put_to_use(ino);
        for address in meta
            .node(ino)
            .addresses()
            .into_iter()
            .filter(|address| *address != 0)
        {
            pool.put_to_use(address - shape.pool_at());
        }
    }
    (nodes, pool)
}

/// Whether a page has pointers alone, and some.
fn are_pointers(shape: &Shape, page: &[u8]) -> bool {
    let mut some = false;
    for slot in 0..SLOTS as usize {
        match Pointer::spelled(page, Pointer::WIDTH * slot, shape) {
            Some(pointer) => some |= !pointer.is_none(),
            None => return false,
        }
    }
    some
}

impl<'a> Walk<'a> {
    /// Goes through all phases. The pointers of all files with their tags, in the order of nodes and indexes.
    fn first_fault(&mut self) -> Result<Vec<(Pointer, Tag)>, NotOpened> {
        let at = |place: Fault, what| {
            place.map_or(Ok(()), |place| {
                Err(NotOpened::Damaged(u64::from(place), what))
            })
        };
        let is_super =
            self.meta.is_resident(0) && super_count(self.meta.page(0), self.shape).is_some();
        at((!is_super).then_some(0), "super")?;
        at(self.scan.stamp_fault(), "stamp")?;
        at(self.inode_fault(), "inode")?;
        let used = used_nodes(self.shape, self.meta);
        at(self.pages_fault(&used), "pages")?;
        at(self.entry_fault(&used), "entry")?;
        let held = self.pointers(&used);
        at(self.pointer_fault(&held), "pointer")?;
        let owns = |at: &Pointer, scan: &Scan| [at.stamp, 0].contains(&scan.stamp_of(at.name));
        at(
            held.iter()
                .find(|(at, _)| !owns(at, self.scan))
                .map(|(at, _)| at.name),
            "names",
        )?;
        at((self.shape.cap < held.len() as u32).then_some(0), "charges")?;
        at(self.crowded_fault(&held), "crowded")?;
        Ok(held)
    }

    fn inode_fault(&self) -> Fault {
        let (shape, meta) = (self.shape, self.meta);
        let is_bad = |ino: &u32| {
            let node = meta.node(*ino);
            if *ino >= shape.nodes {
                return !is_zero(node.0);
            }
            !node.is_spelled(shape) || *ino == 0 && node.kind() != DIR
        };
        let pages =
            (0..shape.inode_pages).filter(|page| *page == 0 || meta.is_resident(NODES_AT + page));
        pages
            .flat_map(|page| 16 * page..16 * page + 16)
            .find(is_bad)
    }

    fn pages_fault(&self, used: &[u32]) -> Fault {
        let (shape, meta) = (self.shape, self.meta);
        let mut seen = vec![false; shape.vaddrs as usize];
        for ino in used {
            let node = meta.node(*ino);
            for address in node.addresses().into_iter().filter(|address| *address != 0) {
                let in_pool = (shape.pool_at()..shape.vaddrs).contains(&address);
                if !in_pool
                    || std::mem::replace(&mut seen[address as usize], true)
                    || !meta.is_resident(address)
                {
                    return Some(address);
                }
                if node.kind() == FILE && !are_pointers(shape, meta.page(address)) {
                    return Some(address);
                }
            }
        }
        None
    }

    /// The entries of a directory's pages, with those behind the last one.
    fn places(&self, dir: u32) -> impl Iterator<Item = &'a [u8]> {
        let meta = self.meta;
        let rows = meta.node(dir).size().div_ceil(64) as u32;
        (0..rows).flat_map(move |row| {
            meta.page(meta.node(dir).address(row))
                .chunks_exact(Entry::WIDTH)
        })
    }

    /// The first directory with an entry at fault, or else the first node that no chain of entries reaches.
    fn entry_fault(&self, used: &[u32]) -> Fault {
        let mut named = vec![false; self.shape.nodes as usize];
        let mut names = HashSet::new();
        let dirs = || {
            used.iter()
                .filter(|ino| self.meta.node(**ino).kind() == DIR)
        };
        for dir in dirs() {
            names.clear();
            let size = self.meta.node(*dir).size() as usize;
            for (place, bytes) in self.places(*dir).enumerate() {
                let entry = Entry(bytes);
                let is_good = if place >= size {
                    is_zero(bytes)
                } else {
                    self.is_target(entry)
                        && !std::mem::replace(&mut named[entry.ino() as usize], true)
                        && names.insert(entry.name())
                };
                if !is_good {
                    return Some(*dir);
                }
            }
        }
        let mut reached = vec![false; self.shape.nodes as usize];
        let mut queue = vec![0];
        reached[0] = true;
        while let Some(ino) = queue.pop() {
            if self.meta.node(ino).kind() != DIR {
                continue;
            }
            let size = self.meta.node(ino).size() as usize;
            for bytes in self.places(ino).take(size) {
                let to = Entry(bytes).ino();
                if !std::mem::replace(&mut reached[to as usize], true) {
                    queue.push(to);
                }
            }
        }
        used.iter().find(|ino| !reached[**ino as usize]).copied()
    }

    /// Whether an entry is spelled, and names a used node of its generation that is not the root.
    fn is_target(&self, entry: Entry) -> bool {
        let ino = entry.ino();
        if !entry.is_spelled() || ino == 0 || ino >= self.shape.nodes {
            return false;
        }
        let node = self.meta.node(ino);
        node.kind() != UNUSED && node.generation() == entry.generation()
    }

    fn pointers(&self, used: &[u32]) -> Vec<(Pointer, Tag)> {
        let mut held = Vec::new();
        for ino in used
            .iter()
            .filter(|ino| self.meta.node(**ino).kind() == FILE)
        {
            let generation = self.meta.node(*ino).generation();
            self.meta.each_pointer(*ino, 0, |index, at| {
                held.push((
                    at,
                    Tag {
                        ino: *ino,
                        generation,
                        index,
                    },
                ))
            });
        }
        held
    }

    fn pointer_fault(&mut self, held: &[(Pointer, Tag)]) -> Fault {
        let mut names = vec![false; (self.shape.blocks * self.shape.pages) as usize];
        for (at, tag) in held {
            let size = self.meta.node(tag.ino).size();
            let is_within = u64::from(tag.index) < size.div_ceil(MAIN as u64);
            let is_new = !std::mem::replace(&mut names[at.name as usize], true);
            if !is_within || !is_new || !self.scan.take(*at, *tag, size) {
                return Some(tag.ino);
            }
        }
        None
    }

    fn crowded_fault(&self, held: &[(Pointer, Tag)]) -> Fault {
        if self.scan.virtual_spare().is_none() {
            return Some(0);
        }
        if self.scan.file_spare().is_none() {
            return Some(1);
        }
        let lost = held
            .iter()
            .filter(|(at, _)| self.scan.stamp_of(at.name) != at.stamp)
            .count();
        (lost > 3 * self.shape.pages as usize).then_some(2)
    }
}
