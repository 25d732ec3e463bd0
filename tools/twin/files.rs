//! The calls on the bytes of files: write, fill, read, truncate, and the pointers that they change.

use crate::calls::{Done, Path, Refusal};
use crate::numbers::{
    is_zero, put_u32, put_u64, Node, Pointer, Tag, DIRECT, MAIN, MOST, NODES_AT, NONE, SLOTS,
};
use crate::volume::Volume;

const PAGE: u64 = MAIN as u64;
/// How many pages may be dirty before a call on a file makes up to four more so.
const FEW_DIRTY: usize = 59;

/// What is written to a file.
#[derive(Clone, Copy)]
pub enum Data<'a> {
    Bytes(&'a [u8]),
    /// So many times one byte.
    Fill(usize, u8),
}

impl Data<'_> {
    pub fn len(&self) -> usize {
        match self {
            Data::Bytes(bytes) => bytes.len(),
            Data::Fill(len, _) => *len,
        }
    }

    /// Lays the bytes from one place on over so many others.
    fn lay(&self, from: usize, over: &mut [u8]) {
        match self {
            Data::Bytes(bytes) => over.copy_from_slice(&bytes[from..from + over.len()]),
            Data::Fill(_, byte) => over.fill(*byte),
        }
    }
}

/// The slot of an index in the page of its range.
fn slot_at(index: u32) -> usize {
    Pointer::WIDTH * ((index - DIRECT) % SLOTS) as usize
}

impl Volume {
    /// The address of the page that has the pointer of an index, which is there.
    pub fn pointer_address(&self, ino: u32, index: u32) -> u32 {
        if index < DIRECT {
            NODES_AT + ino / 16
        } else {
            self.meta.range_address(ino, index)
        }
    }

    /// Gives an index of a file a pointer, with a new page for its range where that has none. Gives the one that it had.
    pub fn put_pointer(&mut self, ino: u32, index: u32, to: Pointer) -> Pointer {
        if index < DIRECT {
            let (bytes, at) = (
                self.meta.node_mut(ino),
                Node::POINTERS + Pointer::WIDTH * index as usize,
            );
            let had = Pointer::at(bytes, at);
            to.put(bytes, at);
            return had;
        }
        let address = self.meta.range_address(ino, index);
        if address == 0 {
            let fresh = self.shape.pool_at() + self.pool.take().expect("a free address");
            put_u32(
                self.meta.node_mut(ino),
                Node::ADDRESSES + 4 * ((index - DIRECT) / SLOTS) as usize,
                fresh,
            );
            to.put(self.meta.fresh(fresh), slot_at(index));
            return NONE;
        }
        let page = self.meta.page_mut(address);
        let had = Pointer::at(page, slot_at(index));
        to.put(page, slot_at(index));
        had
    }

    fn tag(&self, ino: u32, index: u32) -> Tag {
        Tag {
            ino,
            generation: self.meta.node(ino).generation(),
            index,
        }
    }

    /// Reads the page of an index of a file into the page at hand, zeros where it has none. Whether it has one.
    fn read_page(&mut self, ino: u32, index: u32) -> bool {
        let at = self.meta.pointer(ino, index);
        if at.is_none() {
            self.record.main_mut().fill(0);
            return false;
        }
        let tag = self.tag(ino, index);
        self.files.read(&self.image, at, tag, &mut self.record);
        true
    }

    /// Why there is no room for pages at these indexes of a file.
    fn lacks_room(&self, ino: u32, first: u32, last: u32) -> Option<Refusal> {
        let node = self.meta.node(ino);
        let range_of = |index: u32| (index - DIRECT) / SLOTS;
        let mut fresh = 0;
        if last >= DIRECT {
            let ranges = range_of(first.max(DIRECT))..=range_of(last);
            fresh = ranges.filter(|range| node.address(*range) == 0).count();
        }
        if (self.pool.count() as usize) < fresh {
            return Some(Refusal::NoSpaceMeta);
        }
        let missing = (first..=last)
            .filter(|index| self.meta.pointer(ino, *index).is_none())
            .count();
        (self.data as usize + missing > self.shape.cap as usize).then_some(Refusal::NoSpaceData)
    }

    /// Writes to a file. Whole pages are programmed first, then those at the ends; and then the file gets all of them.
    pub fn write(&mut self, path: Path, from: u64, data: Data) -> Done {
        let ino = self.find_file(path)?;
        let len = data.len() as u64;
        if len == 0 {
            return Ok(());
        }
        if from > MOST || len > MOST - from {
            return Err(Refusal::FileTooBig);
        }
        let (first, last) = ((from / PAGE) as u32, ((from + len - 1) / PAGE) as u32);
        let whole = from.div_ceil(PAGE) as u32..((from + len) / PAGE) as u32;
        for index in whole.clone() {
            data.lay(
                (u64::from(index) * PAGE - from) as usize,
                self.record.main_mut(),
            );
            self.program(self.tag(ino, index));
            self.background();
        }
        if let Some(refusal) = self.lacks_room(ino, first, last) {
            self.drop_flight();
            return Err(refusal);
        }
        for index in (first..=last).filter(|index| !whole.contains(index)) {
            self.read_page(ino, index);
            let start = u64::from(index) * PAGE;
            let low = from.max(start);
            let high = (from + len).min(start + PAGE);
            let over = &mut self.record.main_mut()[(low - start) as usize..(high - start) as usize];
            data.lay((low - from) as usize, over);
            self.program(self.tag(ino, index));
        }
        if self.meta.dirty() > FEW_DIRTY {
            self.commit();
        }
        self.install(ino, from + len);
        Ok(())
    }

    /// The file gets the pages of the line at hand, and at least this size.
    fn install(&mut self, ino: u32, end: u64) {
        for place in 0..self.flight.len() {
            let (at, tag) = self.flight[place];
            let had = self.put_pointer(ino, tag.index, at);
            if had.is_none() {
                self.data += 1;
            } else {
                self.freeing.push(had);
            }
        }
        self.flight.clear();
        let size = self.meta.node(ino).size().max(end);
        put_u64(self.meta.node_mut(ino), 8, size);
    }

    /// Hands the bytes of a file from an offset on, at most so many, on in pieces.
    pub fn read(&mut self, path: Path, from: u64, len: u32, mut piece: impl FnMut(&[u8])) -> Done {
        let ino = self.find_file(path)?;
        let end = self
            .meta
            .node(ino)
            .size()
            .min(from.saturating_add(u64::from(len)));
        let mut at = from;
        while at < end {
            self.read_page(ino, (at / PAGE) as u32);
            let offset = at % PAGE;
            let count = (PAGE - offset).min(end - at);
            piece(&self.record.main()[offset as usize..(offset + count) as usize]);
            at += count;
        }
        Ok(())
    }

    /// Gives a file a size. What is behind it goes.
    pub fn truncate(&mut self, path: Path, size: u64) -> Done {
        let ino = self.find_file(path)?;
        if size > MOST {
            return Err(Refusal::FileTooBig);
        }
        let (end, offset) = ((size / PAGE) as u32, (size % PAGE) as usize);
        if self.meta.node(ino).size() > size && offset != 0 && self.read_page(ino, end) {
            self.record.main_mut()[offset..].fill(0);
            self.program(self.tag(ino, end));
        }
        if self.meta.dirty() > FEW_DIRTY {
            self.commit();
        }
        let first = size.div_ceil(PAGE) as u32;
        self.gather(ino, first);
        if let Some((at, tag)) = self.flight.pop() {
            let had = self.put_pointer(ino, tag.index, at);
            self.freeing.push(had);
        }
        self.cut(ino, first);
        put_u64(self.meta.node_mut(ino), 8, size);
        Ok(())
    }

    /// The pages of a file from an index on await their free.
    pub fn gather(&mut self, ino: u32, from: u32) {
        let before = self.freeing.len();
        self.meta
            .each_pointer(ino, from, |_, pointer| self.freeing.push(pointer));
        self.data -= (self.freeing.len() - before) as u32;
    }

    /// Takes the pointers of a file from an index on away, and the pages of ranges that have none then.
    fn cut(&mut self, ino: u32, from: u32) {
        let mut range = 0;
        if from < DIRECT {
            let pointers = Node::POINTERS + Pointer::WIDTH * from as usize..Node::ADDRESSES;
            self.meta.node_mut(ino)[pointers].fill(0);
        } else {
            range = (from - DIRECT) / SLOTS;
            let address = if range < 16 {
                self.meta.node(ino).address(range)
            } else {
                0
            };
            let slot = slot_at(from);
            if address != 0 && !is_zero(&self.meta.page(address)[..slot]) {
                self.meta.page_mut(address)[slot..].fill(0);
                range += 1;
            }
        }
        for place in range..16 {
            let address = self.meta.node(ino).address(place);
            if address != 0 {
                self.pool.give(address - self.shape.pool_at());
                put_u32(
                    self.meta.node_mut(ino),
                    Node::ADDRESSES + 4 * place as usize,
                    0,
                );
            }
        }
    }
}
