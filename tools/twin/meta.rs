//! The metadata pages in memory, by address: those that run, those that changed since the last transaction began, and
//! the images of the transaction that is being written.

use crate::image::Record;
use crate::numbers::{u32_at, Node, Pointer, DIRECT, MAIN, NODES_AT, SLOTS};

static ZEROS: [u8; MAIN] = [0; MAIN];

/// The most pages that may be dirty, besides the super page.
const MOST_DIRTY: usize = 63;

pub struct Meta {
    /// A page that is not here reads as zeros.
    pages: Vec<Option<Box<[u8; MAIN]>>>,
    /// Rising addresses.
    dirty: Vec<u32>,
    /// The addresses of the images, rising.
    frozen: Vec<u32>,
    images: Vec<Record>,
}

impl Meta {
    /// No page of so many addresses.
    pub fn new(vaddrs: u32) -> Meta {
        let pages = (0..vaddrs).map(|_| None).collect();
        Meta {
            pages,
            dirty: Vec::new(),
            frozen: Vec::new(),
            images: Vec::new(),
        }
    }

    pub fn is_resident(&self, address: u32) -> bool {
        self.pages[address as usize].is_some()
    }

    pub fn page(&self, address: u32) -> &[u8; MAIN] {
        self.pages[address as usize].as_deref().unwrap_or(&ZEROS)
    }

    /// The page of an address, to be changed: it is dirty from now on.
    pub fn page_mut(&mut self, address: u32) -> &mut [u8; MAIN] {
        if let Err(place) = self.dirty.binary_search(&address) {
            self.dirty.insert(place, address);
        }
        self.pages[address as usize].get_or_insert_with(|| Box::new(ZEROS))
    }

    /// The page of an address becomes a dirty one of zeros.
    pub fn fresh(&mut self, address: u32) -> &mut [u8; MAIN] {
        let page = self.page_mut(address);
        page.fill(0);
        page
    }

    /// Makes a page resident as it was read.
    pub fn load(&mut self, address: u32, main: &[u8]) {
        self.pages[address as usize] = Some(Box::new(main.try_into().unwrap()));
    }

    pub fn dirty(&self) -> usize {
        self.dirty.len()
    }

    /// Whether the page of an address may become dirty, or is.
    pub fn has_room(&self, address: u32) -> bool {
        let others = self.dirty.len() - usize::from(self.dirty.first() == Some(&0));
        address == 0 || others < MOST_DIRTY || self.dirty.binary_search(&address).is_ok()
    }

    /// The dirty pages become the images of a transaction, and none is dirty.
    pub fn freeze(&mut self) {
        std::mem::swap(&mut self.frozen, &mut self.dirty);
        self.dirty.clear();
        for place in 0..self.frozen.len() {
            let page = self.pages[self.frozen[place] as usize]
                .as_deref()
                .unwrap_or(&ZEROS);
            if place == self.images.len() {
                self.images.push(Record::new());
            }
            self.images[place].main_mut().copy_from_slice(page);
        }
    }

    /// One more image of a transaction that an opening found, which is the running page too.
    pub fn restore(&mut self, address: u32, image: Record) {
        self.load(address, image.main());
        self.frozen.push(address);
        self.images.push(image);
    }

    /// No page is resident, and there are no images.
    pub fn clear(&mut self) {
        *self = Meta::new(self.pages.len() as u32);
    }

    /// The addresses of the images.
    pub fn frozen(&self) -> &[u32] {
        &self.frozen
    }

    /// The image at a place, to be written.
    pub fn image(&mut self, place: usize) -> &mut Record {
        &mut self.images[place]
    }

    /// The transaction has ended.
    pub fn thaw(&mut self) {
        self.frozen.clear();
    }

    pub fn node(&self, ino: u32) -> Node<'_> {
        let at = Node::WIDTH * (ino as usize % 16);
        Node(&self.page(NODES_AT + ino / 16)[at..at + Node::WIDTH])
    }

    /// The bytes of a node, to be changed.
    pub fn node_mut(&mut self, ino: u32) -> &mut [u8] {
        let at = Node::WIDTH * (ino as usize % 16);
        &mut self.page_mut(NODES_AT + ino / 16)[at..at + Node::WIDTH]
    }

    /// The address of the page that has the pointer of an index of a file: 0 where the node has it, or no page has.
    pub fn range_address(&self, ino: u32, index: u32) -> u32 {
        if index < DIRECT {
            return 0;
        }
        self.node(ino).address((index - DIRECT) / SLOTS)
    }

    /// The pointer of an index of a file.
    pub fn pointer(&self, ino: u32, index: u32) -> Pointer {
        if index < DIRECT {
            return self.node(ino).pointer(index);
        }
        let address = self.node(ino).address((index - DIRECT) / SLOTS);
        // Address 0 is that of the super page, and no range has it.
        if address == 0 {
            return crate::numbers::NONE;
        }
        Pointer::at(
            self.page(address),
            Pointer::WIDTH * ((index - DIRECT) % SLOTS) as usize,
        )
    }

    /// The pointers of a file from an index on, with their indexes.
    pub fn each_pointer(&self, ino: u32, from: u32, mut each: impl FnMut(u32, Pointer)) {
        let node = self.node(ino);
        for index in from..DIRECT {
            let pointer = node.pointer(index);
            if !pointer.is_none() {
                each(index, pointer);
            }
        }
        for range in from.saturating_sub(DIRECT) / SLOTS..16 {
            let address = u32_at(node.0, Node::ADDRESSES + 4 * range as usize);
            if address == 0 {
                continue;
            }
            let (page, first) = (self.page(address), DIRECT + SLOTS * range);
            for slot in from.saturating_sub(first)..SLOTS {
                let pointer = Pointer::at(page, Pointer::WIDTH * slot as usize);
                if !pointer.is_none() {
                    each(first + slot, pointer);
                }
            }
        }
    }
}
