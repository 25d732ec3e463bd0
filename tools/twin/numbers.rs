//! The numbers of a volume, and its records as bytes, as docs/FORMATS.md has them.

/// Main bytes of a page.
pub const MAIN: usize = 4096;
/// Spare bytes of a page.
pub const SPARE: usize = 64;
/// The most bytes of a file.
pub const MOST: u64 = 16_809_984;
/// Page indexes of a file that its node has.
pub const DIRECT: u32 = 8;
/// Pointers of an indirect page.
pub const SLOTS: u32 = 256;
/// Page indexes of a file.
pub const INDEXES: u32 = DIRECT + 16 * SLOTS;
/// The address of the first inode page.
pub const NODES_AT: u32 = 67;
/// Stands for no page.
pub const NO_PAGE: u32 = u32::MAX;

const LAST: u64 = (1 << 63) - 1;

/// The numbers of a volume.
#[derive(Clone, Copy)]
pub struct Shape {
    pub blocks: u32,
    pub pages: u32,
    pub nodes: u32,
    pub inode_pages: u32,
    pub meta: u32,
    pub vaddrs: u32,
    pub vblocks: u32,
    pub pblocks: u32,
    pub cap: u32,
}

impl Shape {
    /// The numbers that follow from these two, if they are legal.
    pub fn of(blocks: u32, pages: u32) -> Option<Shape> {
        if !(32..=4096).contains(&blocks)
            || !(32..=256).contains(&pages)
            || blocks * pages > 262_144
        {
            return None;
        }
        let nodes = blocks * pages / 16;
        let inode_pages = nodes.div_ceil(16);
        let meta = blocks * pages / 32;
        let vaddrs = NODES_AT + inode_pages + meta;
        let vblocks = vaddrs.div_ceil(pages) + 4;
        let pblocks = blocks - vblocks;
        let cap = (pblocks - 4) * pages - 160;
        Some(Shape {
            blocks,
            pages,
            nodes,
            inode_pages,
            meta,
            vaddrs,
            vblocks,
            pblocks,
            cap,
        })
    }

    /// The first address of the metadata pool.
    pub fn pool_at(&self) -> u32 {
        NODES_AT + self.inode_pages
    }

    /// The first page of the physical segment.
    pub fn files_at(&self) -> u32 {
        self.vblocks * self.pages
    }
}

pub fn u32_at(bytes: &[u8], at: usize) -> u32 {
    u32::from_le_bytes(bytes[at..at + 4].try_into().unwrap())
}

pub fn u64_at(bytes: &[u8], at: usize) -> u64 {
    u64::from_le_bytes(bytes[at..at + 8].try_into().unwrap())
}

pub fn put_u32(bytes: &mut [u8], at: usize, number: u32) {
    bytes[at..at + 4].copy_from_slice(&number.to_le_bytes());
}

pub fn put_u64(bytes: &mut [u8], at: usize, number: u64) {
    bytes[at..at + 8].copy_from_slice(&number.to_le_bytes());
}

pub fn is_zero(bytes: &[u8]) -> bool {
    bytes.iter().all(|byte| *byte == 0)
}

fn is_stamp(stamp: u64) -> bool {
    (1..=LAST).contains(&stamp)
}

/// A page under a name, with the sequence number that it was written under. Both are 0 for none.
#[derive(Clone, Copy, PartialEq, Eq)]
pub struct Pointer {
    pub name: u32,
    pub stamp: u64,
}

pub const NONE: Pointer = Pointer { name: 0, stamp: 0 };

impl Pointer {
    pub const WIDTH: usize = 16;

    pub fn at(bytes: &[u8], at: usize) -> Pointer {
        Pointer {
            name: u32_at(bytes, at),
            stamp: u64_at(bytes, at + 8),
        }
    }

    pub fn put(self, bytes: &mut [u8], at: usize) {
        put_u32(bytes, at, self.name);
        put_u32(bytes, at + 4, 0);
        put_u64(bytes, at + 8, self.stamp);
    }

    pub fn is_none(self) -> bool {
        self.stamp == 0
    }

    /// The pointer in 16 bytes, if they spell none or one that names a page of the physical segment.
    pub fn spelled(bytes: &[u8], at: usize, shape: &Shape) -> Option<Pointer> {
        let pointer = Pointer::at(bytes, at);
        if pointer == NONE {
            return if u32_at(bytes, at + 4) == 0 {
                Some(NONE)
            } else {
                None
            };
        }
        let names = shape.files_at()..shape.blocks * shape.pages;
        let fits =
            is_stamp(pointer.stamp) && names.contains(&pointer.name) && u32_at(bytes, at + 4) == 0;
        fits.then_some(pointer)
    }
}

/// Whose page of a file it is.
#[derive(Clone, Copy, PartialEq, Eq)]
pub struct Tag {
    pub ino: u32,
    pub generation: u32,
    pub index: u32,
}

pub const NO_TAG: Tag = Tag {
    ino: 0,
    generation: 0,
    index: 0,
};

/// What a page is the page of.
#[derive(Clone, Copy, PartialEq, Eq)]
pub enum Owner {
    Address(u32),
    File(Tag),
}

/// The record in the spare bytes of a page.
#[derive(Clone, Copy)]
pub struct Spare {
    pub owner: Owner,
    pub stamp: u64,
    pub wear: u32,
}

impl Spare {
    /// The record that spare bytes spell.
    pub fn of(bytes: &[u8]) -> Option<Spare> {
        let (wear, stamp, first) = (u32_at(bytes, 4), u64_at(bytes, 8), u32_at(bytes, 16));
        let (owner, end) = match bytes[0] {
            1 => (Owner::Address(first), 20),
            2 => {
                let tag = Tag {
                    ino: first,
                    generation: u32_at(bytes, 20),
                    index: u32_at(bytes, 24),
                };
                (Owner::File(tag), 28)
            }
            _ => return None,
        };
        if !is_stamp(stamp) || !is_zero(&bytes[1..4]) || !is_zero(&bytes[end..]) {
            return None;
        }
        Some(Spare { owner, stamp, wear })
    }

    pub fn put(&self, bytes: &mut [u8]) {
        bytes.fill(0);
        put_u32(bytes, 4, self.wear);
        put_u64(bytes, 8, self.stamp);
        match self.owner {
            Owner::Address(address) => {
                bytes[0] = 1;
                put_u32(bytes, 16, address);
            }
            Owner::File(tag) => {
                bytes[0] = 2;
                put_u32(bytes, 16, tag.ino);
                put_u32(bytes, 20, tag.generation);
                put_u32(bytes, 24, tag.index);
            }
        }
    }
}

/// The super page after so many calls.
pub fn put_super(main: &mut [u8], shape: &Shape, count: u64) {
    main.fill(0);
    main[..8].copy_from_slice(b"NAMELESS");
    put_u32(main, 8, 1);
    put_u32(main, 12, shape.blocks);
    put_u32(main, 16, shape.pages);
    put_u64(main, 24, count);
}

/// The count of calls on a super page of this volume.
pub fn super_count(main: &[u8], shape: &Shape) -> Option<u64> {
    let count = u64_at(main, 24);
    let numbers = [
        u32_at(main, 8),
        u32_at(main, 12),
        u32_at(main, 16),
        u32_at(main, 20),
    ];
    let fits = &main[..8] == b"NAMELESS" && numbers == [1, shape.blocks, shape.pages, 0];
    (fits && count <= LAST && is_zero(&main[32..])).then_some(count)
}

/// The header of a transaction.
pub fn put_header(main: &mut [u8], number: u64, addresses: &[u32]) {
    main.fill(0);
    main[..8].copy_from_slice(b"NLHEADER");
    put_u64(main, 8, number);
    put_u32(main, 16, addresses.len() as u32);
    for (place, address) in addresses.iter().enumerate() {
        put_u32(main, 24 + 4 * place, *address);
    }
}

/// Number and addresses of a header of a volume with so many addresses.
pub fn header_of(main: &[u8], vaddrs: u32) -> Option<(u64, Vec<u32>)> {
    let (number, count) = (u64_at(main, 8), u32_at(main, 16) as usize);
    if &main[..8] != b"NLHEADER"
        || !is_stamp(number)
        || !(1..=64).contains(&count)
        || u32_at(main, 20) != 0
    {
        return None;
    }
    let addresses: Vec<u32> = (0..count)
        .map(|place| u32_at(main, 24 + 4 * place))
        .collect();
    let rise = addresses.windows(2).all(|two| two[0] < two[1]);
    let home = addresses
        .iter()
        .all(|at| *at == 0 || (NODES_AT..vaddrs).contains(at));
    (rise && home && is_zero(&main[24 + 4 * count..])).then_some((number, addresses))
}

/// The commit page of a transaction.
pub fn put_commit(main: &mut [u8], number: u64) {
    main.fill(0);
    main[..8].copy_from_slice(b"NLCOMMIT");
    put_u64(main, 8, number);
}

/// The number on a commit page.
pub fn commit_of(main: &[u8]) -> Option<u64> {
    let number = u64_at(main, 8);
    (&main[..8] == b"NLCOMMIT" && is_stamp(number) && is_zero(&main[16..])).then_some(number)
}

/// What a node is.
pub const UNUSED: u8 = 0;
pub const FILE: u8 = 1;
pub const DIR: u8 = 2;

/// The record of a node, as its 256 bytes have it.
#[derive(Clone, Copy)]
pub struct Node<'a>(pub &'a [u8]);

impl Node<'_> {
    pub const WIDTH: usize = 256;
    pub const POINTERS: usize = 64;
    pub const ADDRESSES: usize = 192;

    pub fn kind(self) -> u8 {
        self.0[0]
    }

    pub fn generation(self) -> u32 {
        u32_at(self.0, 4)
    }

    /// Bytes of a file, entries of a directory.
    pub fn size(self) -> u64 {
        u64_at(self.0, 8)
    }

    pub fn pointer(self, index: u32) -> Pointer {
        Pointer::at(self.0, Node::POINTERS + Pointer::WIDTH * index as usize)
    }

    /// The address at one of the sixteen places, 0 for none.
    pub fn address(self, place: u32) -> u32 {
        u32_at(self.0, Node::ADDRESSES + 4 * place as usize)
    }

    pub fn addresses(self) -> [u32; 16] {
        std::array::from_fn(|place| self.address(place as u32))
    }

    /// Whether the bytes spell a node whose pointers name pages of the physical segment.
    pub fn is_spelled(self, shape: &Shape) -> bool {
        let bytes = self.0;
        if !is_zero(&bytes[1..4]) || !is_zero(&bytes[16..Node::POINTERS]) {
            return false;
        }
        match self.kind() {
            UNUSED => is_zero(&bytes[8..]),
            FILE => {
                let spelled = |at| {
                    Pointer::spelled(bytes, Node::POINTERS + Pointer::WIDTH * at, shape).is_some()
                };
                self.size() <= MOST && (0..DIRECT as usize).all(spelled)
            }
            DIR => {
                let filled = self.size().div_ceil(64) as u32;
                self.size() <= 1024
                    && is_zero(&bytes[Node::POINTERS..Node::ADDRESSES])
                    && (0..16).all(|place| (self.address(place) != 0) == (place < filled))
            }
            _ => false,
        }
    }
}

/// An entry of a directory, as its 64 bytes have it.
#[derive(Clone, Copy)]
pub struct Entry<'a>(pub &'a [u8]);

impl<'a> Entry<'a> {
    pub const WIDTH: usize = 64;

    pub fn ino(self) -> u32 {
        u32_at(self.0, 0)
    }

    pub fn generation(self) -> u32 {
        u32_at(self.0, 4)
    }

    pub fn name(self) -> &'a [u8] {
        &self.0[9..9 + self.0[8] as usize]
    }

    pub fn is_spelled(self) -> bool {
        let length = self.0[8] as usize;
        if !(1..=55).contains(&length) || !is_zero(&self.0[9 + length..]) {
            return false;
        }
        let name = self.name();
        name != b"."
            && name != b".."
            && name
                .iter()
                .all(|byte| *byte > 0x20 && *byte != 0x7f && *byte != b'/')
    }
}

/// The bytes of an entry.
pub fn entry(ino: u32, generation: u32, name: &[u8]) -> [u8; Entry::WIDTH] {
    let mut bytes = [0; Entry::WIDTH];
    put_u32(&mut bytes, 0, ino);
    put_u32(&mut bytes, 4, generation);
    bytes[8] = name.len() as u8;
    bytes[9..9 + name.len()].copy_from_slice(name);
    bytes
}
