//! One pass over all pages of a medium, and what an opening takes from it.

use crate::fail;
use crate::image::{Found, Image, Record};
use crate::numbers::{Owner, Pointer, Shape, Spare, Tag, MAIN, NO_PAGE};
use crate::virtuals::{Place, NOWHERE};
use std::collections::hash_map::Entry;
use std::collections::HashMap;
use std::hash::{BuildHasherDefault, Hasher};

/// Spreads the bits of a sequence number.
#[derive(Default)]
struct Spread(u64);

impl Hasher for Spread {
    fn finish(&self) -> u64 {
        self.0
    }

    fn write(&mut self, bytes: &[u8]) {
        bytes
            .iter()
            .for_each(|byte| self.write_u64(u64::from(*byte)));
    }

    fn write_u64(&mut self, number: u64) {
        self.0 = (self.0.rotate_left(5) ^ number)
            .wrapping_mul(0x9e37_79b9_7f4a_7c15)
            .rotate_left(26);
    }
}

/// The readable pages of a segment that have one sequence number.
struct Copies {
    first: u32,
    /// The least page in another block than the first, or none.
    apart: u32,
    owner: Owner,
    /// Where the zeros at the end of the main bytes begin.
    zeros: u32,
    /// Whether the number is that of a pointer that was seen.
    taken: bool,
}

type ByStamp = HashMap<u64, Copies, BuildHasherDefault<Spread>>;

/// A readable page of the virtual segment.
struct Own {
    page: u32,
    address: u32,
    stamp: u64,
}

pub struct Scan {
    shape: Shape,
    /// How many pages are readable, and the greatest sequence number on one.
    pub readable: u32,
    pub greatest: u64,
    /// Of each block, whether not all of its pages are erased, and the greatest wear on a readable page.
    pub blocks: Vec<(bool, u32)>,
    virtuals: Vec<Own>,
    virtual_stamps: ByStamp,
    file_stamps: ByStamp,
    /// By page of the physical segment its sequence number, 0 where it is not readable.
    stamps: Vec<u64>,
    /// In each segment the first page that differs from an earlier one of its number.
    virtual_apart: Option<u32>,
    file_apart: Option<u32>,
}

/// Where the zeros at the end of main bytes begin.
fn zeros_of(main: &[u8]) -> u32 {
    let mut end = MAIN;
    while end > 0 && main[end - 64..end].iter().all(|byte| *byte == 0) {
        end -= 64;
    }
    main[..end]
        .iter()
        .rposition(|byte| *byte != 0)
        .map_or(0, |at| at as u32 + 1)
}

/// Reads all pages, in rising order. One whose number came before in its segment is compared with the first of these, which
/// is read again.
pub fn scan(image: &Image, shape: &Shape) -> Scan {
    let mut scan = Scan {
        shape: *shape,
        readable: 0,
        greatest: 0,
        blocks: vec![(false, 0); shape.blocks as usize],
        virtuals: Vec::new(),
        virtual_stamps: HashMap::default(),
        file_stamps: HashMap::default(),
        stamps: vec![0; (shape.pblocks * shape.pages) as usize],
        virtual_apart: None,
        file_apart: None,
    };
    let (mut record, mut other) = (Record::new(), Record::new());
    for page in 0..shape.blocks * shape.pages {
        let found = image.read(page, &mut record);
        if found == Found::Erased {
            continue;
        }
        let block = &mut scan.blocks[(page / shape.pages) as usize];
        block.0 = true;
        let Some(spare) = record.spare().filter(|_| found == Found::Written) else {
            continue;
        };
        block.1 = block.1.max(spare.wear);
        scan.readable += 1;
        scan.greatest = scan.greatest.max(spare.stamp);
        scan.note(image, page, spare, &record, &mut other);
    }
    scan
}

impl Scan {
    fn note(
        &mut self,
        image: &Image,
        page: u32,
        spare: Spare,
        record: &Record,
        other: &mut Record,
    ) {
        let is_virtual = page < self.shape.files_at();
        let (by_stamp, apart) = match spare.owner {
            Owner::Address(address) if is_virtual && address < self.shape.vaddrs => {
                self.virtuals.push(Own {
                    page,
                    address,
                    stamp: spare.stamp,
                });
                (&mut self.virtual_stamps, &mut self.virtual_apart)
            }
            Owner::File(_) if !is_virtual => {
                self.stamps[(page - self.shape.files_at()) as usize] = spare.stamp;
                (&mut self.file_stamps, &mut self.file_apart)
            }
            _ => return,
        };
        match by_stamp.entry(spare.stamp) {
            Entry::Vacant(place) => {
                let zeros = if is_virtual {
                    0
                } else {
                    zeros_of(record.main())
                };
                place.insert(Copies {
                    first: page,
                    apart: NO_PAGE,
                    owner: spare.owner,
                    zeros,
                    taken: false,
                });
            }
            Entry::Occupied(mut place) => {
                let copies = place.get_mut();
                let read = image.read(copies.first, other) == Found::Written;
                if !read || copies.owner != spare.owner || other.main() != record.main() {
                    apart.get_or_insert(page);
                }
                if copies.apart == NO_PAGE
                    && page / self.shape.pages != copies.first / self.shape.pages
                {
                    copies.apart = page;
                }
            }
        }
    }

    /// The first page at fault by its sequence number, of the virtual segment first.
    pub fn stamp_fault(&self) -> Option<u32> {
        self.virtual_apart.or(self.file_apart)
    }

    /// The pages of the virtual segment that have the greatest number of their address.
    fn newest(&self) -> impl Iterator<Item = &Own> {
        let mut greatest = vec![0; self.shape.vaddrs as usize];
        for own in &self.virtuals {
            let most: &mut u64 = &mut greatest[own.address as usize];
            *most = own.stamp.max(*most);
        }
        self.virtuals
            .iter()
            .filter(move |own| own.stamp == greatest[own.address as usize])
    }

    /// The least block of the virtual segment without which each address has its newest page.
    pub fn virtual_spare(&self) -> Option<u32> {
        const SEVERAL: u32 = NO_PAGE - 1;
        let mut blocks = vec![NO_PAGE; self.shape.vaddrs as usize];
        for own in self.newest() {
            let (at, block) = (
                &mut blocks[own.address as usize],
                own.page / self.shape.pages,
            );
            *at = if *at == NO_PAGE || *at == block {
                block
            } else {
                SEVERAL
            };
        }
        let mut alone = vec![false; self.shape.vblocks as usize];
        for block in blocks.into_iter().filter(|block| *block < SEVERAL) {
            alone[block as usize] = true;
        }
        alone.iter().position(|it| !it).map(|at| at as u32)
    }

    /// The place of each address: its newest page, outside the spare block where it can be.
    pub fn places(&self) -> Vec<Place> {
        let spare = self.virtual_spare();
        let mut places = vec![NOWHERE; self.shape.vaddrs as usize];
        for own in self.newest() {
            let at = &mut places[own.address as usize];
            let in_spare = |page: u32| Some(page / self.shape.pages) == spare;
            if at.page == NO_PAGE || in_spare(at.page) && !in_spare(own.page) {
                *at = Place {
                    page: own.page,
                    stamp: own.stamp,
                };
            }
        }
        places
    }

    /// Notes a pointer of a file of this size. False where its number came before, or no page has the number and the tag, or
    /// one that has is not zero behind the file's size.
    pub fn take(&mut self, at: Pointer, tag: Tag, size: u64) -> bool {
        let Some(copies) = self.file_stamps.get_mut(&at.stamp) else {
            return false;
        };
        let is_new = !std::mem::replace(&mut copies.taken, true);
        let room = size.saturating_sub(MAIN as u64 * u64::from(tag.index));
        is_new && copies.owner == Owner::File(tag) && u64::from(copies.zeros) <= room
    }

    /// The number on the page of a name, 0 where it is not readable.
    pub fn stamp_of(&self, name: u32) -> u64 {
        self.stamps[(name - self.shape.files_at()) as usize]
    }

    /// The least block of the physical segment without which each pointer that was noted has its page.
    pub fn file_spare(&self) -> Option<u32> {
        let mut alone = vec![false; self.shape.pblocks as usize];
        for copies in self
            .file_stamps
            .values()
            .filter(|copies| copies.taken && copies.apart == NO_PAGE)
        {
            alone[(copies.first / self.shape.pages - self.shape.vblocks) as usize] = true;
        }
        alone
            .iter()
            .position(|it| !it)
            .map(|at| self.shape.vblocks + at as u32)
    }

    /// The place of a pointer that was noted: its name, or else the least page of its number, outside the spare block.
    pub fn place_of(&self, at: Pointer, spare: u32) -> u32 {
        let in_spare = |page: u32| page / self.shape.pages == spare;
        if self.stamp_of(at.name) == at.stamp && !in_spare(at.name) {
            return at.name;
        }
        let copies = self.file_stamps.get(&at.stamp).unwrap_or_else(|| fail());
        if in_spare(copies.first) {
            copies.apart
        } else {
            copies.first
        }
    }
}
