//! The virtual segment: pages by address in the first blocks. Each write goes to a new page, and the segment cleans its
//! own blocks. Some block holds no page of an address, so it can always be done.

use crate::blocks::{Blocks, State};
use crate::fail;
use crate::image::{Found, Image, Record};
use crate::numbers::{Owner, Shape, Spare, NO_PAGE};

/// The page of an address, and the number that it was written under.
#[derive(Clone, Copy)]
pub struct Place {
    pub page: u32,
    pub stamp: u64,
}

pub const NOWHERE: Place = Place {
    page: NO_PAGE,
    stamp: 0,
};

pub struct Virtuals {
    pub places: Vec<Place>,
    pub blocks: Blocks,
    /// The block that is written to, where it is Active.
    active: u32,
    record: Record,
}

/// Reads the page of an address at its place.
fn read_at(image: &Image, address: u32, place: Place, into: &mut Record) {
    let found = image.read(place.page, into);
    let holds = |spare: Spare| spare.owner == Owner::Address(address) && spare.stamp == place.stamp;
    if found != Found::Written || !into.spare().is_some_and(holds) {
        fail();
    }
}

impl Virtuals {
    /// No address has a page, and every block is Free.
    pub fn new(shape: &Shape) -> Virtuals {
        Virtuals {
            places: vec![NOWHERE; shape.vaddrs as usize],
            blocks: Blocks::new(0, shape.vblocks, shape.pages),
            active: 0,
            record: Record::new(),
        }
    }

    /// Reads the page of an address, if it has one.
    pub fn read(&self, image: &Image, address: u32, into: &mut Record) -> bool {
        let place = self.places[address as usize];
        if place.page == NO_PAGE {
            return false;
        }
        read_at(image, address, place, into);
        true
    }

    /// Gives an address the main bytes of a record, under a number.
    pub fn write(&mut self, image: &mut Image, address: u32, from: &mut Record, stamp: u64) {
        self.make_room(image);
        let wear = self.blocks.at(self.active).wear;
        let page = self.blocks.use_next(self.active);
        from.set_spare(&Spare {
            owner: Owner::Address(address),
            stamp,
            wear,
        });
        image.program(page, from);
        self.places[address as usize] = Place { page, stamp };
    }

    /// Sees to it that the active block has a page that is not used, and another block is Free.
    fn make_room(&mut self, image: &mut Image) {
        if self.blocks.has_next(self.active, State::Active) && self.blocks.free() > 0 {
            return;
        }
        if self.blocks.at(self.active).state != State::Free {
            self.blocks.set_state(self.active, State::Sealed);
        }
        if self.blocks.free() == 0 {
            let block = self.choose();
            self.erase(image, block);
        }
        if self.blocks.free() < 2 {
            self.clean(image);
        } else {
            self.start(image);
        }
    }

    /// Makes a Free block the active one, and erases it first where that is due.
    fn start(&mut self, image: &mut Image) {
        self.active = self.blocks.take(State::Active);
        if self.blocks.at(self.active).soiled {
            image.erase(self.active);
            self.blocks.erased(self.active);
        }
    }

    fn erase(&mut self, image: &mut Image, block: u32) {
        image.erase(block);
        self.blocks.erased(block);
        self.blocks.set_state(block, State::Free);
    }

    /// The block in use with the fewest pages of addresses.
    fn choose(&mut self) -> u32 {
        for block in self.blocks.numbers() {
            if self.blocks.at(block).state != State::Free {
                self.blocks.set_state(block, State::Sealed);
            }
            self.blocks.at_mut(block).live = 0;
        }
        for place in self.places.iter().filter(|place| place.page != NO_PAGE) {
            self.blocks.of_page(place.page).live += 1;
        }
        self.blocks.most_dead().expect("a block with a dead page")
    }

    /// Copies the pages of that block that addresses have to a Free one, and erases it.
    fn clean(&mut self, image: &mut Image) {
        let victim = self.choose();
        self.start(image);
        let wear = self.blocks.at(self.active).wear;
        let pages = victim * self.blocks.pages()..(victim + 1) * self.blocks.pages();
        for address in 0..self.places.len() {
            let place = self.places[address];
            if !pages.contains(&place.page) {
                continue;
            }
            read_at(image, address as u32, place, &mut self.record);
            let to = self.blocks.use_next(self.active);
            self.record.set_spare(&Spare {
                owner: Owner::Address(address as u32),
                stamp: place.stamp,
                wear,
            });
            image.program(to, &self.record);
            self.places[address].page = to;
        }
        self.erase(image, victim);
    }
}
