//! The physical segment: pages of files under names that it picks, in the blocks behind the virtual ones. It moves live
//! pages so that a block can be erased. A name whose page was moved leads to the new place, and a callback tells of it,
//! until a transaction has committed that stores the new name.

use crate::blocks::{Blocks, State};
use crate::fail;
use crate::image::{Found, Image, Record};
use crate::numbers::{Owner, Pointer, Shape, Spare, Tag, NO_TAG};
use std::collections::{BTreeMap, BTreeSet};

/// What a live page holds. No page has number 0.
#[derive(Clone, Copy)]
struct Held {
    tag: Tag,
    stamp: u64,
}

const DEAD: Held = Held {
    tag: NO_TAG,
    stamp: 0,
};

/// Where an old name leads, and the callback of the move that made it one.
#[derive(Clone, Copy)]
pub struct Moved {
    pub to: u32,
    pub tag: Tag,
    pub stamp: u64,
    number: u64,
    /// The transaction that stores the new name, 0 where the callback was not handled.
    transaction: u64,
}

pub struct Files {
    pub blocks: Blocks,
    first: u32,
    held: Vec<Held>,
    /// The block that is written to, where it is Active.
    active: u32,
    /// The block that copies are written to, where it is a Target.
    target: u32,
    /// The block whose live pages are moved away.
    victim: Option<u32>,
    /// Where in the victim its last live page was found.
    looked: u32,
    moved: BTreeMap<u32, Moved>,
    /// The old names by the page to which they lead.
    leading: BTreeSet<(u32, u32)>,
    /// The old names of callbacks that were not handled, by number.
    waiting: BTreeMap<u64, u32>,
    posted: u64,
}

impl Files {
    /// No page is live, and every block is Free.
    pub fn new(shape: &Shape) -> Files {
        Files {
            blocks: Blocks::new(shape.vblocks, shape.pblocks, shape.pages),
            first: shape.files_at(),
            held: vec![DEAD; (shape.pblocks * shape.pages) as usize],
            active: shape.vblocks,
            target: shape.vblocks,
            victim: None,
            looked: 0,
            moved: BTreeMap::new(),
            leading: BTreeSet::new(),
            waiting: BTreeMap::new(),
            posted: 0,
        }
    }

    fn held(&self, page: u32) -> Held {
        self.held[(page - self.first) as usize]
    }

    /// A page that is used holds this from now on.
    fn hold(&mut self, page: u32, held: Held) {
        self.held[(page - self.first) as usize] = held;
        self.blocks.of_page(page).live += 1;
    }

    fn end(&mut self, page: u32) {
        self.held[(page - self.first) as usize] = DEAD;
        self.blocks.of_page(page).live -= 1;
    }

    /// The page to which a name leads.
    pub fn resolve(&self, name: u32) -> u32 {
        self.moved.get(&name).map_or(name, |moved| moved.to)
    }

    /// The live page to which a pointer leads.
    fn place_of(&self, at: Pointer) -> Option<u32> {
        let page = self.resolve(at.name);
        (self.held(page).stamp == at.stamp).then_some(page)
    }

    /// Serves an opening: the page of a pointer is live at this place.
    pub fn load(&mut self, at: Pointer, tag: Tag, page: u32) {
        let block = page / self.blocks.pages();
        self.blocks.set_state(block, State::Sealed);
        self.hold(
            page,
            Held {
                tag,
                stamp: at.stamp,
            },
        );
        if at.name == page {
            return;
        }
        let block = at.name / self.blocks.pages();
        if self.blocks.at(block).state == State::Free {
            self.blocks.set_state(block, State::Waiting);
        }
        self.lead(at.name, page, tag, at.stamp);
    }

    /// The page of a name has moved: what led to it leads on, and a callback is posted.
    fn lead(&mut self, name: u32, to: u32, tag: Tag, stamp: u64) {
        while let Some(old) = self.name_of(name) {
            self.leading.remove(&(name, old));
            self.leading.insert((to, old));
            self.moved.get_mut(&old).expect("an old name").to = to;
        }
        self.posted += 1;
        self.moved.insert(
            name,
            Moved {
                to,
                tag,
                stamp,
                number: self.posted,
                transaction: 0,
            },
        );
        self.leading.insert((to, name));
        self.waiting.insert(self.posted, name);
        self.blocks.of_page(name).names += 1;
    }

    /// The least old name that leads to a page.
    fn name_of(&self, page: u32) -> Option<u32> {
        self.leading
            .range((page, 0)..=(page, u32::MAX))
            .next()
            .map(|(_, old)| *old)
    }

    /// The name is no old one any more, and its callback is gone. A block that waited for it alone is Free.
    fn drop_name(&mut self, name: u32) {
        let moved = self.moved.remove(&name).expect("an old name");
        self.leading.remove(&(moved.to, name));
        self.waiting.remove(&moved.number);
        let block = name / self.blocks.pages();
        let at = self.blocks.at_mut(block);
        at.names -= 1;
        if at.state == State::Waiting && at.names == 0 {
            self.blocks.set_state(block, State::Free);
        }
    }

    /// How many old names there are.
    pub fn pairs(&self) -> usize {
        self.moved.len()
    }

    /// The page to which a pointer leads is dead, where it is live.
    pub fn free(&mut self, at: Pointer) {
        let Some(page) = self.place_of(at) else {
            return;
        };
        while let Some(old) = self.name_of(page) {
            self.drop_name(old);
        }
        self.end(page);
    }

    /// Reads the page to which a pointer leads.
    pub fn read(&self, image: &Image, at: Pointer, tag: Tag, into: &mut Record) {
        let page = self.place_of(at).unwrap_or_else(|| fail());
        read_at(
            image,
            page,
            Held {
                tag,
                stamp: at.stamp,
            },
            into,
        );
    }

    /// Programs a page, and gives its name; none where a Free block is kept for the cleaner alone.
    pub fn write(
        &mut self,
        image: &mut Image,
        tag: Tag,
        from: &mut Record,
        stamp: u64,
    ) -> Option<u32> {
        if !self.blocks.has_next(self.active, State::Active) {
            if self.blocks.free() < 2 {
                return None;
            }
            self.active = self.take(image, State::Active);
        }
        let page = self.program(image, self.active, Held { tag, stamp }, from);
        Some(page)
    }

    /// Takes the least worn Free block, and erases it first where that is due.
    fn take(&mut self, image: &mut Image, state: State) -> u32 {
        let block = self.blocks.take(state);
        if self.blocks.at(block).soiled {
            image.erase(block);
            self.blocks.erased(block);
        }
        block
    }

    /// Programs the next page of a block.
    fn program(&mut self, image: &mut Image, block: u32, held: Held, from: &mut Record) -> u32 {
        let wear = self.blocks.at(block).wear;
        let page = self.blocks.use_next(block);
        from.set_spare(&Spare {
            owner: Owner::File(held.tag),
            stamp: held.stamp,
            wear,
        });
        image.program(page, from);
        self.hold(page, held);
        page
    }

    /// Makes a Sealed block the victim: the coldest one, or that with the most dead pages.
    pub fn begin(&mut self, cold: bool) -> bool {
        if self.victim.is_some()
            || self.pairs() > 2 * self.blocks.pages() as usize
            || self.blocks.free() == 0
        {
            return false;
        }
        let block = if cold {
            self.blocks.coldest()
        } else {
            self.blocks.most_dead()
        };
        let Some(block) = block else { return false };
        self.blocks.set_state(block, State::Victim);
        self.victim = Some(block);
        self.looked = 0;
        true
    }

    /// A live page of the victim.
    fn live_in(&mut self, victim: u32) -> Option<u32> {
        if self.blocks.at(victim).live == 0 {
            return None;
        }
        let pages = self.blocks.pages();
        let live = |place: &u32| self.held(victim * pages + place).stamp != 0;
        let place = (self.looked..pages)
            .find(live)
            .or_else(|| (0..self.looked).find(live))?;
        self.looked = place;
        Some(victim * pages + place)
    }

    /// Moves a live page of the victim, by way of this record; where no victim is in hand, begins one. False where there is
    /// nothing to do.
    pub fn copy(&mut self, image: &mut Image, record: &mut Record) -> bool {
        let begun = self.begin(false);
        let Some(victim) = self.victim else {
            return false;
        };
        let Some(before) = self.live_in(victim) else {
            return begun;
        };
        let held = self.held(before);
        read_at(image, before, held, record);
        if !self.blocks.has_next(self.target, State::Target) {
            self.target = self.take(image, State::Target);
        }
        let after = self.program(image, self.target, held, record);
        self.end(before);
        self.lead(before, after, held.tag, held.stamp);
        true
    }

    /// Erases a victim that has no live page. It waits where old names stand in it.
    pub fn erase_victim(&mut self, image: &mut Image) -> bool {
        let Some(victim) = self.victim else {
            return false;
        };
        if self.blocks.at(victim).live != 0 {
            return false;
        }
        image.erase(victim);
        self.blocks.erased(victim);
        let waits = self.blocks.at(victim).names != 0;
        self.blocks
            .set_state(victim, if waits { State::Waiting } else { State::Free });
        self.victim = None;
        true
    }

    /// The least callback that was not handled: its old name, and where that leads.
    pub fn waiting(&self) -> Option<(u32, Moved)> {
        let (_, name) = self.waiting.first_key_value()?;
        Some((*name, self.moved[name]))
    }

    /// A transaction is to store the new name of a callback that waits.
    pub fn handled(&mut self, name: u32, transaction: u64) {
        if let Some(moved) = self.moved.get_mut(&name) {
            self.waiting.remove(&moved.number);
            moved.transaction = transaction;
        }
    }

    /// Ends the callbacks that transactions up to this one handled, and their old names.
    pub fn acknowledge(&mut self, upto: u64) {
        let over = |moved: &Moved| moved.transaction != 0 && moved.transaction <= upto;
        let names: Vec<u32> = self
            .moved
            .iter()
            .filter(|(_, moved)| over(moved))
            .map(|(name, _)| *name)
            .collect();
        names.into_iter().for_each(|name| self.drop_name(name));
    }
}

fn read_at(image: &Image, page: u32, held: Held, into: &mut Record) {
    let found = image.read(page, into);
    let holds = |spare: Spare| spare.owner == Owner::File(held.tag) && spare.stamp == held.stamp;
    if found != Found::Written || !into.spare().is_some_and(holds) {
        fail();
    }
}
