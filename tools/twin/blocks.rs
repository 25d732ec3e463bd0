//! The blocks of one segment: what each is used for, how worn it is, and how many of its pages are used and live.

/// What a block is used for.
#[derive(Clone, Copy, PartialEq, Eq)]
pub enum State {
    Free,
    /// It is written to.
    Active,
    /// Copies are written to it.
    Target,
    Sealed,
    /// It is being cleaned.
    Victim,
    /// It was erased, and old names stand in it.
    Waiting,
}

#[derive(Clone, Copy)]
pub struct Block {
    pub state: State,
    /// How often it was erased.
    pub wear: u32,
    /// How many of its pages were used since it was taken.
    pub used: u32,
    pub live: u32,
    /// Whether it has to be erased before use.
    pub soiled: bool,
    /// How many old names stand in it.
    pub names: u32,
}

pub struct Blocks {
    first: u32,
    pages: u32,
    free: u32,
    list: Vec<Block>,
}

/// A block that was erased so many times less than another one is moved for the sake of wear.
const COLD: u32 = 16;

impl Blocks {
    /// So many blocks from the first on, each of them Free.
    pub fn new(first: u32, count: u32, pages: u32) -> Blocks {
        let block = Block {
            state: State::Free,
            wear: 0,
            used: 0,
            live: 0,
            soiled: false,
            names: 0,
        };
        Blocks {
            first,
            pages,
            free: count,
            list: vec![block; count as usize],
        }
    }

    pub fn pages(&self) -> u32 {
        self.pages
    }

    pub fn free(&self) -> u32 {
        self.free
    }

    pub fn numbers(&self) -> std::ops::Range<u32> {
        self.first..self.first + self.list.len() as u32
    }

    pub fn at(&self, block: u32) -> &Block {
        &self.list[(block - self.first) as usize]
    }

    pub fn at_mut(&mut self, block: u32) -> &mut Block {
        &mut self.list[(block - self.first) as usize]
    }

    /// The block of a page.
    pub fn of_page(&mut self, page: u32) -> &mut Block {
        &mut self.list[(page / self.pages - self.first) as usize]
    }

    pub fn set_state(&mut self, block: u32, state: State) {
        let was = std::mem::replace(&mut self.at_mut(block).state, state);
        self.free -= u32::from(was == State::Free);
        self.free += u32::from(state == State::Free);
    }

    /// Whether the block is used so, and has a page that is not used.
    pub fn has_next(&self, block: u32, state: State) -> bool {
        let at = self.at(block);
        at.state == state && at.used < self.pages
    }

    /// Uses the next page of a block, which is Sealed where it was the last.
    pub fn use_next(&mut self, block: u32) -> u32 {
        let (pages, at) = (self.pages, self.at_mut(block));
        let page = block * pages + at.used;
        at.used += 1;
        if at.used == pages {
            at.state = State::Sealed;
        }
        page
    }

    /// Takes the least worn Free block, of equals the first. There is one.
    pub fn take(&mut self, state: State) -> u32 {
        let free = self
            .list
            .iter()
            .enumerate()
            .filter(|(_, block)| block.state == State::Free);
        let (at, _) = free
            .min_by_key(|(_, block)| block.wear)
            .expect("a Free block");
        let block = self.first + at as u32;
        self.set_state(block, state);
        self.at_mut(block).used = 0;
        block
    }

    /// A block in use was erased.
    pub fn erased(&mut self, block: u32) {
        let at = self.at_mut(block);
        at.wear += 1;
        at.soiled = false;
    }

    /// The Sealed block with the most pages that are not live, of which it has some; of equals the first.
    pub fn most_dead(&self) -> Option<u32> {
        let sealed = self
            .list
            .iter()
            .enumerate()
            .filter(|(_, it)| it.state == State::Sealed && it.live < self.pages);
        sealed
            .min_by_key(|(_, block)| block.live)
            .map(|(at, _)| self.first + at as u32)
    }

    /// The least worn Sealed block, of equals the first, where some block is worn much more.
    pub fn coldest(&self) -> Option<u32> {
        let most = self.list.iter().map(|block| block.wear).max()?;
        let sealed = self
            .list
            .iter()
            .enumerate()
            .filter(|(_, block)| block.state == State::Sealed);
        let (at, least) = sealed.min_by_key(|(_, block)| block.wear)?;
        (most - least.wear >= COLD).then_some(self.first + at as u32)
    }
}
