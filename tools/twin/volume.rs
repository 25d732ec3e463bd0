//! A volume that runs: its metadata in memory over both segments, the journal, the pages of the line at hand, and the
//! pages that await their free. Here it commits, reclaims blocks, and does the tasks that the program has threads for.

use crate::files_segment::{Files, Moved};
use crate::free::FreeSet;
use crate::image::{Image, Record};
use crate::meta::Meta;
use crate::numbers::{put_commit, put_header, put_super, Pointer, Shape, Tag, FILE, INDEXES};
use crate::virtuals::Virtuals;

/// The cleaner copies while fewer blocks than these are Free.
const FEW_BLOCKS: u32 = 6;

/// Which page of the transaction is written next.
#[derive(Clone, Copy)]
pub enum Due {
    Header,
    Image(usize),
    Commit,
    Home(usize),
}

pub struct Journal {
    /// The number of the last transaction whose commit page was written.
    pub number: u64,
    pub due: Due,
}

pub struct Volume {
    pub image: Image,
    pub shape: Shape,
    pub virtuals: Virtuals,
    pub files: Files,
    /// The sequence number of the next page.
    pub stamp: u64,
    pub meta: Meta,
    pub journal: Journal,
    pub nodes: FreeSet,
    pub pool: FreeSet,
    /// The pages that were programmed for the line at hand, and are in no file yet.
    pub flight: Vec<(Pointer, Tag)>,
    /// The pages that no file has any more. They are freed once a transaction without them has committed.
    pub freeing: Vec<Pointer>,
    /// How many of them the transaction gives up that is being written.
    pub leaving: usize,
    /// How many calls were answered, are committed, and will be by the transaction that is being written.
    pub count: u64,
    pub committed: u64,
    pub frozen: u64,
    /// How many pages files have.
    pub data: u32,
    /// The page at hand of a file.
    pub record: Record,
    /// A page of the journal, or one that is moved.
    pub other: Record,
}

impl Volume {
    fn write_address(&mut self, address: u32) {
        self.virtuals
            .write(&mut self.image, address, &mut self.other, self.stamp);
        self.stamp += 1;
    }

    fn write_image(&mut self, place: usize, address: u32) {
        self.virtuals
            .write(&mut self.image, address, self.meta.image(place), self.stamp);
        self.stamp += 1;
    }

    /// Does one write of the transaction. Its number, where that was the commit page.
    fn write_unit(&mut self) -> Option<u64> {
        let (count, number) = (self.meta.frozen().len(), self.journal.number + 1);
        match self.journal.due {
            Due::Header => {
                put_header(self.other.main_mut(), number, self.meta.frozen());
                self.write_address(1);
                self.journal.due = Due::Image(0);
            }
            Due::Image(place) => {
                self.write_image(place, 2 + place as u32);
                self.journal.due = if place + 1 < count {
                    Due::Image(place + 1)
                } else {
                    Due::Commit
                };
            }
            Due::Commit => {
                put_commit(self.other.main_mut(), number);
                self.write_address(66);
                self.journal = Journal {
                    number,
                    due: Due::Home(0),
                };
                return Some(number);
            }
            Due::Home(place) => {
                self.write_image(place, self.meta.frozen()[place]);
                self.journal.due = Due::Home(place + 1);
                if place + 1 == count {
                    self.journal.due = Due::Header;
                    self.meta.thaw();
                }
            }
        }
        None
    }

    /// The number of the transaction that stores what changes now.
    fn next_transaction(&self) -> u64 {
        let is_open = !self.meta.frozen().is_empty() && !matches!(self.journal.due, Due::Home(_));
        self.journal.number + 1 + u64::from(is_open)
    }

    /// The dirty pages become those of a transaction, with the count of all calls.
    fn freeze(&mut self) {
        self.meta.freeze();
        self.frozen = self.count;
        self.leaving = self.freeing.len();
    }

    fn store_count(&mut self) {
        put_super(self.meta.page_mut(0), &self.shape, self.count);
    }

    /// Frees the first pages that await it, and ends the callbacks that transactions up to this one handled.
    fn settle(&mut self, due: usize, upto: u64) {
        for at in self.freeing.drain(..due) {
            self.files.free(at);
        }
        self.leaving = 0;
        self.files.acknowledge(upto);
    }

    /// Commits all calls so far at once, with the pages copied home.
    pub fn commit(&mut self) {
        let upto = self.next_transaction();
        self.store_count();
        self.finish();
        self.freeze();
        self.finish();
        self.committed = self.count;
        self.settle(self.freeing.len(), upto);
    }

    fn finish(&mut self) {
        while !self.meta.frozen().is_empty() {
            self.write_unit();
        }
    }

    /// Does one write of a transaction, which begins where none is being written.
    fn unit(&mut self) {
        if self.meta.frozen().is_empty() {
            self.store_count();
            self.freeze();
        }
        if let Some(number) = self.write_unit() {
            self.committed = self.frozen;
            self.settle(self.leaving, number);
        }
    }

    /// Commits all calls so far, unit by unit, up to the commit page. Gives how many calls are committed then.
    pub fn sync(&mut self) -> u64 {
        let goal = self.count;
        while self.committed < goal {
            self.unit();
            self.background();
        }
        self.committed
    }

    /// Programs the page at hand for the line at hand. Where there is no room for it, rounds of reclaiming make some.
    pub fn program(&mut self, tag: Tag) {
        loop {
            let name = self
                .files
                .write(&mut self.image, tag, &mut self.record, self.stamp);
            if let Some(name) = name {
                self.flight.push((
                    Pointer {
                        name,
                        stamp: self.stamp,
                    },
                    tag,
                ));
                self.stamp += 1;
                return;
            }
            self.round();
        }
    }

    /// Frees the pages of the line at hand, which was not done.
    pub fn drop_flight(&mut self) {
        for (at, _) in self.flight.drain(..) {
            self.files.free(at);
        }
    }

    /// A round of reclaiming: all callbacks are handled, a commit empties the table of old names where that is due, and one
    /// victim is cleaned.
    pub fn round(&mut self) {
        while self.handle() {}
        if self.files.pairs() != 0 || !self.freeing.is_empty() {
            self.commit();
        }
        while self.files.copy(&mut self.image, &mut self.other) {}
        self.files.erase_victim(&mut self.image);
    }

    /// Handles a callback that waits: whoever has the pointer of the page stores its new name. False where none waits.
    fn handle(&mut self) -> bool {
        let Some((name, moved)) = self.files.waiting() else {
            return false;
        };
        if !self.rename(&moved) {
            self.commit();
            // The commit may have freed the page, and the callback with it.
            if self.files.waiting().is_some_and(|(first, _)| first == name) {
                self.rename(&moved);
            }
        }
        let transaction = self.next_transaction();
        self.files.handled(name, transaction);
        true
    }

    /// Stores the new name of a page that was moved: for the line at hand, among those that await their free, or in the file
    /// that has it. False where there is no room for the page of metadata that would be dirty.
    fn rename(&mut self, moved: &Moved) -> bool {
        let mut found = false;
        let flying = self.flight.iter_mut().map(|(at, _)| at);
        for at in flying
            .chain(&mut self.freeing)
            .filter(|at| at.stamp == moved.stamp)
        {
            at.name = moved.to;
            found = true;
        }
        let Tag {
            ino,
            generation,
            index,
        } = moved.tag;
        if found || ino >= self.shape.nodes || index >= INDEXES {
            return true;
        }
        let node = self.meta.node(ino);
        let is_owner = node.kind() == FILE && node.generation() == generation;
        if !is_owner || self.meta.pointer(ino, index).stamp != moved.stamp {
            return true;
        }
        if !self.meta.has_room(self.pointer_address(ino, index)) {
            return false;
        }
        self.put_pointer(
            ino,
            index,
            Pointer {
                name: moved.to,
                stamp: moved.stamp,
            },
        );
        true
    }

    /// What the cleaner and the handler do between two steps of a line: a copy, or else an erase, while few blocks are Free,
    /// and a callback.
    pub fn background(&mut self) {
        let copied = self.files.blocks.free() < FEW_BLOCKS
            && self.files.copy(&mut self.image, &mut self.other);
        if !copied && self.files.erase_victim(&mut self.image) {
            self.files.begin(true);
        }
        self.handle();
    }

    /// Commits a last time.
    pub fn close(mut self) {
        self.commit();
    }
}
