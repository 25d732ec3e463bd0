//! Paths and directories: what a path leads to, and the calls that make, remove and rename.

use crate::calls::{Done, Path, Refusal};
use crate::numbers::{entry, put_u32, put_u64, Entry, Node, DIR, FILE};
use crate::volume::Volume;

/// How many pages may be dirty before a call on names makes up to nine more so.
const FEW_DIRTY: usize = 54;
/// Entries of a directory page, and the most of a directory.
const ENTRIES: u32 = 64;
const MOST: u64 = 1024;

/// An entry of a directory: its place, and the node that it names with its generation.
#[derive(Clone, Copy)]
struct Spot {
    place: u32,
    ino: u32,
    generation: u32,
}

/// Why a node of a kind can't go, or be replaced, as one of another kind.
fn refused(as_kind: u8, node: Node) -> Done {
    match (as_kind, node.kind()) {
        (DIR, DIR) if node.size() > 0 => Err(Refusal::NotEmpty),
        (DIR, FILE) => Err(Refusal::NotDirectory),
        (FILE, DIR) => Err(Refusal::IsDirectory),
        _ => Ok(()),
    }
}

impl Volume {
    /// The address of the page of an entry's place in a directory, and where it stands there.
    fn entry_at(&self, dir: u32, place: u32) -> (u32, usize) {
        (
            self.meta.node(dir).address(place / ENTRIES),
            Entry::WIDTH * (place % ENTRIES) as usize,
        )
    }

    /// The entries of a directory, in their order.
    fn entries(&self, dir: u32) -> impl Iterator<Item = Entry<'_>> {
        let node = self.meta.node(dir);
        let pages = (0..node.size().div_ceil(u64::from(ENTRIES)) as u32)
            .map(move |row| self.meta.page(node.address(row)));
        pages
            .flat_map(|page| page.chunks_exact(Entry::WIDTH))
            .take(node.size() as usize)
            .map(Entry)
    }

    /// The entries of a directory in the order of their names.
    pub fn sorted(&self, dir: u32) -> Vec<Entry<'_>> {
        let mut entries: Vec<Entry> = self.entries(dir).collect();
        entries.sort_unstable_by_key(|entry| entry.name());
        entries
    }

    /// The entry of a name in a directory.
    fn look(&self, dir: u32, name: &[u8]) -> Option<Spot> {
        let (place, entry) = self
            .entries(dir)
            .enumerate()
            .find(|(_, entry)| entry.name() == name)?;
        Some(Spot {
            place: place as u32,
            ino: entry.ino(),
            generation: entry.generation(),
        })
    }

    /// The node to which a path leads.
    pub fn find(&self, path: Path) -> Result<u32, Refusal> {
        if path.is_long() {
            return Err(Refusal::NameTooLong);
        }
        self.walk(path)
    }

    fn walk(&self, path: Path) -> Result<u32, Refusal> {
        let mut ino = 0;
        for name in path.names() {
            if self.meta.node(ino).kind() != DIR {
                return Err(Refusal::NotDirectory);
            }
            ino = self.look(ino, name).ok_or(Refusal::NotThere)?.ino;
        }
        Ok(ino)
    }

    /// The file to which a path leads.
    pub fn find_file(&self, path: Path) -> Result<u32, Refusal> {
        let ino = self.find(path)?;
        if self.meta.node(ino).kind() == FILE {
            Ok(ino)
        } else {
            Err(Refusal::IsDirectory)
        }
    }

    /// The directory in which the last name of a path stands, or would stand; that name, and the entry of it.
    fn locate<'a>(&self, path: Path<'a>) -> Result<(u32, &'a [u8], Option<Spot>), Refusal> {
        let (parent, name) = path.split();
        let dir = self.walk(parent)?;
        if self.meta.node(dir).kind() != DIR {
            return Err(Refusal::NotDirectory);
        }
        Ok((dir, name, self.look(dir, name)))
    }

    /// Makes room for nine more dirty pages.
    fn make_name_room(&mut self) {
        if self.meta.dirty() > FEW_DIRTY {
            self.commit();
        }
    }

    /// Puts an entry behind those of a directory.
    fn put_in(&mut self, dir: u32, bytes: &[u8; Entry::WIDTH]) {
        let place = self.meta.node(dir).size() as u32;
        if place % ENTRIES == 0 {
            let fresh = self.shape.pool_at() + self.pool.take().expect("a free address");
            self.meta.fresh(fresh);
            put_u32(
                self.meta.node_mut(dir),
                Node::ADDRESSES + 4 * (place / ENTRIES) as usize,
                fresh,
            );
        }
        let (address, at) = self.entry_at(dir, place);
        self.meta.page_mut(address)[at..at + Entry::WIDTH].copy_from_slice(bytes);
        put_u64(self.meta.node_mut(dir), 8, u64::from(place) + 1);
    }

    /// Takes the entry at a place out of a directory; the last one takes its place.
    fn take_out(&mut self, dir: u32, place: u32) {
        let last = self.meta.node(dir).size() as u32 - 1;
        let (address, at) = self.entry_at(dir, last);
        if place != last {
            let mut bytes = [0; Entry::WIDTH];
            bytes.copy_from_slice(&self.meta.page(address)[at..at + Entry::WIDTH]);
            let (address, at) = self.entry_at(dir, place);
            self.meta.page_mut(address)[at..at + Entry::WIDTH].copy_from_slice(&bytes);
        }
        if last % ENTRIES == 0 {
            put_u32(
                self.meta.node_mut(dir),
                Node::ADDRESSES + 4 * (last / ENTRIES) as usize,
                0,
            );
            self.pool.give(address - self.shape.pool_at());
        } else {
            self.meta.page_mut(address)[at..at + Entry::WIDTH].fill(0);
        }
        put_u64(self.meta.node_mut(dir), 8, u64::from(last));
    }

    /// A node without a name is unused; its pages await their free.
    fn drop_node(&mut self, ino: u32) {
        if self.meta.node(ino).kind() == FILE {
            self.gather(ino, 0);
        }
        let (addresses, generation) = (
            self.meta.node(ino).addresses(),
            self.meta.node(ino).generation(),
        );
        let bytes = self.meta.node_mut(ino);
        bytes.fill(0);
        put_u32(bytes, 4, generation);
        for address in addresses.into_iter().filter(|address| *address != 0) {
            self.pool.give(address - self.shape.pool_at());
        }
        self.nodes.give(ino);
    }

    /// Makes an empty directory or an empty file.
    pub fn make(&mut self, path: Path, kind: u8) -> Done {
        self.make_name_room();
        if path.is_long() {
            return Err(Refusal::NameTooLong);
        }
        if path.is_root() {
            return Err(Refusal::IsThere);
        }
        let (dir, name, found) = self.locate(path)?;
        if found.is_some() {
            return Err(Refusal::IsThere);
        }
        let size = self.meta.node(dir).size();
        if size == MOST {
            return Err(Refusal::NoSpaceDir);
        }
        if self.nodes.count() == 0 {
            return Err(Refusal::NoSpaceNodes);
        }
        if size % u64::from(ENTRIES) == 0 && self.pool.count() == 0 {
            return Err(Refusal::NoSpaceMeta);
        }
        let ino = self.nodes.take().expect("a free node");
        let generation = self.meta.node(ino).generation().wrapping_add(1);
        let bytes = self.meta.node_mut(ino);
        bytes.fill(0);
        bytes[0] = kind;
        put_u32(bytes, 4, generation);
        self.put_in(dir, &entry(ino, generation, name));
        Ok(())
    }

    /// Removes a file, or an empty directory.
    pub fn remove(&mut self, path: Path, kind: u8) -> Done {
        self.make_name_room();
        if path.is_long() {
            return Err(Refusal::NameTooLong);
        }
        if path.is_root() {
            return Err(if kind == DIR {
                Refusal::Invalid
            } else {
                Refusal::IsDirectory
            });
        }
        let (dir, _, found) = self.locate(path)?;
        let spot = found.ok_or(Refusal::NotThere)?;
        refused(kind, self.meta.node(spot.ino))?;
        self.take_out(dir, spot.place);
        self.drop_node(spot.ino);
        Ok(())
    }

    /// Gives a file or a directory another path. What stood there goes.
    pub fn rename_path(&mut self, from: Path, to: Path) -> Done {
        self.make_name_room();
        if from.is_long() || to.is_long() {
            return Err(Refusal::NameTooLong);
        }
        if from.is_root() || to.is_root() {
            return Err(Refusal::Invalid);
        }
        let (old_dir, old_name, old) = self.locate(from)?;
        let Spot {
            place,
            ino,
            generation,
        } = old.ok_or(Refusal::NotThere)?;
        if from.0 == to.0 {
            return Ok(());
        }
        let kind = self.meta.node(ino).kind();
        if kind == DIR && to.lies_under(from) {
            return Err(Refusal::Invalid);
        }
        let (dir, name, over) = self.locate(to)?;
        if let Some(over) = over {
            refused(kind, self.meta.node(over.ino))?;
            self.take_out(dir, over.place);
            // The entry that is renamed may stand elsewhere now.
            let place = self.look(old_dir, old_name).expect("an entry").place;
            self.take_out(old_dir, place);
            self.put_in(dir, &entry(ino, generation, name));
            self.drop_node(over.ino);
            return Ok(());
        }
        if old_dir != dir {
            let (others, size) = (self.meta.node(old_dir).size(), self.meta.node(dir).size());
            if size == MOST {
                return Err(Refusal::NoSpaceDir);
            }
            // The last entry of a page leaves its page for this one.
            if size % 64 == 0 && others % 64 != 1 && self.pool.count() == 0 {
                return Err(Refusal::NoSpaceMeta);
            }
        }
        self.take_out(old_dir, place);
        self.put_in(dir, &entry(ino, generation, name));
        Ok(())
    }
}
