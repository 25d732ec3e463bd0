//! The numbers below a count that are free: nodes, and places of the metadata pool.

pub struct FreeSet {
    /// A bit for each number, set where it is free.
    words: Vec<u64>,
    /// No word before this one has a free number.
    from: usize,
    count: u32,
}

impl FreeSet {
    /// So many numbers, each of them free.
    pub fn new(count: u32) -> FreeSet {
        let mut free = FreeSet {
            words: vec![0; count.div_ceil(64) as usize],
            from: 0,
            count: 0,
        };
        (0..count).for_each(|number| free.give(number));
        free
    }

    /// How many numbers are free.
    pub fn count(&self) -> u32 {
        self.count
    }

    /// The number is free from now on; it was not.
    pub fn give(&mut self, number: u32) {
        let word = number as usize / 64;
        self.words[word] |= 1 << (number % 64);
        self.from = self.from.min(word);
        self.count += 1;
    }

    /// The number, which is free, is in use from now on.
    pub fn put_to_use(&mut self, number: u32) {
        self.words[number as usize / 64] &= !(1 << (number % 64));
        self.count -= 1;
    }

    /// Takes the least free number.
    pub fn take(&mut self) -> Option<u32> {
        while self.from < self.words.len() {
            let word = self.words[self.from];
            if word != 0 {
                let number = self.from as u32 * 64 + word.trailing_zeros();
                self.put_to_use(number);
                return Some(number);
            }
            self.from += 1;
        }
        None
    }
}
