//! Sets of ids.

/// A set of ids, 0 to 127; it is listed in rising order.
#[derive(Clone, Copy, Debug, Default, PartialEq, Eq, Hash)]
pub struct Ids {
    words: [u64; 2],
}

impl Ids {
    /// From two words: id i is bit i of the first, or bit i - 64 of the second.
    pub const fn from_words(words: [u64; 2]) -> Self {
        Self { words }
    }

    /// The two words.
    pub const fn words(self) -> [u64; 2] {
        self.words
    }

    /// Whether the id is in the set.
    pub fn contains(self, id: u8) -> bool {
        let word = self.words.get(usize::from(id / 64));
        word.is_some_and(|word| word >> (id % 64) & 1 == 1)
    }

    /// How many ids there are.
    pub const fn len(self) -> usize {
        (self.words[0].count_ones() + self.words[1].count_ones()) as usize
    }

    /// Whether there is none.
    pub const fn is_empty(self) -> bool {
        self.len() == 0
    }

    /// The ids, rising.
    pub const fn iter(self) -> IdIter {
        IdIter { left: self.words }
    }
}

impl IntoIterator for Ids {
    type Item = u8;
    type IntoIter = IdIter;

    fn into_iter(self) -> IdIter {
        self.iter()
    }
}

/// The ids of a set, rising.
#[derive(Clone, Debug)]
pub struct IdIter {
    left: [u64; 2],
}

impl Iterator for IdIter {
    type Item = u8;

    fn next(&mut self) -> Option<u8> {
        let at = usize::from(self.left[0] == 0);
        let word = &mut self.left[at];
        if *word == 0 {
            return None;
        }
        let bit = word.trailing_zeros() as u8;
        *word &= *word - 1;
        Some(64 * at as u8 + bit)
    }

    fn size_hint(&self) -> (usize, Option<usize>) {
        let count = Ids::from_words(self.left).len();
        (count, Some(count))
    }
}

impl ExactSizeIterator for IdIter {}
