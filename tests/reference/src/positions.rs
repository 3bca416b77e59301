//! A set of tape positions 0 to n, one bit each.

#[derive(Clone, PartialEq, Eq, Debug)]
pub struct Positions {
    words: Vec<u64>,
}

impl Positions {
    /// The empty set of positions of a tape of this length.
    pub fn none(length: usize) -> Positions {
        Positions {
            words: vec![0; length / 64 + 1],
        }
    }

    pub fn insert(&mut self, position: usize) {
        self.words[position / 64] |= 1 << (position % 64);
    }

    pub fn remove(&mut self, position: usize) {
        self.words[position / 64] &= !(1 << (position % 64));
    }

    pub fn contains(&self, position: usize) -> bool {
        self.words[position / 64] >> (position % 64) & 1 == 1
    }

    pub fn is_empty(&self) -> bool {
        self.words.iter().all(|&word| word == 0)
    }

    pub fn meets(&self, other: &Positions) -> bool {
        self.meets_from(0, other)
    }

    /// The same for a set that has no position before `first`; the words
    /// before that one need not be looked at.
    pub fn meets_from(&self, first: usize, other: &Positions) -> bool {
        self.words
            .iter()
            .zip(&other.words)
            .skip(first / 64)
            .any(|(one, other)| one & other != 0)
    }

    pub fn join(&mut self, other: &Positions) {
        for (word, more) in self.words.iter_mut().zip(&other.words) {
            *word |= more;
        }
    }

    /// The positions in rising order.
    pub fn iter(&self) -> impl Iterator<Item = usize> + '_ {
        self.words.iter().enumerate().flat_map(|(index, &word)| {
            let mut left = word;
            std::iter::from_fn(move || {
                if left == 0 {
                    return None;
                }
                let bit = left.trailing_zeros() as usize;
                left &= left - 1;
                Some(64 * index + bit)
            })
        })
    }
}
