//! For faer's `default` and bitvec's `BitVec`, which stand in a module of this name each.

/// The value that a type begins with.
pub fn default<T: Default>() -> T {
    T::default()
}

/// A row of bits in words, the least significant first.
#[derive(Clone, Debug, PartialEq, Eq, Hash, Default)]
pub struct BitVec {
    words: Vec<usize>,
    length: usize,
}

impl BitVec {
    pub fn repeat(value: bool, length: usize) -> Self {
        let mut row = BitVec { words: vec![0; length.div_ceil(64)], length };
        if value {
            (0..length).for_each(|i| row.set(i, true));
        }
        row
    }
    pub fn len(&self) -> usize {
        self.length
    }
    pub fn is_empty(&self) -> bool {
        self.length == 0
    }
    #[inline]
    pub fn set(&mut self, i: usize, value: bool) {
        assert!(i < self.length);
        if value {
            self.words[i / 64] |= 1 << (i % 64);
        } else {
            self.words[i / 64] &= !(1 << (i % 64));
        }
    }
    pub fn iter(&self) -> impl Iterator<Item = &bool> + '_ {
        (0..self.length).map(|i| &self[i])
    }
    pub fn as_raw_slice(&self) -> &[usize] {
        &self.words
    }
    pub fn as_raw_mut_slice(&mut self) -> &mut [usize] {
        &mut self.words
    }
}

impl std::ops::Index<usize> for BitVec {
    type Output = bool;
    #[inline]
    fn index(&self, i: usize) -> &bool {
        assert!(i < self.length);
        if self.words[i / 64] >> (i % 64) & 1 == 1 { &true } else { &false }
    }
}
