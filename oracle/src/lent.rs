//! Memory as it is lent to a call: entries with a margin on either side that no call may touch.

use crate::random::Random;

/// Words of margin before and behind.
const MARGIN: usize = 4;

pub struct Lent {
    words: Vec<u64>,
    before: Vec<u64>,
    size: usize,
    length: usize,
    null: bool,
}

/// Words as bytes.
fn bytes(words: &[u64]) -> &[u8] {
    // Any eight bytes are a word's.
    unsafe { std::slice::from_raw_parts(words.as_ptr().cast(), 8 * words.len()) }
}

/// Words as bytes that may be changed.
fn bytes_mut(words: &mut [u64]) -> &mut [u8] {
    unsafe { std::slice::from_raw_parts_mut(words.as_mut_ptr().cast(), 8 * words.len()) }
}

impl Lent {
    /// A room of `length` entries of `size` bytes. Its first `clean` entries are zero; whatever is behind them, and the margins, never are.
    pub fn room(size: usize, length: usize, clean: u128, dirt: u64) -> Self {
        let mut random = Random::new(dirt);
        let mut words: Vec<u64> = (0..2 * MARGIN + (size * length).div_ceil(8)).map(|_| random.next() | 0x0101_0101_0101_0101).collect();
        let clean = size * (length as u128).min(clean) as usize;
        bytes_mut(&mut words)[8 * MARGIN..8 * MARGIN + clean].fill(0);
        Lent { before: words.clone(), words, size, length, null: dirt & 1 == 1 }
    }

    /// A room of zeros that is not watched: for times, and with no memory beside the room.
    pub fn bare(size: usize, length: usize) -> Self {
        Lent { before: vec![], words: vec![0; 2 * MARGIN + (size * length).div_ceil(8)], size, length, null: false }
    }

    /// Input, which no call may change.
    pub fn input(size: usize, content: &[u8], dirt: u64) -> Self {
        let mut lent = Self::room(size, content.len() / size, 0, dirt);
        bytes_mut(&mut lent.words)[8 * MARGIN..8 * MARGIN + content.len()].copy_from_slice(content);
        lent.before.copy_from_slice(&lent.words);
        lent
    }

    /// How many entries are lent.
    pub fn length(&self) -> usize {
        self.length
    }

    /// Where the first entry stands; NULL if there is none and the dirt is odd.
    pub fn pointer<T>(&mut self) -> *mut T {
        if self.null && self.length == 0 {
            return std::ptr::null_mut();
        }
        self.words[MARGIN..].as_mut_ptr().cast()
    }

    /// The first n entries.
    pub fn entries<T: Copy>(&mut self, n: usize) -> &[T] {
        assert!(n <= self.length && std::mem::size_of::<T>() == self.size);
        unsafe { std::slice::from_raw_parts(self.words[MARGIN..].as_ptr().cast(), n) }
    }

    /// The bytes of the room as they stand now, and the margins with them.
    pub fn all_mut(&mut self) -> (&mut [u8], usize) {
        (bytes_mut(&mut self.words), 8 * MARGIN)
    }

    /// Fills the room with other numbers.
    pub fn soil(&mut self) {
        let content = 8 * MARGIN..8 * MARGIN + self.size * self.length;
        bytes_mut(&mut self.words)[content].fill(0x5a);
    }

    /// Nothing may have changed.
    pub fn changed(&self) -> Option<String> {
        self.first(bytes(&self.before))
    }

    /// The answer must stand in front, zero up to the stated entries, and everything else as it was.
    pub fn wrong(&self, stated: u128, answer: &[u8]) -> Option<String> {
        let mut wanted = self.before.clone();
        let room = &mut bytes_mut(&mut wanted)[8 * MARGIN..];
        room[..self.size * stated as usize].fill(0);
        room[..answer.len()].copy_from_slice(answer);
        self.first(bytes(&wanted))
    }

    /// The first entry that is not as wanted.
    fn first(&self, wanted: &[u8]) -> Option<String> {
        let found = bytes(&self.words);
        if found == wanted {
            return None;
        }
        let at = (0..found.len()).find(|&i| found[i] != wanted[i])?;
        let entry = (at as i64 - 8 * MARGIN as i64).div_euclid(self.size as i64);
        let start = (8 * MARGIN as i64 + entry * self.size as i64) as usize;
        let show = |row: &[u8]| row[start..start + self.size].iter().rev().map(|b| format!("{b:02x}")).collect::<String>();
        Some(format!("entry {entry} of {} holds {} and must hold {}", self.length, show(found), show(wanted)))
    }

    /// Takes back the sign of a zero where `answer` has the other zero: for numbers of a patch's box.
    pub fn forgive_zero(&mut self, entry: usize, answer: &mut [u8]) {
        let found = &bytes(&self.words)[8 * MARGIN + 8 * entry..][..8];
        let wanted = &mut answer[8 * entry..][..8];
        let zero = |row: &[u8]| f64::from_ne_bytes(row.try_into().unwrap()) == 0.0;
        if zero(found) && zero(wanted) {
            wanted.copy_from_slice(found);
        }
    }
}
