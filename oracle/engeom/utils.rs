//! For parry's maps and sets: those of the standard library, with a quick hash.

use std::hash::{BuildHasherDefault, Hasher};

#[derive(Clone, Copy, Default)]
pub struct Quick(u64);

impl Hasher for Quick {
    #[inline]
    fn finish(&self) -> u64 {
        self.0.rotate_left(26)
    }
    #[inline]
    fn write(&mut self, bytes: &[u8]) {
        let mut words = bytes.chunks_exact(8);
        for word in &mut words {
            self.write_u64(u64::from_le_bytes(word.try_into().unwrap()));
        }
        for &byte in words.remainder() {
            self.write_u64(byte as u64);
        }
    }
    #[inline]
    fn write_u64(&mut self, x: u64) {
        self.0 = self.0.wrapping_add(x).wrapping_mul(0xf135_7aea_2e62_a9c5);
    }
    #[inline]
    fn write_u32(&mut self, x: u32) {
        self.write_u64(x as u64);
    }
    #[inline]
    fn write_usize(&mut self, x: usize) {
        self.write_u64(x as u64);
    }
}

pub mod hashmap {
    pub type HashMap<K, V> = std::collections::HashMap<K, V, super::BuildHasherDefault<super::Quick>>;
}

pub mod hashset {
    pub type HashSet<K> = std::collections::HashSet<K, super::BuildHasherDefault<super::Quick>>;
}
