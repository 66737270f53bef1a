//! Stand-in: HMap over the standard library's map (pliron's stands over hashbrown, which is the same map), with the hash of rustc_hash.

use core::{
    borrow::Borrow,
    hash::{BuildHasherDefault, Hash, Hasher},
};
use std::collections::{HashMap, hash_map};

pub struct HMap<K, V>(HashMap<K, V, BuildHasherDefault<FxHasher>>);

impl<K, V> Default for HMap<K, V> {
    fn default() -> Self {
        HMap(HashMap::default())
    }
}

impl<K: Eq + Hash, V> HMap<K, V> {
    pub fn insert(&mut self, key: K, value: V) -> Option<V> {
        self.0.insert(key, value)
    }
    pub fn get<Q: Hash + Eq + ?Sized>(&self, key: &Q) -> Option<&V>
    where
        K: Borrow<Q>,
    {
        self.0.get(key)
    }
    pub fn remove<Q: Hash + Eq + ?Sized>(&mut self, key: &Q) -> Option<V>
    where
        K: Borrow<Q>,
    {
        self.0.remove(key)
    }
    pub fn contains_key<Q: Hash + Eq + ?Sized>(&self, key: &Q) -> bool
    where
        K: Borrow<Q>,
    {
        self.0.contains_key(key)
    }
    pub fn entry(&mut self, key: K) -> hash_map::Entry<'_, K, V> {
        self.0.entry(key)
    }
}

/// The quick hash of rustc_hash: for each word a sum, a product and at the end a turn; the bytes of a text become one word first.
#[derive(Default)]
pub struct FxHasher {
    hash: u64,
}

impl FxHasher {
    fn add(&mut self, word: u64) {
        self.hash = self
            .hash
            .wrapping_add(word)
            .wrapping_mul(0xf135_7aea_2e62_a9c5);
    }
}

/// The two halves of a product of two words, mixed.
#[inline]
fn mixed(x: u64, y: u64) -> u64 {
    let full = u128::from(x) * u128::from(y);
    full as u64 ^ (full >> 64) as u64
}

/// The word that eight bytes are.
#[inline]
fn word_at(bytes: &[u8], at: usize) -> u64 {
    u64::from_le_bytes(bytes[at..at + 8].try_into().expect("eight bytes"))
}

/// The word that four bytes are.
#[inline]
fn half_at(bytes: &[u8], at: usize) -> u64 {
    u32::from_le_bytes(bytes[at..at + 4].try_into().expect("four bytes")).into()
}

/// The word that the bytes of a text become, as rustc_hash has it.
#[inline]
fn word_of(bytes: &[u8]) -> u64 {
    let len = bytes.len();
    let (mut s0, mut s1) = (0x243f_6a88_85a3_08d3, 0x1319_8a2e_0370_7344);
    if len > 16 {
        let mut at = 0;
        while at < len - 16 {
            let (x, y) = (word_at(bytes, at), word_at(bytes, at + 8));
            (s0, s1) = (s1, mixed(s0 ^ x, 0xa409_3822_299f_31d0 ^ y));
            at += 16;
        }
        s0 ^= word_at(bytes, len - 16);
        s1 ^= word_at(bytes, len - 8);
    } else if len >= 8 {
        s0 ^= word_at(bytes, 0);
        s1 ^= word_at(bytes, len - 8);
    } else if len >= 4 {
        s0 ^= half_at(bytes, 0);
        s1 ^= half_at(bytes, len - 4);
    } else if len > 0 {
        s0 ^= u64::from(bytes[0]);
        s1 ^= u64::from(bytes[len - 1]) << 8 | u64::from(bytes[len / 2]);
    }
    mixed(s0, s1) ^ len as u64
}

impl Hasher for FxHasher {
    fn write(&mut self, bytes: &[u8]) {
        self.add(word_of(bytes));
    }
    fn write_u8(&mut self, byte: u8) {
        self.add(byte.into());
    }
    fn write_u32(&mut self, word: u32) {
        self.add(word.into());
    }
    fn write_u64(&mut self, word: u64) {
        self.add(word);
    }
    fn write_usize(&mut self, word: usize) {
        self.add(word as u64);
    }
    fn finish(&self) -> u64 {
        self.hash.rotate_left(26)
    }
}
