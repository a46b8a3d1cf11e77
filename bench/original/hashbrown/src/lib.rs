//! What planus uses of `hashbrown`, where cargo can't get that crate: the table is the real `hashbrown::HashTable`, namely the copy that the
//! Rust toolchain ships for its own std; the default hasher is a stand-in, written anew in the way of `foldhash::fast`, the default of
//! hashbrown 0.15 and later.
#![feature(rustc_private)]
#![feature(allocator_api)]
extern crate alloc;
extern crate hashbrown as real;

use std::hash::{BuildHasher, Hasher};

pub struct HashTable<T>(real::HashTable<T>);

impl<T> Default for HashTable<T> {
    #[inline]
    fn default() -> Self {
        Self(real::HashTable::new())
    }
}

impl<T> HashTable<T> {
    #[inline]
    pub fn find(&self, hash: u64, eq: impl FnMut(&T) -> bool) -> Option<&T> {
        self.0.find(hash, eq)
    }
    #[inline]
    pub fn insert_unique(&mut self, hash: u64, value: T, hasher: impl Fn(&T) -> u64) {
        self.0.insert_unique(hash, value, hasher);
    }
    #[inline]
    pub fn clear(&mut self) {
        self.0.clear();
    }
}

#[inline(always)]
fn fold(a: u64, b: u64) -> u64 {
    let wide = (a as u128).wrapping_mul(b as u128);
    (wide as u64) ^ (wide >> 64) as u64
}

const SEEDS: [u64; 4] = [0x243f6a8885a308d3, 0x13198a2e03707344, 0xa4093822299f31d0, 0x082efa98ec4e6c89];

#[derive(Clone, Copy)]
pub struct DefaultHashBuilder {
    seed: u64,
}

impl Default for DefaultHashBuilder {
    fn default() -> Self {
        // As a seed of each table: an address, as foldhash mixes one in.
        let on_stack = 0u8;
        Self { seed: fold(&on_stack as *const u8 as u64 ^ SEEDS[0], SEEDS[1]) }
    }
}

impl BuildHasher for DefaultHashBuilder {
    type Hasher = Fold;
    #[inline]
    fn build_hasher(&self) -> Fold {
        Fold { state: self.seed, pending: 0, bits: 0 }
    }
}

pub struct Fold {
    state: u64,
    pending: u128,
    bits: u32,
}

#[inline(always)]
fn word(bytes: &[u8], at: usize) -> u64 {
    u64::from_ne_bytes(bytes[at..at + 8].try_into().unwrap())
}

#[cold]
#[inline(never)]
fn long(mut bytes: &[u8], mut s0: u64, mut s1: u64) -> u64 {
    let (mut s2, mut s3) = (s0.wrapping_add(SEEDS[2]), s1.wrapping_add(SEEDS[3]));
    while bytes.len() >= 64 {
        s0 = fold(word(bytes, 0) ^ s0, word(bytes, 32) ^ SEEDS[2]);
        s1 = fold(word(bytes, 8) ^ s1, word(bytes, 40) ^ SEEDS[2]);
        s2 = fold(word(bytes, 16) ^ s2, word(bytes, 48) ^ SEEDS[2]);
        s3 = fold(word(bytes, 24) ^ s3, word(bytes, 56) ^ SEEDS[2]);
        bytes = &bytes[64..];
    }
    s0 ^= s2;
    s1 ^= s3;
    medium(bytes, s0, s1)
}

#[inline]
fn medium(bytes: &[u8], mut s0: u64, mut s1: u64) -> u64 {
    let n = bytes.len();
    if n < 16 {
        let mut tail = [0u8; 16];
        tail[..n].copy_from_slice(bytes);
        return fold(word(&tail, 0) ^ s0, word(&tail, 8) ^ s1);
    }
    let (mut lo, mut hi) = (0, n);
    while lo < hi {
        s0 = fold(word(bytes, lo) ^ s0, word(bytes, hi - 16) ^ SEEDS[2]);
        s1 = fold(word(bytes, lo + 8) ^ s1, word(bytes, hi - 8) ^ SEEDS[2]);
        lo += 16;
        hi -= 16;
    }
    s0 ^ s1
}

impl Hasher for Fold {
    #[inline(always)]
    fn write_usize(&mut self, n: usize) {
        self.pending |= (n as u128) << self.bits;
        self.bits += 64;
    }
    #[inline(always)]
    fn write(&mut self, bytes: &[u8]) {
        let (mut s0, mut s1) = (self.state, SEEDS[1]);
        let n = bytes.len();
        if n <= 16 {
            if n >= 8 {
                s0 ^= word(bytes, 0);
                s1 ^= word(bytes, n - 8);
            } else if n >= 4 {
                s0 ^= u32::from_ne_bytes(bytes[..4].try_into().unwrap()) as u64;
                s1 ^= u32::from_ne_bytes(bytes[n - 4..].try_into().unwrap()) as u64;
            } else if n > 0 {
                s0 ^= bytes[0] as u64;
                s1 ^= (bytes[n - 1] as u64) << 8 | bytes[n / 2] as u64;
            }
            self.state = fold(s0, s1);
        } else if n < 256 {
            self.state = medium(bytes, s0, s1);
        } else {
            self.state = long(bytes, s0, s1);
        }
    }
    #[inline(always)]
    fn finish(&self) -> u64 {
        if self.bits > 0 {
            fold(self.pending as u64 ^ self.state, (self.pending >> 64) as u64 ^ SEEDS[2])
        } else {
            self.state
        }
    }
}
