//! Stand-in for `rustc_hash`: the standard maps with a fixed hasher, as quick as the original's is.

use std::{
    collections::{HashMap, HashSet},
    hash::{BuildHasherDefault, Hasher},
};

const FACTOR: u64 = 0xf135_7aea_2e62_a9c5;

/// Sixteen bytes at a time by one wide multiplication, as `rustc_hash` 2 does.
#[derive(Default)]
pub struct FxHasher(u64);

/// Both halves of a product, mixed.
fn product(one: u64, other: u64) -> u64 {
    let wide = u128::from(one) * u128::from(other);
    wide as u64 ^ (wide >> 64) as u64
}

fn word(bytes: &[u8]) -> u64 {
    bytes.first_chunk().map_or(0, |bytes| u64::from_le_bytes(*bytes))
}

/// Up to sixteen bytes as two words, which may overlap.
fn two_words(bytes: &[u8]) -> (u64, u64) {
    let half = |bytes: &[u8]| bytes.first_chunk().map_or(0, |bytes| u64::from(u32::from_le_bytes(*bytes)));
    match bytes.len() {
        8.. => (word(bytes), word(&bytes[bytes.len() - 8..])),
        4.. => (half(bytes), half(&bytes[bytes.len() - 4..])),
        1.. => (bytes[0].into(), u64::from(bytes[bytes.len() / 2]) | u64::from(bytes[bytes.len() - 1]) << 8),
        0 => (0, 0),
    }
}

impl Hasher for FxHasher {
    fn write(&mut self, bytes: &[u8]) {
        let (mut one, mut other) = (0x243f_6a88_85a3_08d3, 0x1319_8a2e_0370_7344);
        let mut rest = bytes;
        while rest.len() > 16 {
            let mixed = product(one ^ word(rest), 0xa409_3822_299f_31d0 ^ word(&rest[8..]));
            (one, other) = (other, mixed);
            rest = &rest[16..];
        }
        let (first, last) = two_words(if bytes.len() > 16 { &bytes[bytes.len() - 16..] } else { bytes });
        self.write_u64(product(one ^ first, other ^ last) ^ bytes.len() as u64);
    }

    fn write_u8(&mut self, byte: u8) {
        self.write_u64(byte.into());
    }

    fn write_u64(&mut self, word: u64) {
        self.0 = self.0.wrapping_add(word).wrapping_mul(FACTOR);
    }

    fn finish(&self) -> u64 {
        self.0.rotate_left(26)
    }
}

pub type FxHashMap<K, V> = HashMap<K, V, BuildHasherDefault<FxHasher>>;
pub type FxHashSet<K> = HashSet<K, BuildHasherDefault<FxHasher>>;
