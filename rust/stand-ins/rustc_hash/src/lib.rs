//! A stand-in for the crate of this name, with as much of it as the files of the original need: a fast hasher without a key.

use std::collections::{HashMap, HashSet};
use std::hash::{BuildHasherDefault, Hasher};

/// Builds an [`FxHasher`].
pub type FxBuildHasher = BuildHasherDefault<FxHasher>;

pub type FxHashMap<K, V> = HashMap<K, V, FxBuildHasher>;

pub type FxHashSet<T> = HashSet<T, FxBuildHasher>;

/// Adds each word and multiplies by an odd number.
#[derive(Default)]
pub struct FxHasher(u64);

impl Hasher for FxHasher {
    fn write(&mut self, bytes: &[u8]) {
        for byte in bytes {
            self.write_u64(u64::from(*byte));
        }
    }

    fn write_u64(&mut self, word: u64) {
        self.0 = self.0.wrapping_add(word).wrapping_mul(0x9E37_79B9_7F4A_7C15);
    }

    /// The high bits are mixed best, and a table uses the low ones.
    fn finish(&self) -> u64 {
        self.0.rotate_left(26)
    }
}
