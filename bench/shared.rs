// What both comparisons have of the Rust side.
use std::hash::Hasher;

/// A plain FNV-1a loop.
pub struct Fnv(pub u64);

impl Hasher for Fnv {
    #[inline]
    fn write(&mut self, bytes: &[u8]) {
        for b in bytes {
            self.0 = (self.0 ^ *b as u64).wrapping_mul(1099511628211);
        }
    }

    #[inline]
    fn finish(&self) -> u64 {
        self.0
    }
}

#[inline]
pub fn combine_hashes(l: u64, r: u64) -> u64 {
    let hash = (17 * 37u64).wrapping_add(l);
    hash.wrapping_mul(37).wrapping_add(r)
}

#[inline]
pub fn finished<H: Hasher>(mut h: H, write: impl FnOnce(&mut H)) -> u64 {
    write(&mut h);
    h.finish()
}
