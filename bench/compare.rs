// Random values of every kind, hashed by Rust's `Hash` and by this library: any difference ends the run.
#![allow(deprecated)]
use std::hash::{Hash, Hasher, SipHasher};

use crate::shared::{Fnv, combine_hashes, finished};
use crate::{Bytes, rt_fnv_kind, rt_sip_kind};

pub const KINDS: [&str; 17] = [
    "bool", "u8", "u16", "u32", "u64", "float of 2 bytes", "float of 4 bytes", "float of 8 bytes", "str", "[u8]", "u128 (inline view)",
    "[u8] (long view)", "1 (nothing)", "i8", "i16", "i32", "i64",
];

/// The kind here that a kind of Rust's is: a signed number is told by its bits.
fn kind_here(kind: u8) -> u8 {
    if kind > 12 { kind - 12 } else { kind }
}

/// xorshift64*, so that every run is alike.
pub struct Random(pub u64);

impl Random {
    pub fn next(&mut self) -> u64 {
        self.0 ^= self.0 >> 12;
        self.0 ^= self.0 << 25;
        self.0 ^= self.0 >> 27;
        self.0.wrapping_mul(0x2545f4914f6cdd1d)
    }

    /// Any word, and often one at an edge.
    fn word(&mut self) -> u64 {
        let w = self.next();
        match w % 8 {
            0 => [0, 1, u64::MAX, 1 << 63, 1 << 31, 1 << 15, 0xffff_ffff, 0x8000_8000][(w >> 8) as usize % 8],
            1 => w >> 56,
            _ => w,
        }
    }

    /// A length, mostly short, at times up to 5,000.
    fn length(&mut self) -> u64 {
        let w = self.next();
        if w % 64 == 0 { (w >> 8) % 5001 } else { (w >> 8) % 41 }
    }
}

/// What the value writes where the hasher is its own.
fn write<H: Hasher>(kind: u8, low: u64, high: u64, part: &[u8], h: &mut H) {
    match kind {
        0 => (low % 2 == 1).hash(h),
        1 => (low as u8).hash(h),
        2 => (low as u16).hash(h),
        3 => (low as u32).hash(h),
        4 => low.hash(h),
        5 => half_bits(low).hash(h),
        6 => single_bits(low).hash(h),
        7 => double_bits(low).hash(h),
        8 => std::str::from_utf8(part).unwrap().hash(h),
        9 | 11 => part.hash(h),
        10 => ((low as u128) | ((high as u128) << 64)).hash(h),
        12 => 1i32.hash(h),
        13 => (low as i8).hash(h),
        14 => (low as i16).hash(h),
        15 => (low as i32).hash(h),
        _ => (low as i64).hash(h),
    }
}

/// What the value writes to a seeded hasher.
fn write_seeded<H: Hasher>(kind: u8, low: u64, high: u64, part: &[u8], h: &mut H) {
    match kind {
        5 => h.write(&half_bits(low).to_ne_bytes()),
        6 => h.write(&single_bits(low).to_ne_bytes()),
        7 => h.write(&double_bits(low).to_ne_bytes()),
        _ => write(kind, low, high, part, h),
    }
}

// Minus zero made zero: by the bits where Rust's stable compiler has no such float, by the float itself where it has.
fn half_bits(low: u64) -> u16 {
    let bits = low as u16;
    if bits << 1 == 0 { 0 } else { bits }
}

fn single_bits(low: u64) -> u32 {
    let f = f32::from_bits(low as u32);
    if f == 0.0 { 0 } else { low as u32 }
}

fn double_bits(low: u64) -> u64 {
    let f = f64::from_bits(low);
    if f == 0.0 { 0 } else { low }
}

/// The numbers of one value by Rust: by itself, and in a later column from `entry`.
fn rust<H: Hasher>(build: impl Fn() -> H, seeded: impl Fn(u64) -> H, kind: u8, low: u64, high: u64, part: &[u8], entry: u64) -> (u64, u64) {
    let one = finished(build(), |h| write(kind, low, high, part, h));
    let later = match kind {
        0 | 8 | 9 | 12 => combine_hashes(one, entry),
        _ => finished(seeded(entry), |h| write_seeded(kind, low, high, part, h)),
    };
    (one, later)
}

/// Compares `count` values of one kind under both states; answers how many numbers were compared.
pub fn compare(kind: u8, count: u64, random: &mut Random, bytes: &mut Bytes) -> u64 {
    let here = kind_here(kind);
    for i in 0..count {
        let (start, k1, entry) = (random.next(), random.next(), random.word());
        let strings = kind == 8 || kind == 9 || kind == 11;
        let low = if strings { random.length() } else { random.word() };
        let high = random.word();
        if strings {
            for b in bytes[..low as usize].iter_mut() {
                let r = random.next() as u8;
                *b = if kind == 8 { r % 128 } else { r };
            }
        }
        let part = if strings { &bytes[..low as usize] } else { &[] };
        let fnv = rust(|| Fnv(start), Fnv, kind, low, high, part, entry);
        let sip = rust(|| SipHasher::new_with_keys(start, k1), |s| SipHasher::new_with_keys(s, k1), kind, low, high, part, entry);
        let ours = |later| unsafe {
            let before = [later, entry];
            (rt_fnv_kind(start, &before, here, low, high, bytes), rt_sip_kind(&[start, k1], &before, here, low, high, bytes))
        };
        let ((fnv_one, sip_one), (fnv_later, sip_later)) = (ours(0), ours(1));
        let name = KINDS[kind as usize];
        let at = format_args!("value {i}: {low:#x} {high:#x} {part:?}, start or keys {start:#x} {k1:#x}, entry {entry:#x}");
        assert_eq!(fnv, (fnv_one, fnv_later), "FNV-1a of {name} differs, {at}");
        assert_eq!(sip, (sip_one, sip_later), "SipHash-2-4 of {name} differs, {at}");
    }
    4 * count
}
