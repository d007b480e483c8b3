// This library beside Rust's: first the same numbers, then the time that they take.
#![allow(deprecated)]
use std::hash::{Hasher, SipHasher};
use std::hint::black_box;
use std::time::Instant;

use shared::{Fnv, combine_hashes, finished};

mod compare;
mod shared;

pub type Bytes = [u8; 16384];

unsafe extern "C" {
    fn rt_fnv_words(start: u64, n: u64) -> u64;
    fn rt_sip_words(k0: u64, k1: u64, n: u64) -> u64;
    fn rt_fnv_strings(start: u64, bytes: &Bytes, len: u64, n: u64) -> u64;
    fn rt_sip_strings(k0: u64, k1: u64, bytes: &Bytes, len: u64, n: u64) -> u64;
    fn rt_fnv_kind(start: u64, before: &[u64; 2], kind: u8, low: u64, high: u64, bytes: &Bytes) -> u64;
    fn rt_sip_kind(keys: &[u64; 2], before: &[u64; 2], kind: u8, low: u64, high: u64, bytes: &Bytes) -> u64;
}

/// The words below n, each hashed. Their hashes are combined one after another: by exclusive or of them the compilers of
/// both sides hash two at once, in twice the time.
#[inline]
fn words<H: Hasher>(build: impl Fn() -> H, n: u64) -> u64 {
    (0..n).fold(0, |all, word| combine_hashes(all, finished(build(), |h| h.write_u64(word))))
}

#[inline]
fn strings<H: Hasher>(build: impl Fn() -> H, bytes: &Bytes, len: u64, n: u64) -> u64 {
    let mut all = 0;
    for i in 0..n {
        let start = (i % 64) as usize;
        let mut h = build();
        h.write(&bytes[start..start + len as usize]);
        all ^= h.finish();
    }
    all
}

#[inline(never)]
fn fnv_words(start: u64, n: u64) -> u64 {
    words(|| Fnv(start), n)
}

#[inline(never)]
fn sip_words(k0: u64, k1: u64, n: u64) -> u64 {
    words(|| SipHasher::new_with_keys(k0, k1), n)
}

#[inline(never)]
fn fnv_strings(start: u64, bytes: &Bytes, len: u64, n: u64) -> u64 {
    strings(|| Fnv(start), bytes, len, n)
}

#[inline(never)]
fn sip_strings(k0: u64, k1: u64, bytes: &Bytes, len: u64, n: u64) -> u64 {
    strings(|| SipHasher::new_with_keys(k0, k1), bytes, len, n)
}

fn timed(f: &dyn Fn() -> u64) -> (f64, u64) {
    let start = Instant::now();
    let r = black_box(f());
    (start.elapsed().as_secs_f64(), r)
}

/// One line of the table: the best of many short turns that the two sides take one after the other, so that other work
/// on the machine falls into few of them.
fn race(name: &str, n: u64, ours: &dyn Fn() -> u64, rust: &dyn Fn() -> u64) -> f64 {
    let (mut a, mut b) = (f64::MAX, f64::MAX);
    for _ in 0..500 {
        let (t, x) = timed(ours);
        let (u, y) = timed(rust);
        assert_eq!(x, y, "{name}: the two sides differ");
        (a, b) = (a.min(t), b.min(u));
    }
    let each = 1e9 / n as f64;
    println!("| {name} | {:.1} | {:.1} | {:.2} |", a * each, b * each, a / b);
    a / b
}

fn main() {
    let values: u64 = std::env::args().nth(1).map_or(1_000_000, |n| n.parse().unwrap());
    let mut random = compare::Random(0x9e3779b97f4a7c15);
    let mut bytes: Bytes = [0; 16384];
    for kind in 0..compare::KINDS.len() {
        let numbers = compare::compare(kind as u8, values, &mut random, &mut bytes);
        println!("{}: {values} values, {numbers} numbers, no difference", compare::KINDS[kind]);
    }

    for b in bytes.iter_mut() {
        *b = random.next() as u8;
    }
    let bytes = black_box(&bytes);
    let (k0, k1) = black_box((random.next(), random.next()));
    let start = black_box(14695981039346656037);
    println!("\n| hashed | ours, ns | Rust, ns | ratio |\n|---|---|---|---|");
    let mut worst: f64 = 0.0;
    let n = black_box(50_000);
    worst = worst.max(race("SipHash-2-4, a word of 8 bytes", n, &|| unsafe { rt_sip_words(k0, k1, n) }, &|| sip_words(k0, k1, n)));
    for len in [5, 16, 100, 10_000] {
        let n = black_box(2_000_000 / (len + 40));
        let name = format!("SipHash-2-4, a string of {len} bytes");
        worst = worst.max(race(&name, n, &|| unsafe { rt_sip_strings(k0, k1, bytes, len, n) }, &|| sip_strings(k0, k1, bytes, len, n)));
    }
    let n = black_box(50_000);
    worst = worst.max(race("FNV-1a, a word of 8 bytes", n, &|| unsafe { rt_fnv_words(start, n) }, &|| fnv_words(start, n)));
    for len in [5, 16, 100, 10_000] {
        let n = black_box(2_000_000 / (len + 40));
        let name = format!("FNV-1a, a string of {len} bytes");
        worst = worst.max(race(&name, n, &|| unsafe { rt_fnv_strings(start, bytes, len, n) }, &|| fnv_strings(start, bytes, len, n)));
    }
    println!("\nslowest line: {worst:.2} of Rust's time");
    if worst > 1.1 {
        eprintln!("slower than Rust by more than a tenth");
        std::process::exit(1);
    }
}
