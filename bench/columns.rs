// Columns of a million rows: this library beside the same loops in Rust over native slices. First the same numbers,
// then the time that they take.
#![allow(deprecated)]
use std::hash::{Hasher, SipHasher};
use std::hint::black_box;

use shared::{Fnv, combine_hashes, finished};

mod shared;

unsafe extern "C" {
    // The C library's: clock 3 is the processor time of a thread.
    fn clock_gettime(clock: i32, now: &mut [i64; 2]) -> i32;
    fn rt_fnv_column(start: u64, bytes: *const u8, len: usize, timed: &Timed, entries: *mut u64, rows: usize, work: *mut u64, words: usize) -> bool;
    fn rt_sip_column(k0: u64, k1: u64, bytes: *const u8, len: usize, timed: &Timed, entries: *mut u64, rows: usize, work: *mut u64, words: usize) -> bool;
}

/// What of an image is to be hashed: all rows of a node, as a first column or a later one, and how many times over.
#[repr(C)]
struct Timed {
    node: u64,
    first: bool,
    times: u64,
}

const ROWS: usize = 1 << 20;

/// A hash state: hashers that are newly built, and hashers from a seed.
trait State {
    type H: Hasher;
    fn build(&self) -> Self::H;
    fn seeded(&self, seed: u64) -> Self::H;
    fn ours(&self, image: &[u8], first: bool, times: u64, entries: &mut [u64], work: &mut [u64]) -> bool;
    const NAME: &'static str;
}

struct FnvState(u64);

impl State for FnvState {
    type H = Fnv;
    const NAME: &'static str = "FNV-1a";
    #[inline]
    fn build(&self) -> Fnv {
        Fnv(self.0)
    }
    #[inline]
    fn seeded(&self, seed: u64) -> Fnv {
        Fnv(seed)
    }
    fn ours(&self, image: &[u8], first: bool, times: u64, entries: &mut [u64], work: &mut [u64]) -> bool {
        unsafe { rt_fnv_column(self.0, image.as_ptr(), image.len(), &Timed { node: 0, first, times }, entries.as_mut_ptr(), entries.len(), work.as_mut_ptr(), work.len()) }
    }
}

struct SipState(u64, u64);

impl State for SipState {
    type H = SipHasher;
    const NAME: &'static str = "SipHash-2-4";
    #[inline]
    fn build(&self) -> SipHasher {
        SipHasher::new_with_keys(self.0, self.1)
    }
    #[inline]
    fn seeded(&self, seed: u64) -> SipHasher {
        SipHasher::new_with_keys(seed, self.1)
    }
    fn ours(&self, image: &[u8], first: bool, times: u64, entries: &mut [u64], work: &mut [u64]) -> bool {
        unsafe { rt_sip_column(self.0, self.1, image.as_ptr(), image.len(), &Timed { node: 0, first, times }, entries.as_mut_ptr(), entries.len(), work.as_mut_ptr(), work.len()) }
    }
}

/// The columns, as native slices.
enum Column {
    Numbers(Vec<u64>),
    Text(Vec<i32>, Vec<u8>),
    Views(Vec<u128>, Vec<u8>),
    Lists(Vec<i32>, Vec<u64>),
    Structs([Vec<u64>; 4]),
    Dictionary(Vec<i32>, Vec<u64>),
}

#[inline]
fn hash_numbers<S: State>(state: &S, values: &[u64], hashes: &mut [u64], first: bool) {
    if first {
        for (hash, value) in hashes.iter_mut().zip(values) {
            *hash = finished(state.build(), |h| h.write_u64(*value));
        }
    } else {
        for (hash, value) in hashes.iter_mut().zip(values) {
            *hash = finished(state.seeded(*hash), |h| h.write_u64(*value));
        }
    }
}

#[inline]
fn hash_text<S: State>(state: &S, offsets: &[i32], data: &[u8], hashes: &mut [u64], first: bool) {
    let one = |start: i32, stop: i32| {
        finished(state.build(), |h| {
            h.write(&data[start as usize..stop as usize]);
            h.write_u8(255);
        })
    };
    if first {
        for (hash, w) in hashes.iter_mut().zip(offsets.windows(2)) {
            *hash = one(w[0], w[1]);
        }
    } else {
        for (hash, w) in hashes.iter_mut().zip(offsets.windows(2)) {
            *hash = combine_hashes(one(w[0], w[1]), *hash);
        }
    }
}

#[inline]
fn hash_views<S: State>(state: &S, views: &[u128], data: &[u8], hashes: &mut [u64], first: bool) {
    for (hash, view) in hashes.iter_mut().zip(views) {
        let h = if first { state.build() } else { state.seeded(*hash) };
        let len = *view as u32;
        *hash = finished(h, |h| {
            if len <= 12 {
                h.write_u128(*view);
            } else {
                let offset = (*view >> 96) as usize;
                h.write_usize(len as usize);
                h.write(&data[offset..offset + len as usize]);
            }
        });
    }
}

#[inline]
fn hash_lists<S: State>(state: &S, offsets: &[i32], values: &[u64], hashes: &mut [u64], work: &mut [u64]) {
    let (first, last) = (offsets[0] as usize, offsets[offsets.len() - 1] as usize);
    let work = &mut work[0..last - first];
    work.fill(0);
    hash_numbers(state, &values[first..last], work, true);
    for (w, hash) in offsets.windows(2).zip(hashes.iter_mut()) {
        for value in &work[w[0] as usize - first..w[1] as usize - first] {
            *hash = combine_hashes(*hash, *value);
        }
    }
}

#[inline]
fn hash_structs<S: State>(state: &S, fields: &[Vec<u64>; 4], hashes: &mut [u64], work: &mut [u64]) {
    let work = &mut work[0..hashes.len()];
    work.fill(0);
    for (k, field) in fields.iter().enumerate() {
        hash_numbers(state, field, work, k == 0);
    }
    for (hash, value) in hashes.iter_mut().zip(work.iter()) {
        *hash = combine_hashes(*hash, *value);
    }
}

#[inline]
fn hash_dictionary<S: State>(state: &S, keys: &[i32], values: &[u64], hashes: &mut [u64], work: &mut [u64], first: bool) {
    let work = &mut work[0..values.len()];
    work.fill(0);
    hash_numbers(state, values, work, true);
    if first {
        for (hash, key) in hashes.iter_mut().zip(keys) {
            *hash = work[*key as usize];
        }
    } else {
        for (hash, key) in hashes.iter_mut().zip(keys) {
            *hash = combine_hashes(work[*key as usize], *hash);
        }
    }
}

#[inline(never)]
fn rust<S: State>(state: &S, column: &Column, first: bool, hashes: &mut [u64], work: &mut [u64]) {
    match column {
        Column::Numbers(values) => hash_numbers(state, values, hashes, first),
        Column::Text(offsets, data) => hash_text(state, offsets, data, hashes, first),
        Column::Views(views, data) => hash_views(state, views, data, hashes, first),
        Column::Lists(offsets, values) => hash_lists(state, offsets, values, hashes, work),
        Column::Structs(fields) => hash_structs(state, fields, hashes, work),
        Column::Dictionary(keys, values) => hash_dictionary(state, keys, values, hashes, work, first),
    }
}

/// An image: the records, and then the buffers, whose places are counted from the end of the records.
struct Image {
    records: Vec<[u32; 9]>,
    tail: Vec<u8>,
}

impl Image {
    fn new(nodes: usize) -> Image {
        Image { records: vec![[0; 9]; nodes], tail: Vec::new() }
    }

    fn put(&mut self, bytes: impl IntoIterator<Item = u8>) -> u32 {
        let head = 4 + 36 * self.records.len();
        while (head + self.tail.len()) % 8 != 0 {
            self.tail.push(0);
        }
        let place = head + self.tail.len();
        self.tail.extend(bytes);
        place as u32
    }

    fn numbers(&mut self, node: usize, values: &[u64]) {
        let a = self.put(values.iter().flat_map(|v| v.to_le_bytes()));
        self.records[node] = [3, values.len() as u32, 0, 0, a, 0, 8, 0, 0];
    }

    fn bytes(self) -> Vec<u8> {
        let mut all = (self.records.len() as u32).to_le_bytes().to_vec();
        for field in self.records.iter().flatten() {
            all.extend(field.to_le_bytes());
        }
        all.extend(self.tail);
        all
    }
}

impl Column {
    fn image(&self) -> Vec<u8> {
        let four = |xs: &[i32]| xs.iter().flat_map(|x| x.to_le_bytes()).collect::<Vec<u8>>();
        match self {
            Column::Numbers(values) => {
                let mut image = Image::new(1);
                image.numbers(0, values);
                image.bytes()
            }
            Column::Text(offsets, data) => {
                let mut image = Image::new(1);
                let a = image.put(four(offsets));
                let b = image.put(data.iter().copied());
                image.records[0] = [6, offsets.len() as u32 - 1, 0, 0, a, b, 4, 0, 0];
                image.bytes()
            }
            Column::Views(views, data) => {
                let mut image = Image::new(1);
                let a = image.put(views.iter().flat_map(|v| v.to_le_bytes()));
                let place = image.put(data.iter().copied());
                let tab = image.put([place, data.len() as u32].iter().flat_map(|v| v.to_le_bytes()).collect::<Vec<u8>>());
                image.records[0] = [9, views.len() as u32, 0, 0, a, 0, 0, tab, 1];
                image.bytes()
            }
            Column::Lists(offsets, values) => {
                let mut image = Image::new(2);
                image.numbers(1, values);
                let a = image.put(four(offsets));
                let tab = image.put(1u32.to_le_bytes());
                image.records[0] = [12, offsets.len() as u32 - 1, 0, 0, a, 0, 4, tab, 1];
                image.bytes()
            }
            Column::Structs(fields) => {
                let mut image = Image::new(5);
                for (k, field) in fields.iter().enumerate() {
                    image.numbers(k + 1, field);
                }
                let tab = image.put((1u32..5).flat_map(|k| k.to_le_bytes()));
                image.records[0] = [11, fields[0].len() as u32, 0, 0, 0, 0, 0, tab, 4];
                image.bytes()
            }
            Column::Dictionary(keys, values) => {
                let mut image = Image::new(2);
                image.numbers(1, values);
                let a = image.put(four(keys));
                let tab = image.put(1u32.to_le_bytes());
                image.records[0] = [10, keys.len() as u32, 0, 0, a, 1, 4, tab, 1];
                image.bytes()
            }
        }
    }
}

struct Random(u64);

impl Random {
    fn next(&mut self) -> u64 {
        self.0 ^= self.0 << 13;
        self.0 ^= self.0 >> 7;
        self.0 ^= self.0 << 17;
        self.0
    }

    fn below(&mut self, n: u64) -> u64 {
        self.next() % n
    }
}

fn columns() -> Vec<(&'static str, Column)> {
    let mut random = Random(88172645463325252);
    let mut words = |n: usize| -> Vec<u64> { (0..n).map(|_| random.next()).collect() };
    let numbers = words(ROWS);
    let fields = [words(ROWS), words(ROWS), words(ROWS), words(ROWS)];
    let values = words(ROWS);
    let small = words(1000);
    let mut random = Random(362436069362436069);
    let mut offsets = vec![0i32];
    let mut data = Vec::new();
    for _ in 0..ROWS {
        for _ in 0..random.below(25) {
            data.push(32 + random.below(90) as u8);
        }
        offsets.push(data.len() as i32);
    }
    let mut views = Vec::new();
    let mut viewed: Vec<u8> = Vec::new();
    for w in offsets.windows(2) {
        let text = &data[w[0] as usize..w[1] as usize];
        let mut view = [0u8; 16];
        view[0..4].copy_from_slice(&(text.len() as u32).to_le_bytes());
        if text.len() <= 12 {
            view[4..4 + text.len()].copy_from_slice(text);
        } else {
            view[4..8].copy_from_slice(&text[0..4]);
            view[12..16].copy_from_slice(&(viewed.len() as u32).to_le_bytes());
            viewed.extend(text);
        }
        views.push(u128::from_le_bytes(view));
    }
    let mut list_offsets = vec![0i32];
    while list_offsets.len() <= ROWS / 2 {
        let last = list_offsets[list_offsets.len() - 1];
        list_offsets.push((last + random.below(5) as i32).min(values.len() as i32));
    }
    let keys = (0..ROWS).map(|_| random.below(1000) as i32).collect();
    vec![
        ("numbers of 8 bytes", Column::Numbers(numbers)),
        ("text, 0 to 24 bytes", Column::Text(offsets, data)),
        ("views, 0 to 24 bytes", Column::Views(views, viewed)),
        ("lists of 0 to 4 numbers", Column::Lists(list_offsets, values)),
        ("structs of four numbers", Column::Structs(fields)),
        ("dictionary of 1,000 numbers", Column::Dictionary(keys, small)),
    ]
}

impl Column {
    fn rows(&self) -> usize {
        match self {
            Column::Numbers(values) => values.len(),
            Column::Text(offsets, _) | Column::Lists(offsets, _) => offsets.len() - 1,
            Column::Views(views, _) => views.len(),
            Column::Structs(fields) => fields[0].len(),
            Column::Dictionary(keys, _) => keys.len(),
        }
    }
}

impl Column {
    /// How many columns a turn hashes, so that admission is a small part of its time: it takes longer than a column of
    /// keys, and not always as long.
    fn times(&self) -> u64 {
        match self {
            Column::Dictionary(..) => 256,
            _ => 8,
        }
    }
}

/// The time that the processor spends on it: other programs that run meanwhile are not counted.
fn timed(f: impl FnOnce()) -> f64 {
    let now = || {
        let mut now = [0i64; 2];
        assert_eq!(unsafe { clock_gettime(3, &mut now) }, 0);
        now[0] as f64 + now[1] as f64 * 1e-9
    };
    let start = now();
    f();
    now() - start
}

/// The best times of both sides, in nanoseconds a row, for turns that they take one after the other. Of ours, the best
/// time of admission alone is taken off.
fn race<S: State>(state: &S, name: &str, column: &Column, first: bool) -> f64 {
    let image = column.image();
    let rows = column.rows();
    let mut work = vec![0u64; ROWS];
    let mut entries: Vec<u64> = (0..rows as u64).collect();
    let mut other = entries.clone();
    assert!(state.ours(&image, first, 1, &mut entries, &mut work), "{name}: refused");
    rust(state, column, first, &mut other, &mut work);
    for (row, (a, b)) in entries.iter().zip(&other).enumerate() {
        assert_eq!(a, b, "{name}, row {row}: {a:016x} here, {b:016x} in Rust");
    }
    let times = column.times();
    let turns: u64 = std::env::args().nth(1).map_or(7, |w| w.parse().unwrap());
    let (mut admission, mut all, mut theirs) = (f64::MAX, f64::MAX, f64::MAX);
    for _ in 0..turns {
        admission = admission.min(timed(|| {
            black_box(state.ours(&image, first, 0, &mut entries, &mut work));
        }));
        all = all.min(timed(|| {
            black_box(state.ours(&image, first, times, &mut entries, &mut work));
        }));
        theirs = theirs.min(timed(|| {
            for _ in 0..times {
                rust(state, column, first, black_box(&mut other), &mut work);
            }
        }));
    }
    let a_row = 1e9 / (times as f64 * rows as f64);
    let (ours, theirs) = ((all - admission) * a_row, theirs * a_row);
    let when = if first { "first" } else { "later" };
    println!("| {}, {name}, {when} | {ours:.2} | {theirs:.2} | {:.2} |", S::NAME, ours / theirs);
    ours / theirs
}

fn main() {
    println!("| hashed | ours, ns a row | Rust, ns a row | ratio |");
    println!("|---|---|---|---|");
    let mut worst = 0f64;
    let only = std::env::args().nth(2).unwrap_or_default();
    for (name, column) in columns().iter().filter(|(name, _)| name.contains(&only)) {
        for first in [true, false] {
            worst = worst.max(race(&FnvState(14695981039346656037), name, column, first));
            worst = worst.max(race(&SipState(0x0706050403020100, 0x0f0e0d0c0b0a0908), name, column, first));
        }
    }
    println!("slowest: {worst:.2} of Rust's time");
    if worst > 1.1 {
        std::process::exit(1);
    }
}
