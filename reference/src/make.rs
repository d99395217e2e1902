//! Parts of the random scripts, the samples and the benchmarks: seeded random numbers, decks, whole records.

use crate::dates::{self, FIRST_YEAR, LAST_YEAR};
use crate::record::{self, RSR, SECONDARY, SECONDARY_VALUE, TELEMETRY};
use std::cell::Cell;

/// xoshiro256**, seeded by splitmix64.
pub struct Rng {
    state: Cell<[u64; 4]>,
}

impl Rng {
    pub fn new(seed: u64) -> Rng {
        let mut last = seed;
        Rng { state: Cell::new([(); 4].map(|_| splitmix64(&mut last))) }
    }

    pub fn next(&self) -> u64 {
        let mut s = self.state.get();
        let result = s[1].wrapping_mul(5).rotate_left(7).wrapping_mul(9);
        let shifted = s[1] << 17;
        s[2] ^= s[0];
        s[3] ^= s[1];
        s[1] ^= s[2];
        s[0] ^= s[3];
        s[2] ^= shifted;
        s[3] = s[3].rotate_left(45);
        self.state.set(s);
        result
    }

    /// A number below `bound`.
    pub fn below(&self, bound: u64) -> u64 {
        self.next() % bound
    }

    pub fn index(&self, bound: usize) -> usize {
        self.below(bound as u64) as usize
    }

    pub fn between(&self, low: usize, high: usize) -> usize {
        low + self.index(high - low + 1)
    }

    pub fn percent(&self, chance: u64) -> bool {
        self.below(100) < chance
    }

    pub fn pick<T: Clone>(&self, from: &[T]) -> T {
        from[self.index(from.len())].clone()
    }

    pub fn word(&self) -> u32 {
        self.next() as u32
    }

    pub fn byte(&self) -> u8 {
        self.next() as u8
    }

    pub fn bytes(&self, length: usize) -> Vec<u8> {
        (0..length).map(|_| self.byte()).collect()
    }
}

fn splitmix64(last: &mut u64) -> u64 {
    *last = last.wrapping_add(0x9E37_79B9_7F4A_7C15);
    let mut z = *last;
    z = (z ^ z >> 30).wrapping_mul(0xBF58_476D_1CE4_E5B9);
    z = (z ^ z >> 27).wrapping_mul(0x94D0_49BB_1331_11EB);
    z ^ z >> 31
}

/// Deals each of its cases once, in random order, then shuffles again. So no case is left out for long.
pub struct Deck<T> {
    cases: Vec<T>,
    dealt: usize,
}

impl<T: Clone> Deck<T> {
    pub fn new(cases: Vec<T>) -> Deck<T> {
        Deck { dealt: cases.len(), cases }
    }

    pub fn deal(&mut self, rng: &Rng) -> T {
        if self.dealt == self.cases.len() {
            for i in (1..self.cases.len()).rev() {
                self.cases.swap(i, rng.index(i + 1));
            }
            self.dealt = 0;
        }
        self.dealt += 1;
        self.cases[self.dealt - 1].clone()
    }
}

/// Writes a big-endian number of `width` bytes.
pub fn put(s: &mut [u8], at: usize, width: usize, value: u64) {
    s[at..at + width].copy_from_slice(&value.to_be_bytes()[8 - width..]);
}

/// Writes a field of the secondary value. Its offset counts from the start of the block.
pub fn put_secondary(secondary: &mut [u8], at: usize, width: usize, value: u64) {
    put(secondary, at - (SECONDARY_VALUE - SECONDARY), width, value);
}

pub fn record(kind: u32, primary: [u8; 4], secondary: &[u8], data: &[u8]) -> Vec<u8> {
    let layout = record::layout_of(kind).expect("one of the two kinds");
    let mut out = vec![0; layout.data_value + data.len()];
    record::write_one(kind, primary, secondary, data, &mut out).expect("lengths are right");
    out
}

/// Random bytes in which every field that is tested is in range.
pub fn secondary(rng: &Rng, kind: u32) -> Vec<u8> {
    let layout = record::layout_of(kind).expect("one of the two kinds");
    let mut bytes = rng.bytes(layout.secondary_length as usize);
    let mut set = |at, width, value| put_secondary(&mut bytes, at, width, value);
    if kind == TELEMETRY {
        set(26, 1, rng.pick(b"USXK") as u64);
        return bytes;
    }
    set(18, 1, rng.pick(b"SXK") as u64);
    set(19, 1, rng.pick(b"SXK") as u64);
    set(20, 1, 1 + rng.below(3));
    set(23, 1, 1 + rng.below(127));
    set(25, 1, rng.below(64));
    set(26, 1, rng.below(129));
    set(27, 1, rng.below(129));
    let year = rng.between(FIRST_YEAR as usize, LAST_YEAR as usize) as u32;
    set(28, 2, year.into());
    set(30, 2, 1 + rng.below(dates::days_in(year).into()));
    bytes
}

pub fn kind(rng: &Rng) -> u32 {
    rng.pick(&[TELEMETRY, RSR])
}

pub fn primary(rng: &Rng, kind: u32) -> [u8; 4] {
    if kind == TELEMETRY {
        [(); 4].map(|_| rng.byte())
    } else {
        [21, 4, rng.byte(), 0]
    }
}

/// A record that read headers accepts, with random data.
pub fn good_record(rng: &Rng, kind: u32, data_length: usize) -> Vec<u8> {
    let (primary, secondary, data) = (primary(rng, kind), secondary(rng, kind), rng.bytes(data_length));
    record(kind, primary, &secondary, &data)
}

/// Mostly a few bytes, often none.
pub fn short_length(rng: &Rng) -> usize {
    match rng.below(10) {
        0..=2 => 0,
        3..=7 => rng.between(1, 24),
        8 => rng.between(25, 120),
        _ => rng.between(250, 270),
    }
}
