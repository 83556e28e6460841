//! Files, texts and damage by seed: the same seed gives the same bytes on every machine.

use std::sync::atomic::{AtomicU64, Ordering};

use crate::format::{permitted_byte, permitted_text, Record};

/// The seed of the whole run. With 0 each maker begins from its own seed alone.
static RUN: AtomicU64 = AtomicU64::new(0);

/// Takes the run's seed from SLOVDRIM_SEED, if it is set.
pub fn take_seed() -> u64 {
    let seed = match std::env::var("SLOVDRIM_SEED") {
        Ok(text) => text.parse().unwrap_or_else(|_| panic!("SLOVDRIM_SEED is no number: {}", text)),
        Err(_) => 0,
    };
    RUN.store(seed, Ordering::Relaxed);
    seed
}

pub struct Random(u64);

impl Random {
    pub fn new(seed: u64) -> Random {
        Random(seed.wrapping_add(RUN.load(Ordering::Relaxed).wrapping_mul(0xd134_2543_de82_ef95)))
    }

    pub fn next(&mut self) -> u64 {
        self.0 = self.0.wrapping_add(0x9e37_79b9_7f4a_7c15);
        let a = (self.0 ^ self.0 >> 30).wrapping_mul(0xbf58_476d_1ce4_e5b9);
        let b = (a ^ a >> 27).wrapping_mul(0x94d0_49bb_1331_11eb);
        b ^ b >> 31
    }

    /// A number below `end`.
    pub fn below(&mut self, end: usize) -> usize {
        (self.next() % end as u64) as usize
    }

    pub fn one_in(&mut self, n: usize) -> bool {
        self.below(n) == 0
    }

    pub fn byte(&mut self) -> u8 {
        self.next() as u8
    }

    pub fn pick(&mut self, from: &[u8]) -> u8 {
        from[self.below(from.len())]
    }
}

/// Bytes that stand at the edges of what a text may hold, and those that the form of a file is made of.
pub const TELLING: [u8; 24] = [
    b'"', b',', b';', b'\r', b'\n', b'a', b' ', b'~', 0, 9, 31, 127, 128, 0x81, 0x82, 0x83, 0x88, 0x89, 0x90, 0x98, 0x9a, 0xa7, 0xec, 255,
];

/// Any text at all, permitted or not.
pub fn any_text(r: &mut Random, longest: usize) -> Vec<u8> {
    let length = r.below(longest + 1);
    let kind = r.below(4);
    (0..length)
        .map(|_| match kind {
            0 => r.pick(b"0123456789"),
            1 => r.pick(b"\"\",;a "),
            2 => r.pick(&TELLING),
            _ => r.byte(),
        })
        .collect()
}

/// A permitted text, with quotes, commas and semicolons wherever they may stand.
pub fn text(r: &mut Random, longest: usize) -> Vec<u8> {
    let mut t = Vec::new();
    for b in any_text(r, longest) {
        t.push(b);
        if !permitted_byte(b) || !permitted_text(&t[t.len().saturating_sub(2)..]) {
            t.pop();
        }
    }
    t
}

pub fn records(r: &mut Random, fields: usize, count: usize, longest: usize) -> Vec<Record> {
    (0..count).map(|_| (0..fields).map(|_| text(r, longest)).collect()).collect()
}

/// One to four changes, anywhere.
pub fn damaged(r: &mut Random, bytes: &[u8]) -> Vec<u8> {
    let mut d = bytes.to_vec();
    for _ in 0..1 + r.below(4) {
        let at = r.below(d.len() + 1);
        let other = r.below(d.len() + 1);
        let (from, to) = (at.min(other), at.max(other));
        match r.below(7) {
            0 if at < d.len() => d[at] = r.pick(&TELLING),
            1 if at < d.len() => d[at] = r.byte(),
            2 if at < d.len() => {
                d.remove(at);
            }
            3 => d.insert(at, r.pick(&TELLING)),
            4 if at < d.len() && other < d.len() => d.swap(at, other),
            5 if r.one_in(4) => d.truncate(at),
            6 if to - from < 64 => {
                let again = d[from..to].to_vec();
                d.splice(at..at, again);
            }
            _ => (),
        }
    }
    d
}
