//! Slot lists for the FSK widths: ends of runs in 64ths of a step after the start of a frame, as `fsk_commit` keeps them, and
//! lists that no frame gives.

#![allow(dead_code)]

use crate::random::Random;

/// The longest list (document 01, refusal 9).
pub const SLOTS_MOST: usize = 131_072;

#[derive(Clone, Copy, Debug, PartialEq, Eq, PartialOrd, Ord)]
pub enum Class {
    /// Runs of whole symbols, their ends moved by up to some hundredths of a symbol.
    Exact,
    Jitter5,
    Jitter20,
    Jitter35,
    Jitter60,
    /// Symbols of a whole number of half steps: boundaries at ties.
    Ties,
    /// Few runs of few lengths: distances at the tolerances themselves.
    Tolerance,
    /// Runs of any length.
    OffGrid,
    /// Slots without a run in between.
    EmptySlots,
    /// Fewer than five transitions.
    Few,
    /// Ends at the ceiling of 32 bits.
    Ceiling,
    /// Any numbers, small ones and large ones.
    Arbitrary,
    ArbitrarySmall,
    Empty,
}

/// Those that are drawn in turn; the empty list needs no second try.
pub const CLASSES: [Class; 13] = [
    Class::Exact,
    Class::Jitter5,
    Class::Jitter20,
    Class::Jitter35,
    Class::Jitter60,
    Class::Ties,
    Class::Tolerance,
    Class::OffGrid,
    Class::EmptySlots,
    Class::Few,
    Class::Ceiling,
    Class::Arbitrary,
    Class::ArbitrarySmall,
];

/// The ends of `count` runs of whole symbols of `symbol` 64ths, each moved by up to `jitter` symbols.
pub fn frame(r: &mut Random, count: usize, symbol: f64, jitter: f64) -> Vec<u32> {
    let mut ends = Vec::with_capacity(count);
    let mut at = symbol * r.between(0.2, 1.5);
    let mut before = 0u32;
    for _ in 0..count {
        let end = at + symbol * r.between(-jitter, jitter);
        before = before.max(end as u32);
        ends.push(before);
        at += symbol * r.pick(&[1.0, 1.0, 1.0, 2.0, 2.0, 3.0, 5.0]);
    }
    ends
}

/// As a frame keeps them: the first slot may be empty, and the last one is where the count of runs is odd.
fn as_slots(r: &mut Random, mut ends: Vec<u32>) -> Vec<u32> {
    if r.once_in(2) {
        ends.insert(0, 0);
    }
    if ends.len() % 2 == 1 {
        ends.push(ends[ends.len() - 1]);
    }
    ends
}

fn runs(r: &mut Random) -> usize {
    let most = if r.once_in(20) { 600 } else { 60 };
    r.from_to(1, most) as usize
}

fn arbitrary(r: &mut Random, most: u64) -> Vec<u32> {
    let n = 2 * r.from_to(1, 30);
    (0..n).map(|_| r.from_to(0, most) as u32).collect()
}

pub fn list(r: &mut Random, class: Class) -> Vec<u32> {
    let count = runs(r);
    let symbol = 64.0 * r.between(0.8, 40.0);
    let ends = match class {
        Class::Exact => frame(r, count, symbol, 0.0),
        Class::Jitter5 => frame(r, count, symbol, 0.05),
        Class::Jitter20 => frame(r, count, symbol, 0.2),
        Class::Jitter35 => frame(r, count, symbol, 0.35),
        Class::Jitter60 => frame(r, count, symbol, 0.6),
        Class::Ties => {
            let half_steps = 32.0 * r.from_to(1, 30) as f64;
            frame(r, count, half_steps, 0.0)
        }
        Class::Tolerance => few_lengths(r),
        Class::OffGrid => rising(r, count, 3000),
        Class::EmptySlots => {
            let mut ends = frame(r, count, symbol, 0.1);
            for i in 1..ends.len() {
                if r.once_in(5) {
                    ends[i] = ends[i - 1];
                }
            }
            ends
        }
        Class::Few => {
            let count = r.from_to(1, 6) as usize;
            frame(r, count, symbol, 0.1)
        }
        Class::Ceiling => {
            let top = u32::MAX - r.from_to(0, 200_000) as u32;
            let ends = frame(r, count, symbol, 0.1);
            ends.iter().map(|e| top.saturating_add(*e)).collect()
        }
        Class::Arbitrary => return arbitrary(r, u64::from(u32::MAX)),
        Class::ArbitrarySmall => return arbitrary(r, 400),
        Class::Empty => return Vec::new(),
    };
    as_slots(r, ends)
}

fn rising(r: &mut Random, count: usize, most: u64) -> Vec<u32> {
    let mut at = 0;
    (0..count)
        .map(|_| {
            at += r.from_to(1, most) as u32;
            at
        })
        .collect()
}

/// Five to nine runs whose lengths are small multiples of one number.
fn few_lengths(r: &mut Random) -> Vec<u32> {
    let unit = r.pick(&[1, 4, 16, 64]);
    let least = r.from_to(2, 8);
    let most = least + r.from_to(1, 6);
    let mut at = 0;
    (0..r.from_to(6, 10))
        .map(|_| {
            at += unit * r.from_to(least, most) as u32 * r.pick(&[1, 1, 2]);
            at
        })
        .collect()
}
