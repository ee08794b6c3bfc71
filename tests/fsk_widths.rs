//! Compares `lane_fsk_widths` of crates/host/out/libhost.a with the published `fsk_widths` on seeded slot lists of many
//! classes, and tries refusal 9.
//!
//!     fsk_widths [--lists N] [--seed N]      compare
//!     fsk_widths --write                     print the kept sample: some lists and the published answers
//!
//! tests/fsk_widths_kept.rs replays the sample where the published source is not at hand.

use std::process::ExitCode;

mod host;
mod lists;
mod random;
mod verdict;

#[allow(dead_code)]
mod published {
    include!("../target/tests/published.rs");

    pub fn widths(slots: &[u32]) -> Vec<u32> {
        let mut widths = slots.to_vec();
        fsk_widths(&mut widths);
        widths
    }
}

use lists::{CLASSES, Class, SLOTS_MOST};
use random::Random;
use verdict::{Census, at_least};

/// Lists that a comparison must have of each class, at the least.
const LEAST: u64 = 1000;

fn ours(slots: &[u32]) -> Result<Vec<u32>, u32> {
    let mut widths = slots.to_vec();
    host::fsk_widths(&mut widths).map(|()| widths)
}

fn differs(slots: &[u32]) -> bool {
    ours(slots) != Ok(published::widths(slots))
}

/// A shorter list, or one of smaller numbers, that differs too; tried until none is left.
fn shrunken(mut slots: Vec<u32>) -> Vec<u32> {
    loop {
        let next = smaller(&slots).find(|s| differs(s));
        match next {
            Some(s) => slots = s,
            None => return slots,
        }
    }
}

/// Lists without some neighbouring pairs, then lists with one smaller number.
fn smaller(slots: &[u32]) -> impl Iterator<Item = Vec<u32>> + '_ {
    let n = slots.len();
    let sizes = std::iter::successors(Some(n / 2), |k| (*k > 1).then_some(k / 2)).map(|k| (k + 1) & !1);
    let shorter = sizes.flat_map(move |k| {
        (0..n).step_by(2).filter(move |i| k > 0 && i + k <= n).map(move |i| {
            let mut s = slots.to_vec();
            s.drain(i..i + k);
            s
        })
    });
    let lower = (0..n).flat_map(move |i| {
        [slots[i] / 2, slots[i] & !63, slots[i].saturating_sub(1)].into_iter().filter(move |v| *v < slots[i]).map(
            move |v| {
                let mut s = slots.to_vec();
                s[i] = v;
                s
            },
        )
    });
    shorter.chain(lower)
}

fn failed(what: &str, slots: &[u32]) -> String {
    let small = shrunken(slots.to_vec());
    format!("{what}: slots {small:?}\n  published {:?}\n  here      {:?}", published::widths(&small), ours(&small))
}

fn compare(r: &mut Random, count: u64) -> Result<String, String> {
    let mut counts = Census::new();
    for i in 0..count {
        let class = if i == 0 { Class::Empty } else { CLASSES[i as usize % CLASSES.len()] };
        let slots = lists::list(r, class);
        *counts.entry(format!("{class:?}")).or_default() += 1;
        if differs(&slots) {
            return Err(failed(&format!("{class:?}, list {i}"), &slots));
        }
    }
    for class in CLASSES {
        at_least(&counts, &[(&format!("{class:?}"), LEAST)])?;
    }
    Ok(format!("{count} lists agree: {}", verdict::words(&counts)))
}

/// The longest list, of a frame on a grid and of any numbers, and a list of two less.
fn longest(r: &mut Random) -> Result<String, String> {
    for n in [SLOTS_MOST, SLOTS_MOST - 2] {
        let frame = lists::frame(r, n, 700.0, 0.1);
        let any: Vec<u32> = (0..n).map(|_| r.u32()).collect();
        for slots in [frame, any] {
            if differs(&slots) {
                return Err(format!("a list of {n} slots differs"));
            }
        }
    }
    Ok(format!("4 lists of {} and {SLOTS_MOST} slots agree", SLOTS_MOST - 2))
}

/// Refusal 9 changes nothing.
fn refusals(r: &mut Random) -> Result<String, String> {
    let lengths = (0..200).chain([4 * SLOTS_MOST - 4, 4 * SLOTS_MOST + 4, 4 * SLOTS_MOST + 8, 8 * SLOTS_MOST]);
    let mut tried = 0;
    for n in lengths.filter(|n| n % 8 != 0 || *n > 4 * SLOTS_MOST) {
        let bytes: Vec<u8> = (0..n).map(|_| r.u32() as u8).collect();
        let mut after = bytes.clone();
        let reply = host::fsk_widths_of_bytes(&mut after);
        if reply != 9 || after != bytes {
            return Err(format!("{n} bytes: reply {reply}, 9 and nothing changed expected"));
        }
        tried += 1;
    }
    Ok(format!("{tried} odd, overlong and broken lists refused by 9"))
}

/// A few lists of each class: `slots : widths`.
fn write_sample() {
    let mut r = Random::new(9);
    for i in 0..40 * CLASSES.len() {
        let slots = lists::list(&mut r, CLASSES[i % CLASSES.len()]);
        if slots.len() > 64 {
            continue;
        }
        let words = |s: &[u32]| s.iter().map(|v| format!("{v} ")).collect::<String>();
        let widths = words(&published::widths(&slots));
        println!("{}: {}", words(&slots), widths.trim_end());
    }
}

fn run() -> Result<String, String> {
    let (mut seed, mut count) = (1, 200_000);
    let mut args = std::env::args().skip(1);
    while let Some(a) = args.next() {
        let number = |v: Option<String>| v.and_then(|v| v.parse().ok()).ok_or(format!("{a}: a number"));
        match a.as_str() {
            "--lists" => count = number(args.next())?,
            "--seed" => seed = number(args.next())?,
            _ => return Err(format!("unknown option {a}")),
        }
    }
    let mut r = Random::new(seed);
    Ok([compare(&mut r, count)?, longest(&mut r)?, refusals(&mut r)?].join("\n"))
}

fn main() -> ExitCode {
    if std::env::args().nth(1).as_deref() == Some("--write") {
        write_sample();
        return ExitCode::SUCCESS;
    }
    verdict::told(run())
}
