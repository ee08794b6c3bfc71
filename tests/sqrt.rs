//! Compares `lane_sqrt` of crates/host/out/libhost.a with the processor's f32 root: bits in, bits out, every NaN as 7fc00000
//! (document 01, "Commands").
//!
//!     sqrt [--seed N]     specials, the edges of every binade of both signs, and random patterns
//!     sqrt --all          all 2^32 patterns, on two threads

use std::process::ExitCode;

mod host;
mod random;
mod verdict;

use random::Random;

const NAN: u32 = 0x7fc0_0000;
const RANDOM: u64 = 4_000_000;

/// The root by the processor. That of -0 is -0, of any other negative and of a NaN one NaN.
fn expected(bits: u32) -> u32 {
    let root = f32::from_bits(bits).sqrt();
    if root.is_nan() { NAN } else { root.to_bits() }
}

fn compare(bits: u32) -> Result<(), String> {
    let (here, right) = (host::sqrt(bits), expected(bits));
    if here == right { Ok(()) } else { Err(format!("root of {bits:08x}: {here:08x}, the processor gives {right:08x}")) }
}

/// Patterns at both ends and in the middle of each binade, both signs; zeros, infinities and NaNs are among them.
fn edges() -> impl Iterator<Item = u32> {
    (0..512u32).flat_map(|binade| {
        let digits = (0..64u32).chain((1 << 22) - 32..(1 << 22) + 32).chain((1 << 23) - 64..1 << 23);
        digits.map(move |d| binade << 23 | d)
    })
}

/// Squares of 12 digits and their neighbours: roots that are exact, or just not.
fn squares() -> impl Iterator<Item = u32> {
    (1..4096u32).flat_map(|n| {
        let square = (n * n) as f32;
        [-1i32, 0, 1].map(|d| square.to_bits().wrapping_add_signed(d))
    })
}

fn sample(seed: u64) -> Result<u64, String> {
    let mut r = Random::new(seed);
    let random = (0..RANDOM).map(|_| r.u32());
    let mut count = 0;
    for bits in edges().chain(squares()).chain(random) {
        compare(bits)?;
        count += 1;
    }
    // Positive ones alone once more: half of the random patterns are negative.
    for _ in 0..RANDOM / 4 {
        compare(r.u32() & 0x7fff_ffff)?;
        count += 1;
    }
    Ok(count)
}

fn all() -> Result<u64, String> {
    let half = |first: u32| (0..1u32 << 31).try_for_each(|i| compare(first + i));
    std::thread::scope(|s| {
        let other = s.spawn(|| half(1 << 31));
        half(0)?;
        other.join().unwrap()
    })?;
    Ok(1 << 32)
}

fn main() -> ExitCode {
    let args: Vec<String> = std::env::args().skip(1).collect();
    let words: Vec<&str> = args.iter().map(String::as_str).collect();
    let result = match words[..] {
        [] => sample(1),
        ["--all"] => all(),
        ["--seed", seed] => sample(seed.parse().expect("a number")),
        _ => Err("sqrt [--seed N | --all]".to_string()),
    };
    verdict::told(result.map(|count| format!("{count} patterns agree")))
}
