//! Compares the arithmetic leaves, exported by bit pattern in crates/exports/out/libexports.a, with the published functions and
//! document 01's stand-ins.
//!
//!     leaves [--seed N] [--cases N]      cases for each function

use std::process::ExitCode;

mod bits;
mod leaf;
mod random;
mod verdict;

use bits::{Run, bits_of_f32, bits_of_f64, float, program, two_of_f32};
use random::Random;

#[allow(dead_code)]
mod published {
    use super::bits::{bits32, bits64, double, float};

    include!("../target/tests/published.rs");

    // The functions by bit pattern.
    pub fn midpoint(a: u32, b: u32) -> u32 {
        bits32(float(a).lane_midpoint(float(b)))
    }
    pub fn flush(x: u32) -> u32 {
        bits32(flush_denormal(float(x)))
    }
    pub fn cross_bits(prev: u32, cur: u32, thr: u32) -> u64 {
        bits64(cross(float(prev), float(cur), float(thr)))
    }
    pub fn edge_bits(idx: u64, frac: u64) -> u64 {
        bits64(edge(idx, double(frac)))
    }
    pub fn whole_bits(x: u64) -> u32 {
        whole(double(x))
    }
    pub fn step_of_bits(t: u64) -> u64 {
        step_of(double(t))
    }
    pub fn width_bits(a: u64, b: u64) -> u32 {
        width(double(a), double(b))
    }
    pub fn fsk_width_bits(a: u64, b: u64) -> u32 {
        fsk_width(double(a), double(b))
    }
    pub fn run_fix_bits(t: u64) -> u32 {
        run_fix(double(t))
    }
    pub fn a_gain_bits(e: u32) -> u32 {
        bits32(a_gain(float(e)))
    }
    pub fn atan2_fast_bits(y: u32, x: u32) -> u32 {
        bits32(atan2_fast(float(y), float(x)))
    }
    pub fn lead_len_of(n: u32) -> u32 {
        lead_len(n)
    }
}

/// Two times in steps, often near each other.
fn two_times(r: &mut Random) -> (u64, u64) {
    if r.once_in(3) {
        return (bits_of_f64(r), bits_of_f64(r));
    }
    let mut time = |powers: [u32; 3]| {
        let power = r.pick(&powers);
        let part = if r.once_in(2) { r.unit() } else { r.pick(&[0.0, 0.25, 0.5]) };
        r.below(1 << power) as f64 + part
    };
    let start = time([4, 20, 41]);
    let length = time([4, 12, 33]) - 0.5;
    (start.to_bits(), (start + length).to_bits())
}

fn of_f32(run: &mut Run) -> Result<(), String> {
    run.compare("midpoint", two_of_f32, |(a, b)| leaf::midpoint(a, b), |(a, b)| published::midpoint(a, b))?;
    run.compare("flush", bits_of_f32, leaf::flush, published::flush)?;
    run.compare("a_gain", bits_of_f32, leaf::a_gain, published::a_gain_bits)?;
    run.compare("atan2_fast", two_of_f32, |(y, x)| leaf::atan2_fast(y, x), |(y, x)| published::atan2_fast_bits(y, x))?;
    run.compare(
        "cross",
        |r| {
            let (prev, cur) = two_of_f32(r);
            let thr = if r.once_in(3) { bits_of_f32(r) } else { float(prev).midpoint(float(cur)).to_bits() };
            (prev, cur, thr)
        },
        |(prev, cur, thr)| leaf::cross(prev, cur, thr),
        |(prev, cur, thr)| published::cross_bits(prev, cur, thr),
    )
}

fn of_times(run: &mut Run) -> Result<(), String> {
    run.compare(
        "edge",
        |r| (r.u64() >> r.below(64), if r.once_in(2) { r.unit().to_bits() } else { bits_of_f64(r) }),
        |(idx, frac)| leaf::edge(idx, frac),
        |(idx, frac)| published::edge_bits(idx, frac),
    )?;
    run.compare("whole", bits_of_f64, leaf::whole, published::whole_bits)?;
    run.compare("step_of", bits_of_f64, leaf::step_of, published::step_of_bits)?;
    run.compare("width", two_times, |(a, b)| leaf::width(a, b), |(a, b)| published::width_bits(a, b))?;
    run.compare("fsk_width", two_times, |(a, b)| leaf::fsk_width(a, b), |(a, b)| published::fsk_width_bits(a, b))?;
    run.compare("run_fix", bits_of_f64, leaf::run_fix, published::run_fix_bits)
}

fn all(run: &mut Run) -> Result<(), String> {
    run.compare("lead_len", |r| r.u32() >> r.below(32), leaf::lead_len, published::lead_len_of)?;
    of_f32(run)?;
    of_times(run)
}

fn main() -> ExitCode {
    program(all)
}
