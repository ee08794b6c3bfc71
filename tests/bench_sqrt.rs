//! Times three f32 roots on the same million inputs, all compiled for release: `lane_sqrt` of crates/host/out/libhost.a, a
//! plain Rust root that finds the root one bit at a time, and the processor's. Nanoseconds per call, each part of the inputs by the
//! best of several rounds taken in turn, so that other work on the machine counts little. The three must agree.

use std::hint::{black_box, select_unpredictable};
use std::time::Instant;

mod host;
mod random;

use random::Random;

const INPUTS: usize = 1_000_000;
const PART: usize = 10_000;
const ROUNDS: usize = 25;
const NAN: u32 = 0x7fc0_0000;
const INFINITY: u32 = 0x7f80_0000;

fn by_processor(bits: u32) -> u32 {
    f32::from_bits(bits).sqrt().to_bits()
}

/// The root, one bit at a time, without a branch on a digit: such a branch goes either way at random, and made the root take
/// several times as long.
fn bit_by_bit(bits: u32) -> u32 {
    if bits << 1 == 0 || bits == INFINITY {
        return bits;
    }
    if bits > INFINITY {
        // A NaN or a negative.
        return NAN;
    }
    // The value is digits * 2^(exponent - 150).
    let (digits, exponent) = match bits >> 23 {
        0 => (bits, 1),
        e => (bits & 0x7f_ffff | 0x80_0000, e),
    };
    // By an even power of two to 2^48 or more and below 2^50.
    let half = (33 - digits.leading_zeros() + exponent) / 2;
    let scaled = u64::from(digits) << (50 + exponent - 2 * half);
    let mut root = 0u64;
    for place in (0..25).rev() {
        let next = root | 1 << place;
        root = select_unpredictable(next * next <= scaled, next, root);
    }
    // 25 digits, of which the last is half a unit of the result and stands for more: no root lies in the middle of two floats. A
    // carry out of the 24 kept raises the exponent as it should.
    ((half + 50) << 23) + (root >> 1) as u32 + (root & 1) as u32
}

/// Nanoseconds, and a sum of the results.
fn timed(inputs: &[u32], f: impl Fn(u32) -> u32) -> (f64, u64) {
    let start = Instant::now();
    let mut sum = 0u64;
    for &bits in inputs {
        sum = sum.wrapping_mul(31).wrapping_add(u64::from(f(black_box(bits))));
    }
    (start.elapsed().as_secs_f64() * 1e9, sum)
}

fn main() {
    let mut r = Random::new(2);
    // Finite numbers from 0 on, every exponent as often.
    let inputs: Vec<u32> = (0..INPUTS).map(|_| r.below(u64::from(INFINITY)) as u32).collect();
    let roots: [(&str, fn(u32) -> u32); 3] =
        [("lane_sqrt", host::sqrt), ("plain Rust, one bit at a time", bit_by_bit), ("the processor", by_processor)];
    let mut best = vec![[f64::INFINITY; 3]; INPUTS / PART];
    for _ in 0..ROUNDS {
        for (best, part) in best.iter_mut().zip(inputs.chunks(PART)) {
            let times = roots.map(|(_, root)| timed(part, root));
            assert!(times.iter().all(|t| t.1 == times[0].1), "the roots differ");
            *best = [0, 1, 2].map(|i| best[i].min(times[i].0));
        }
    }
    let per_call = [0, 1, 2].map(|i| best.iter().map(|b| b[i]).sum::<f64>() / INPUTS as f64);
    for (ns, (name, _)) in per_call.iter().zip(roots) {
        println!("{name}: {ns:.2} ns per call");
    }
    println!("lane_sqrt takes {:.2} of the plain root's time", per_call[0] / per_call[1]);
}
