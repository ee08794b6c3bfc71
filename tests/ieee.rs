//! The operations of IEEE 754-2019 in the arithmetic, exported by bit pattern in crates/exports/out/libexports.a: on vectors with
//! the standard's answers written out, then against Rust's own arithmetic.
//!
//!     ieee [--seed N] [--cases N]      cases for each function

use std::fmt::Debug;
use std::process::ExitCode;

mod bits;
mod leaf;
mod random;
mod verdict;

use bits::{NAN32, NAN64, Run, bits_of_f32, bits_of_f64, bits32, bits64, double, float, program, two_of_f32};
use random::Random;

const INF64: u64 = 0x7ff0 << 48;
const MINUS: u64 = 1 << 63;

/// roundToIntegralTiesToAway (5.9); the sign of a zero result is that of the operand (6.3).
const ROUND: [(u64, u64); 12] = [
    (0x4004_0000_0000_0000, 0x4008_0000_0000_0000), // 2.5: 3
    (0xc004_0000_0000_0000, 0xc008_0000_0000_0000), // -2.5: -3
    (0x3fe0_0000_0000_0000, 0x3ff0_0000_0000_0000), // 0.5: 1
    (0x3fdf_ffff_ffff_ffff, 0),                     // the number before 0.5: 0
    (0xbfdf_ffff_ffff_ffff, MINUS),
    (1, 0),
    (MINUS, MINUS),
    (0x432f_ffff_ffff_ffff, 0x4330_0000_0000_0000), // 2^52 - 0.5: 2^52
    (0x4340_0000_0000_0001, 0x4340_0000_0000_0001), // whole already
    (INF64, INF64),
    (MINUS | INF64, MINUS | INF64),
    (0xfff0_0000_0000_0001, NAN64),
];

/// convertFormat (5.4.2) with roundTiesToEven (4.3.1); an overflow gives an infinity (7.4).
const NARROW: [(u64, u32); 12] = [
    (0x3ff0_0000_1000_0000, 0x3f80_0000), // halfway above 1: the even one, below
    (0x3ff0_0000_3000_0000, 0x3f80_0002), // halfway: the even one, above
    (0x3ff0_0000_1000_0001, 0x3f80_0001),
    (0x47ef_ffff_efff_ffff, 0x7f7f_ffff), // before halfway past the largest
    (0x47ef_ffff_f000_0000, 0x7f80_0000), // halfway
    (0xc7ef_ffff_f000_0000, 0xff80_0000),
    (0x3690_0000_0000_0000, 0), // half of the smallest subnormal: the even one, 0
    (0x3690_0000_0000_0001, 1),
    (0xb690_0000_0000_0000, 1 << 31),
    (0x380f_ffff_e000_0000, 0x0080_0000), // halfway from the largest subnormal to the smallest normal number
    (MINUS | INF64, 0xff80_0000),
    (NAN64, NAN32),
];

/// convertFormat (5.4.2) to the wider format: exact, with the sign of zeros and infinities.
const WIDEN: [(u32, u64); 14] = [
    (0, 0),
    (1 << 31, MINUS),
    (1, 0x36a0_0000_0000_0000), // the smallest subnormal, 2^-149
    (0x8000_0001, 0xb6a0_0000_0000_0000),
    (0x007f_ffff, 0x380f_ffff_c000_0000), // the largest subnormal
    (0x0080_0000, 0x3810_0000_0000_0000), // the smallest normal number, 2^-126
    (0x3f80_0000, 0x3ff0_0000_0000_0000), // 1
    (0xbfc0_0000, 0xbff8_0000_0000_0000), // -1.5
    (0x7f7f_ffff, 0x47ef_ffff_e000_0000), // the largest number
    (0xff7f_ffff, 0xc7ef_ffff_e000_0000),
    (0x7f80_0000, INF64),
    (0xff80_0000, MINUS | INF64),
    (NAN32, NAN64),
    (0xff80_0001, NAN64), // a signalling NaN
];

/// Towards zero (convertToIntegerTowardZero, 5.8); what the standard calls invalid is the nearest end of the range, and 0 for
/// a NaN. As a u32 and as a u64.
const WHOLE: [(u64, u32, u64); 9] = [
    (0x3fef_ffff_ffff_ffff, 0, 0),
    (0xbfe0_0000_0000_0000, 0, 0),
    (0xbff0_0000_0000_0000, 0, 0),
    (0x41ef_ffff_ffff_ffff, u32::MAX, 0xffff_ffff), // 2^32 less 2^-21
    (0x41f0_0000_0000_0000, u32::MAX, 1 << 32),
    (0x43ef_ffff_ffff_ffff, u32::MAX, 0xffff_ffff_ffff_f800), // the number before 2^64
    (INF64, u32::MAX, u64::MAX),
    (MINUS | INF64, 0, 0),
    (NAN64, 0, 0),
];

fn vector<A: Debug, B: Debug + PartialEq>(name: &str, a: A, got: B, wanted: B) -> Result<(), String> {
    if got == wanted { Ok(()) } else { Err(format!("{name} of {a:x?}: {got:x?}, expected {wanted:x?}")) }
}

fn vectors() -> Result<(), String> {
    for (x, wanted) in ROUND {
        vector("round", x, leaf::round(x), wanted)?;
    }
    for (x, wanted) in NARROW {
        vector("narrow", x, leaf::narrow(x), wanted)?;
    }
    for (x, wanted) in WIDEN {
        vector("widen", x, leaf::widen(x), wanted)?;
    }
    for (x, wanted32, wanted64) in WHOLE {
        vector("to_u32", x, leaf::to_u32(x), wanted32)?;
        vector("to_u64", x, leaf::to_u64(x), wanted64)?;
    }
    // convertFromInt (5.4.1): 2^24 + 1 and 2^53 + 1 lie halfway, and the largest go up to a power of two.
    vector("u32_to_f32", 0x0100_0001, leaf::u32_to_f32(0x0100_0001), 0x4b80_0000)?;
    vector("u32_to_f32", u32::MAX, leaf::u32_to_f32(u32::MAX), 0x4f80_0000)?;
    vector("u64_to_f64", (1u64 << 53) + 1, leaf::u64_to_f64((1 << 53) + 1), 0x4340_0000_0000_0000)?;
    vector("u64_to_f64", u64::MAX, leaf::u64_to_f64(u64::MAX), 0x43f0_0000_0000_0000)
}

/// `widen` with every sign and exponent's field, at both ends of the digits and between, against Rust's `as f64`.
fn every_exponent() -> Result<(), String> {
    for above in 0..1 << 9 {
        for digits in [0, 1, 2, 0x2a_aaaa, 0x3f_ffff, 0x40_0000, 0x40_0001, 0x7f_fffe, 0x7f_ffff] {
            let x = above << 23 | digits;
            vector("widen", x, leaf::widen(x), bits64(float(x) as f64))?;
        }
    }
    Ok(())
}

/// Rust leaves open which zero `max` and `min` of two zeros is; the lane does not see it.
fn either_zero(bits: u32) -> u32 {
    if bits == 1 << 31 { 0 } else { bits }
}

fn all(run: &mut Run) -> Result<(), String> {
    vectors()?;
    every_exponent()?;
    run.compare("round", bits_of_f64, leaf::round, |x| bits64(double(x).round()))?;
    run.compare("narrow", bits_of_f64, leaf::narrow, |x| bits32(double(x) as f32))?;
    run.compare("widen", bits_of_f32, leaf::widen, |x| bits64(float(x) as f64))?;
    run.compare("to_u32", bits_of_f64, leaf::to_u32, |x| double(x) as u32)?;
    run.compare("to_u64", bits_of_f64, leaf::to_u64, |x| double(x) as u64)?;
    let any32 = |r: &mut Random| r.u32() >> r.below(32);
    let any64 = |r: &mut Random| r.u64() >> r.below(64);
    run.compare("u32_to_f32", any32, leaf::u32_to_f32, |n| (n as f32).to_bits())?;
    run.compare("u64_to_f64", any64, leaf::u64_to_f64, |n| (n as f64).to_bits())?;
    run.compare(
        "max",
        two_of_f32,
        |(a, b)| either_zero(leaf::max(a, b)),
        |(a, b)| either_zero(bits32(float(a).max(float(b)))),
    )?;
    run.compare(
        "min",
        two_of_f32,
        |(a, b)| either_zero(leaf::min(a, b)),
        |(a, b)| either_zero(bits32(float(a).min(float(b)))),
    )
}

fn main() -> ExitCode {
    program(all)
}
