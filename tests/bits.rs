//! Floats by bit pattern for the tests of the arithmetic: patterns from a seed, and a run that compares functions on them. Every
//! NaN counts as one value. Each program uses a part of it.

#![allow(dead_code)]

use std::fmt::Debug;
use std::process::ExitCode;

use crate::random::Random;
use crate::verdict::told;

/// Cases that a run must have of each function, at the least.
const LEAST: u64 = 100_000;

pub const NAN32: u32 = 0x7fc0_0000;
pub const NAN64: u64 = 0x7ff8_0000_0000_0000;

pub fn float(bits: u32) -> f32 {
    f32::from_bits(bits)
}

pub fn double(bits: u64) -> f64 {
    f64::from_bits(bits)
}

pub fn bits32(x: f32) -> u32 {
    if x.is_nan() { NAN32 } else { x.to_bits() }
}

pub fn bits64(x: f64) -> u64 {
    if x.is_nan() { NAN64 } else { x.to_bits() }
}

/// A power of two of either sign with a few digits changed: values around the places where a format or a cast ends.
fn near_power(r: &mut Random, least: i64, most: i64) -> f64 {
    let power = 2f64.powi((least + r.below((most - least + 1) as u64) as i64) as i32);
    let value = double(power.to_bits().wrapping_add_signed(r.below(9) as i64 - 4));
    if r.once_in(2) { value } else { -value }
}

/// A value halfway between two neighbouring f32, or beside that.
fn near_half_of_f32(r: &mut Random) -> u64 {
    let x = f64::from(float(r.u32())).to_bits();
    // The digits of an f32 end 29 places above those of an f64; a subnormal's end higher.
    let half = 1u64 << r.pick(&[28, 28, 28, 29, 33, 40, 50, 51]);
    (x | half).wrapping_add_signed(r.below(3) as i64 - 1)
}

pub fn bits_of_f64(r: &mut Random) -> u64 {
    match r.below(10) {
        0 => r.u64(),
        1 => near_power(r, -160, 140).to_bits(),
        2 => near_power(r, -2, 66).to_bits(),
        3 => near_half_of_f32(r),
        // Whole numbers and halves, and what lies beside them.
        4 => {
            let power = r.pick(&[4, 16, 32, 53]);
            let half = r.below(1 << power) as f64 / 2.0;
            half.to_bits().wrapping_add_signed(r.below(3) as i64 - 1)
        }
        5 => (r.below(1 << 48) as f64 / 64.0).to_bits(),
        6 => (r.below(1 << 48) as f64 / -128.0).to_bits(),
        7 => f64::from(float(r.u32())).to_bits(),
        8 => r.between(-3.0, 1e6).to_bits(),
        _ => r.pick(&[0, 1 << 63, 1, NAN64, 0x7ff0 << 48, 0xfff0 << 48, u64::MAX, 1 << 52]),
    }
}

pub fn bits_of_f32(r: &mut Random) -> u32 {
    match r.below(8) {
        0..3 => r.u32(),
        // Small whole numbers and eighths.
        3 => (r.below(1 << 12) as f32 / 8.0 - 100.0).to_bits(),
        // Around the smallest normal number, the largest, and one.
        4 => {
            let at = r.pick(&[0x0080_0000u32, 0x7f80_0000, 0x3f80_0000, 0x0da2_4260, 0x2690_1d7d]);
            at.wrapping_add_signed(r.below(64) as i32 - 32) | (r.u32() & 1) << 31
        }
        5 => (r.between(0.0, 1e18) as f32).to_bits(),
        6 => (r.between(-10.0, 10.0) as f32).to_bits(),
        _ => r.pick(&[0, 1 << 31, 1, NAN32, 0x7f80_0000, 0xff80_0000, u32::MAX, 0x007f_ffff]),
    }
}

/// Two f32, often equal, of opposite sign or neighbours.
pub fn two_of_f32(r: &mut Random) -> (u32, u32) {
    let a = bits_of_f32(r);
    let b = match r.below(6) {
        0 => a,
        1 => a ^ 1 << 31,
        2 => a.wrapping_add_signed(r.below(5) as i32 - 2),
        _ => bits_of_f32(r),
    };
    (a, b)
}

pub struct Run {
    r: Random,
    cases: u64,
    names: Vec<&'static str>,
}

impl Run {
    pub fn compare<A: Debug + Copy, B: Debug + PartialEq>(
        &mut self,
        name: &'static str,
        arguments: impl Fn(&mut Random) -> A,
        here: impl Fn(A) -> B,
        right: impl Fn(A) -> B,
    ) -> Result<(), String> {
        for _ in 0..self.cases {
            let a = arguments(&mut self.r);
            let (got, wanted) = (here(a), right(a));
            if got != wanted {
                return Err(format!("{name} of {a:x?}: {got:x?}, expected {wanted:x?}"));
            }
        }
        self.names.push(name);
        Ok(())
    }
}

/// Runs `all` with the options `--seed N` and `--cases N`, the cases for each function.
pub fn program(all: impl Fn(&mut Run) -> Result<(), String>) -> ExitCode {
    let done = options().and_then(|mut run| all(&mut run).map(|()| run));
    told(done.and_then(|run| {
        let figures =
            format!("{} functions agree in {} cases each: {}", run.names.len(), run.cases, run.names.join(", "));
        if run.cases < LEAST { Err(format!("{figures}\nand {LEAST} cases are wanted")) } else { Ok(figures) }
    }))
}

fn options() -> Result<Run, String> {
    let (mut seed, mut cases) = (1, 1_000_000);
    let mut args = std::env::args().skip(1);
    while let Some(a) = args.next() {
        let number = args.next().and_then(|v| v.parse().ok()).ok_or(format!("{a}: a number"))?;
        match a.as_str() {
            "--seed" => seed = number,
            "--cases" => cases = number,
            _ => return Err(format!("unknown option {a}")),
        }
    }
    Ok(Run { r: Random::new(seed), cases, names: Vec::new() })
}
