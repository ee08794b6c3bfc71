//! The arithmetic in crates/exports/out/libexports.a: its entry `leaf`, which takes the leaf's number and bit patterns, as a function for each leaf.
//! An f32's pattern, and a u32, is the lower half of what goes in and of what comes out.

#![allow(dead_code)]

unsafe extern "C" {
    safe fn leaf(op: u32, x: u64, y: u64, z: u64) -> u64;
}

fn short(bits: u64) -> u32 {
    u32::try_from(bits).expect("a leaf of 32 bits gives no more")
}

// ---- of f32

pub fn widen(x: u32) -> u64 {
    leaf(0x00, x.into(), 0, 0)
}
pub fn midpoint(a: u32, b: u32) -> u32 {
    short(leaf(0x01, a.into(), b.into(), 0))
}
pub fn flush(x: u32) -> u32 {
    short(leaf(0x02, x.into(), 0, 0))
}
pub fn max(a: u32, b: u32) -> u32 {
    short(leaf(0x03, a.into(), b.into(), 0))
}
pub fn min(a: u32, b: u32) -> u32 {
    short(leaf(0x04, a.into(), b.into(), 0))
}
pub fn cross(prev: u32, cur: u32, thr: u32) -> u64 {
    leaf(0x05, prev.into(), cur.into(), thr.into())
}
pub fn atan2_fast(y: u32, x: u32) -> u32 {
    short(leaf(0x06, y.into(), x.into(), 0))
}
pub fn a_gain(e: u32) -> u32 {
    short(leaf(0x07, e.into(), 0, 0))
}

// ---- of f64

pub fn round(x: u64) -> u64 {
    leaf(0x10, x, 0, 0)
}
pub fn narrow(x: u64) -> u32 {
    short(leaf(0x11, x, 0, 0))
}
pub fn to_u32(x: u64) -> u32 {
    short(leaf(0x12, x, 0, 0))
}
pub fn to_u64(x: u64) -> u64 {
    leaf(0x13, x, 0, 0)
}
pub fn whole(x: u64) -> u32 {
    short(leaf(0x14, x, 0, 0))
}
pub fn step_of(t: u64) -> u64 {
    leaf(0x15, t, 0, 0)
}
pub fn width(a: u64, b: u64) -> u32 {
    short(leaf(0x16, a, b, 0))
}
pub fn fsk_width(a: u64, b: u64) -> u32 {
    short(leaf(0x17, a, b, 0))
}
pub fn run_fix(t: u64) -> u32 {
    short(leaf(0x18, t, 0, 0))
}

// ---- of whole numbers

pub fn u32_to_f32(n: u32) -> u32 {
    short(leaf(0x20, n.into(), 0, 0))
}
pub fn u64_to_f64(n: u64) -> u64 {
    leaf(0x21, n, 0, 0)
}
pub fn lead_len(n: u32) -> u32 {
    short(leaf(0x22, n.into(), 0, 0))
}
pub fn edge(idx: u64, frac: u64) -> u64 {
    leaf(0x23, idx, frac, 0)
}
