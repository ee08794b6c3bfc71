//! Times `lane_fsk_widths` of crates/host/out/libhost.a beside the published `fsk_widths`, both compiled for release, on the
//! same frames: nanoseconds per slot, the best of several rounds taken in turn, and their ratio.

use std::hint::black_box;
use std::time::Instant;

mod host;
mod lists;
mod random;

#[allow(dead_code)]
mod published {
    include!("../target/tests/published.rs");

    pub fn widths(slots: &mut [u32]) {
        fsk_widths(slots);
    }
}

use random::Random;

const SIZES: [usize; 3] = [600, 4096, lists::SLOTS_MOST];
const ROUNDS: usize = 9;
/// Slots of a round, about.
const WORK: usize = 1 << 19;

/// Nanoseconds per slot of `f` on copies of the frame.
fn timed<T: Clone>(input: &T, slots: usize, f: impl Fn(&mut T)) -> f64 {
    let mut copies = vec![input.clone(); WORK.div_ceil(slots)];
    let count = copies.len() * slots;
    let start = Instant::now();
    for c in &mut copies {
        f(black_box(c));
    }
    start.elapsed().as_secs_f64() * 1e9 / count as f64
}

fn main() {
    let mut r = Random::new(4);
    for n in SIZES {
        let slots = lists::frame(&mut r, n, 64.0 * 9.7, 0.1);
        let bytes: Vec<u8> = slots.iter().flat_map(|s| s.to_le_bytes()).collect();
        let (mut published, mut here) = (f64::INFINITY, f64::INFINITY);
        for _ in 0..ROUNDS {
            published = published.min(timed(&slots, n, |s| published::widths(s)));
            here = here.min(timed(&bytes, n, |b| assert_eq!(host::fsk_widths_of_bytes(b), 0)));
        }
        let ratio = here / published;
        println!("{n:7} slots: published {published:7.2} ns per slot, here {here:7.2}, ratio {ratio:.2}");
    }
}
