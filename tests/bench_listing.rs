//! Times a listing program beside the reference, both on the same command streams, of every mode and of short pulses: nanoseconds
//! per call, the best of several rounds taken in turn, the start of the program included.
//!
//!     bench_listing PROGRAM REFERENCE

use std::fs::File;
use std::process::{Command, Stdio};
use std::time::Instant;

#[allow(dead_code)]
mod generator;
mod long;
mod random;
#[allow(dead_code)]
mod receiver;
#[allow(dead_code)]
mod signal;
mod verdict;

use generator::stream;
use long::short_pulses;
use signal::KINDS;

const CALLS: u64 = 1_000_000;
const ROUNDS: usize = 5;
const INPUT: &str = "target/tests/bench_listing.bin";

/// Seconds that the program takes for the input.
fn timed(program: &str) -> f64 {
    let input = File::open(INPUT).expect(INPUT);
    let start = Instant::now();
    let status = Command::new(program).stdin(input).stdout(Stdio::null()).status();
    assert!(status.is_ok_and(|s| s.success()), "{program} failed");
    start.elapsed().as_secs_f64()
}

fn main() {
    let mut args = std::env::args().skip(1);
    let programs = [0, 1].map(|_| args.next().expect("bench_listing PROGRAM REFERENCE"));
    let kinds = KINDS[..3].iter().map(|&(name, kind)| (name, stream(6, CALLS, Some(kind))));
    for (name, s) in kinds.chain([("short pulses", short_pulses(6, CALLS))]) {
        std::fs::write(INPUT, &s.bytes).expect(INPUT);
        let mut best = [f64::INFINITY; 2];
        for _ in 0..ROUNDS {
            for (b, program) in best.iter_mut().zip(&programs) {
                *b = b.min(timed(program) * 1e9 / s.calls as f64);
            }
        }
        let [here, reference] = best;
        println!("{name}: {here:.0} ns per call, reference {reference:.0}, ratio {:.2}", here / reference);
    }
}
