//! Times a program for sixteen antennas on the commands of four lanes, of every mode: one call of each in turn, and runs of 4, 16 and 64
//! calls; beside it a listing program on the same calls, lane after lane. Nanoseconds per call, the best of several rounds taken in
//! turn, the start of the program included.
//!
//!     bench_antennas PROGRAM LISTING

use std::fs::File;
use std::process::{Command, Stdio};
use std::time::Instant;

#[allow(dead_code)]
mod generator;
mod random;
#[allow(dead_code)]
mod receiver;
#[allow(dead_code)]
mod signal;
mod verdict;
mod worked;

use generator::stream;
use receiver::operand_bytes;
use signal::{KINDS, Kind};
use worked::to_antenna;

/// Calls of each lane.
const CALLS: u64 = 250_000;
const ROUNDS: usize = 5;
const RUNS: [usize; 4] = [1, 4, 16, 64];
const ANTENNAS: [u8; 4] = [0, 5, 10, 15];

/// The whole commands of a stream.
fn commands(bytes: &[u8]) -> Vec<&[u8]> {
    let mut rest = bytes;
    let mut commands = Vec::new();
    while let Some(size) = rest.first().and_then(|&command| operand_bytes(command)) {
        let Some((command, after)) = rest.split_at_checked(1 + size) else { break };
        commands.push(command);
        rest = after;
    }
    commands
}

/// The commands of the four lanes in turn, a run of each at a time.
fn in_turn(lanes: &[Vec<&[u8]>], run: usize) -> Vec<u8> {
    let most = lanes.iter().map(Vec::len).max().unwrap_or(0);
    let mut bytes = Vec::new();
    for from in (0..most).step_by(run) {
        for (antenna, lane) in ANTENNAS.iter().zip(lanes) {
            let now = lane.iter().skip(from).take(run);
            bytes.extend(now.flat_map(|command| to_antenna(*antenna, command)));
        }
    }
    bytes
}

/// Seconds that the program takes for the input.
fn timed(program: &str, input: &str) -> f64 {
    let file = File::open(input).expect(input);
    let start = Instant::now();
    let status = Command::new(program).stdin(file).stdout(Stdio::null()).status();
    assert!(status.is_ok_and(|s| s.success()), "{program} failed");
    start.elapsed().as_secs_f64()
}

fn mode(name: &str, kind: Kind, program: &str, listing: &str) {
    let streams = [6, 7, 8, 9].map(|seed| stream(seed, CALLS, Some(kind)).bytes);
    let lanes = streams.each_ref().map(|bytes| commands(bytes));
    let calls: usize = lanes.iter().map(Vec::len).sum();
    let written = |label: String, bytes: Vec<u8>| {
        let file = format!("target/tests/bench_antennas_{label}.bin");
        std::fs::write(&file, bytes).expect(&file);
        file
    };
    let mut inputs = vec![(listing, written("alone".to_string(), lanes.concat().concat()))];
    inputs.extend(RUNS.map(|run| (program, written(run.to_string(), in_turn(&lanes, run)))));
    let mut best = vec![f64::INFINITY; inputs.len()];
    for _ in 0..ROUNDS {
        for (b, (program, input)) in best.iter_mut().zip(&inputs) {
            *b = b.min(timed(program, input) * 1e9 / calls as f64);
        }
    }
    let alone = best[0];
    println!("{name}: {alone:.0} ns per call of the listing program, lane after lane");
    for (run, here) in RUNS.iter().zip(&best[1..]) {
        println!("{name}, {run} at a time: {here:.0} ns per call, ratio {:.2}", here / alone);
    }
}

fn main() {
    let mut args = std::env::args().skip(1);
    let [program, listing] = [0, 1].map(|_| args.next().expect("bench_antennas PROGRAM LISTING"));
    for (name, kind) in &KINDS[..3] {
        mode(name, *kind, &program, &listing);
    }
}
