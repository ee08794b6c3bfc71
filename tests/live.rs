//! A listing program on a live pipe (piped.rs).
//!
//!     live PROGRAM

use std::process::ExitCode;

mod piped;
mod program;
mod random;
#[allow(dead_code)]
mod signal;
mod verdict;
mod worked;

use piped::{READ, Sent, tried};
use signal::{CLOSE, Settings, Tick, WORKED, begin_command, step_command};
use worked::{HALVES, HELD, M6, M7, M8, MOST, begin, calls, carrying, opening, step};

/// A command and what it prints.
type Call = (Vec<u8>, &'static str);

/// The calls of a burst, of which the last prints.
fn burst(index: u64, envelopes: &[f32], lines: &'static str) -> Vec<Call> {
    let mut calls: Vec<Call> = calls(index, envelopes).into_iter().map(|c| (c, "")).collect();
    calls.last_mut().unwrap().1 = lines;
    calls
}

/// The calls of a burst, and its close, which prints.
fn closed(index: u64, envelopes: &[f32], lines: &'static str) -> Vec<Call> {
    let calls = calls(index, envelopes).into_iter().map(|c| (c, ""));
    calls.chain([(CLOSE.to_vec(), lines)]).collect()
}

/// Three bursts, and refused calls before, in and after them; then a burst in carry mode; then closed ones.
fn script() -> Vec<Call> {
    let mut script = vec![
        (begin(0, 0.0), "refused 3\n"),
        (step(0, 0.0), "refused 5\n"),
        (CLOSE.to_vec(), "refused 5\n"),
        (opening(0), "refused 3\n"),
        (opening(MOST), ""),
    ];
    script.extend(burst(10, &M6, "ook 11 15 0 4 41000000 vector 40800000 00000000 1 4 0\nidle 19\n"));
    script.push((step(20, 0.0), "refused 5\n"));
    script.extend(burst(30, &M7, "ook 31 39 0 8 41000000 vector 40e00000 00000000 1 8 0\nidle 43\n"));
    let mut last = burst(50, &M8, "idle 56\n");
    let refused =
        [(begin(51, 0.0), "refused 5\n"), (step(52, 0.0), "refused 6\n"), (step(51, f32::NAN), "refused 7\n")];
    last.splice(1..1, refused);
    script.extend(last);
    script.extend([(carrying(1).command(), ""), (carrying(2).command(), "refused 3\n")]);
    script.extend(burst(60, &HALVES, "ook 61 66 0 5 41000000 vector 40800000 00000000 2 2 2 2 0\nidle 71\n"));
    script.push((opening(MOST), ""));
    script.extend(closed(80, &HELD, "ook 81 84 0 3 41000000 vector 40400000 00000000 1 3 3\nidle 89\n"));
    script.push((CLOSE.to_vec(), "refused 5\n"));
    script.extend(closed(90, &HELD[..6], "idle 95\n"));
    script.extend([(opening(2049), ""), (begin(80, 0.0), "refused 8\n"), (step(81, 0.0), "refused 5\n")]);
    script
}

/// Two command streams as long as a read, the second after the first, of bursts in FSK mode with pulses of one sample: each is a
/// frame, and 50 bytes of commands bring a line of 76. A call's lines may take the most room: max_pulses is what the buffers hold.
fn floods() -> [Vec<u8>; 2] {
    let settings = Settings { mode: 1, min_steps: 1, max_pulses: 2048, floats: [1.0, 100.0, 0.0, 0.0], ..WORKED };
    let tick = |i: u64| Tick { noise: 1.0, envelope: if i % 2 == 0 { 0.0 } else { 8.0 }, sample: [1.0, 0.0] };
    let index = (1 << 40) - 6000;
    let mut steps = (1..).map(|i| step_command(index + i, &tick(i)));
    let front = [settings.command(), begin_command(index, 2.0, &tick(0), [1.0, 0.0], &[0.0; 7])].concat();
    [front, Vec::new()].map(|mut flood| {
        let count = (READ - flood.len()) / 25;
        flood.extend(steps.by_ref().take(count).flatten());
        flood
    })
}

fn main() -> ExitCode {
    let Some(program) = std::env::args().nth(1) else { return verdict::told(Err("live PROGRAM".to_string())) };
    let sent = Sent {
        name: "listing",
        script: script().into_iter().map(|(command, lines)| (command, lines.to_string())).collect(),
        floods: floods(),
        stream: "crates/listing/stdin",
    };
    verdict::told(tried(&program, &sent))
}
