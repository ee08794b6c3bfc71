//! A program for sixteen antennas on a live pipe (piped.rs).
//!
//!     live_antennas PROGRAM

use std::process::ExitCode;

mod piped;
mod program;
mod random;
#[allow(dead_code)]
mod signal;
mod verdict;
mod worked;

use piped::{Call, READ, Sent, tried};
use signal::{CLOSE, Settings, Tick, WORKED, begin_command, step_command};
use worked::{HALVES, HELD, M6, M7, M8, MOST, begin, calls, carrying, opening, step, to_antenna};

fn call(antenna: u8, command: &[u8], lines: &str) -> Call {
    (to_antenna(antenna, command), lines.to_string())
}

/// The calls of a burst from index 10 on, of which the last prints.
fn burst(antenna: u8, envelopes: &[f32], lines: &str) -> Vec<Call> {
    let mut calls: Vec<Call> = calls(10, envelopes).iter().map(|c| call(antenna, c, "")).collect();
    calls.last_mut().unwrap().1 = lines.to_string();
    calls
}

/// Calls of four antennas and of a fifth that is not let in before one of them is closed; before and among them refused calls, of
/// antennas above 15 too.
fn script() -> Vec<Call> {
    let mut script = vec![
        call(0, &begin(0, 0.0), "0 refused 3\n"),
        call(15, &step(0, 0.0), "15 refused 5\n"),
        call(7, &CLOSE, "7 refused 5\n"),
        call(16, &CLOSE, "16 refused 6\n"),
        call(255, &begin(0, 0.0), "255 refused 6\n"),
        call(1, &opening(0), "1 refused 3\n"),
    ];
    script.extend([0, 1, 10, 15].map(|a| call(a, &opening(MOST), "")));
    script.extend([call(5, &carrying(1).command(), ""), call(5, &carrying(2).command(), "5 refused 3\n")]);
    let mut lanes = [
        burst(0, &M6, "0 ook 11 15 0 4 41000000 vector 40800000 00000000 1 4 0\n0 idle 19\n"),
        burst(1, &M7, "1 ook 11 19 0 8 41000000 vector 40e00000 00000000 1 8 0\n1 idle 23\n"),
        burst(10, &HELD, ""),
        burst(15, &M8, "15 idle 16\n"),
        burst(5, &HALVES, "5 ook 11 16 0 5 41000000 vector 40800000 00000000 2 2 2 2 0\n5 idle 21\n"),
    ]
    .map(Vec::into_iter);
    let [m6, m7, held, m8, halves] = &mut lanes;
    for _ in 0..6 {
        script.extend([m6.next(), m7.next(), held.next(), m8.next()].into_iter().flatten());
        script.push(call(5, &begin(10, 0.0), "5 refused 12\n"));
    }
    script.extend([call(5, &step(11, 0.0), "5 refused 5\n"), call(0, &step(11, 0.0), "0 refused 6\n")]);
    script.push(call(1, &step(16, f32::NAN), "1 refused 7\n"));
    script.extend(m8.chain(halves.by_ref().take(3)).chain(m7));
    script.extend(held.chain([call(
        10,
        &CLOSE,
        "10 ook 11 14 0 3 41000000 vector 40400000 00000000 1 3 3\n10 idle 19\n",
    )]));
    script.extend(halves.chain(m6));
    script.extend([call(9, &opening(2049), ""), call(9, &begin(80, 0.0), "9 refused 8\n")]);
    script
}

/// Two command streams as long as a read, the second after the first, of bursts in FSK mode with pulses of one sample, on four antennas
/// in turn: each pulse is a frame, and 52 bytes of commands bring a line of 79. A call's lines may take the most room: max_pulses is
/// what the buffers hold.
fn floods() -> [Vec<u8>; 2] {
    let settings = Settings { mode: 1, min_steps: 1, max_pulses: 2048, floats: [1.0, 100.0, 0.0, 0.0], ..WORKED };
    let tick = |i: u64| Tick { noise: 1.0, envelope: if i % 2 == 0 { 0.0 } else { 8.0 }, sample: [1.0, 0.0] };
    let index = (1 << 40) - 6000;
    let antennas = || 12..16u8;
    let begin = begin_command(index, 2.0, &tick(0), [1.0, 0.0], &[0.0; 7]);
    let front = antennas().flat_map(|a| [to_antenna(a, &settings.command()), to_antenna(a, &begin)].concat());
    let mut steps = (1..)
        .flat_map(|i| antennas().map(move |a| (a, i)))
        .map(|(a, i)| to_antenna(a, &step_command(index + i, &tick(i))));
    [front.collect(), Vec::new()].map(|mut flood| {
        let count = (READ - flood.len()) / 26;
        flood.extend(steps.by_ref().take(count).flatten());
        flood
    })
}

fn main() -> ExitCode {
    let Some(program) = std::env::args().nth(1) else { return verdict::told(Err("live_antennas PROGRAM".to_string())) };
    let sent = Sent { name: "antennas", script: script(), floods: floods(), stream: "crates/antennas/stdin" };
    verdict::told(tried(&program, &sent))
}
