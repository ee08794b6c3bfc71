//! Runs a program for sixteen antennas on seeded command streams and compares what it prints with sixteen reference receivers and
//! R-4's rule of four. Then each lane's lines are compared with those of a reference receiver alone, given the antenna's commands
//! without those that met refusal 12.
//!
//!     compare_antennas PROGRAM [--streams N] [--calls N] [--first SEED]
//!
//! On the first difference the stream is cut down to few calls that still differ; they are printed, and written to
//! target/tests/differing_antennas.bin.

use std::process::ExitCode;

mod generator;
mod long;
mod mixed;
mod program;
mod random;
#[allow(dead_code)]
mod receiver;
mod reduced;
mod signal;
mod sixteen;
mod verdict;
mod worked;

use mixed::mixed;
use program::{printed, shortened};
use receiver::{Receiver, Reply};
use reduced::{shrunken, words};
use sixteen::{ANTENNAS, Sixteen, numbered};
use verdict::{Census, at_least};

const LEFT: &str = "target/tests/differing_antennas.bin";

/// The calls of a stream cut down that are printed.
const SHOWN: usize = 60;

/// What a run must have seen, at the least.
const LEAST: [(&str, u64); 31] = [
    ("opening", 10_000),
    ("begin", 18_000),
    ("step", 1_500_000),
    ("close", 3500),
    ("ook", 8000),
    ("fsk", 4000),
    ("train of ten pairs or more", 250),
    ("train of a hundred pairs or more", 50),
    ("idle", 13_000),
    ("carrier", 3000),
    ("refused 1", 20),
    ("refused 2", 12),
    ("refused 3", 1500),
    ("refused 5", 12_000),
    ("refused 6", 20_000),
    ("refused 7", 3500),
    ("refused 8", 1000),
    ("refused 12", 40_000),
    ("refused 12 in place of 8", 700),
    ("refused 6 by the antenna", 9000),
    ("begin beside four that meets 3", 120),
    ("begin beside four that meets 6", 1800),
    ("begin beside four that meets 7", 1500),
    ("begin of one of four that meets 5", 3500),
    ("opening with four out that meets 3", 1000),
    ("let in after an idle freed a place", 8000),
    ("let in after a carrier freed a place", 2400),
    ("let in after a close freed a place", 3000),
    ("let in after an opening freed a place", 1300),
    ("let in by the place that it freed", 5000),
    ("let in after refusal 12", 5000),
];

/// The trains of each antenna, at the least, and the antennas that have one of a hundred pairs or more.
const LEAST_TRAINS: u64 = 600;
const LEAST_LONG: usize = 12;

/// A call of a stream: its bytes, its antenna where it has one, whether it is a step that the reference accepts, and whether it meets
/// refusal 12.
#[derive(Clone)]
struct Call {
    bytes: Vec<u8>,
    antenna: Option<u8>,
    stepped: bool,
    not_let_in: bool,
}

/// The calls of a stream, and what the reference prints.
fn reference(mut input: &[u8]) -> (Vec<Call>, Vec<u8>) {
    let mut lanes = Sixteen::new();
    let (mut calls, mut lines) = (Vec::new(), Vec::new());
    while !input.is_empty() {
        let before = input;
        let answer = lanes.call(&mut input);
        lanes.lines(&answer, &mut lines).unwrap();
        if answer.reply.ends() {
            input = &[];
        }
        calls.push(Call {
            bytes: before[..before.len() - input.len()].to_vec(),
            antenna: answer.antenna,
            stepped: before[0] == 3 && !matches!(answer.reply, Reply::Refused(_)),
            not_let_in: matches!(answer.reply, Reply::Refused(12)),
        });
    }
    (calls, lines)
}

/// The lines of an antenna alone: a reference receiver's of these calls without their antenna.
fn alone<'a>(antenna: u8, calls: impl Iterator<Item = &'a Call>) -> Vec<u8> {
    let mut receiver = Receiver::new();
    let mut lines = Vec::new();
    for call in calls {
        let command = [&call.bytes[..1], &call.bytes[2..]].concat();
        let reply = receiver.call(&mut &command[..]);
        receiver.lines(&reply, &mut lines).unwrap();
    }
    numbered(Some(antenna), &lines)
}

/// a lane that was let in gives the replies it would give alone, with the calls that met 12 left out.
fn as_alone(calls: &[Call], printed: &[u8]) -> Result<(), String> {
    for antenna in 0..ANTENNAS as u8 {
        let own = calls.iter().filter(|call| call.antenna == Some(antenna) && !call.not_let_in);
        let number = format!("{antenna} ");
        let not_let_in = format!("{antenna} refused 12\n");
        let lines = printed.split_inclusive(|&b| b == b'\n');
        let lines = lines.filter(|line| line.starts_with(number.as_bytes()) && *line != not_let_in.as_bytes());
        let (here, alone) = (lines.collect::<Vec<_>>().concat(), alone(antenna, own));
        if here != alone {
            let [here, alone] = [here, alone].map(|lines| shortened(&lines));
            return Err(format!("antenna {antenna} prints\n{here}and alone\n{alone}"));
        }
    }
    Ok(())
}

fn differs(program: &str, input: &[u8]) -> bool {
    printed(program, input).as_deref() != Ok(&reference(input).1)
}

/// The bytes of the calls, where each step that was accepted follows the one before it by index.
fn joined(calls: &[Call]) -> Vec<u8> {
    let mut lanes = Sixteen::new();
    let mut bytes = Vec::new();
    for call in calls {
        let mut command = call.bytes.clone();
        if let (true, Some(lane)) = (call.stepped, call.antenna.and_then(|a| lanes.lane(a))) {
            command[2..10].copy_from_slice(&(lane.last() + 1).to_le_bytes());
        }
        let answer = lanes.call(&mut &command[..]);
        bytes.extend(command);
        if answer.reply.ends() {
            break;
        }
    }
    bytes
}

fn described(call: &Call) -> String {
    match call.antenna {
        Some(antenna) => format!("antenna {antenna}: {}", words(&[&call.bytes[..1], &call.bytes[2..]].concat())),
        None => format!("{:02x?}", call.bytes),
    }
}

fn reported(program: &str, seed: u64, calls: Vec<Call>) -> String {
    let kept = shrunken(calls, |fewer| differs(program, &joined(fewer)));
    let bytes = joined(&kept);
    let left = std::fs::write(LEFT, &bytes).map_or_else(|e| e.to_string(), |()| LEFT.to_string());
    let mut report = format!("seed {seed}: {} calls differ ({left})\n", kept.len());
    let (calls, lines) = reference(&bytes);
    for call in calls.iter().take(SHOWN) {
        report += &format!("  {}\n", described(call));
    }
    let here = printed(program, &bytes).unwrap_or_else(String::into_bytes);
    report + &format!("reference:\n{}{program}:\n{}", shortened(&lines), shortened(&here))
}

struct Options {
    program: String,
    streams: u64,
    calls: u64,
    first: u64,
}

const USE: &str = "compare_antennas PROGRAM [--streams N] [--calls N] [--first SEED]";

fn options() -> Result<Options, String> {
    let mut args = std::env::args().skip(1);
    let program = args.next().ok_or(USE)?;
    let mut o = Options { program, streams: 110, calls: 20_000, first: 1 };
    while let Some(a) = args.next() {
        let number = args.next().and_then(|value| value.parse().ok()).ok_or(format!("{a}: a number"))?;
        match a.as_str() {
            "--streams" => o.streams = number,
            "--calls" => o.calls = number,
            "--first" => o.first = number,
            _ => return Err(USE.to_string()),
        }
    }
    Ok(o)
}

/// The streams' floors, and that no antenna is without trains.
fn seen(census: &Census) -> Result<(), String> {
    at_least(census, &LEAST)?;
    for antenna in 0..ANTENNAS {
        at_least(census, &[(&format!("train of antenna {antenna:02}")[..], LEAST_TRAINS)])?;
    }
    let long = census.keys().filter(|what| what.starts_with("long train of antenna")).count();
    if long < LEAST_LONG {
        return Err(format!("{long} antennas have a long train, and {LEAST_LONG} are wanted"));
    }
    Ok(())
}

fn run() -> Result<String, String> {
    let o = options()?;
    let (mut calls, mut census) = (0, Census::new());
    for seed in o.first..o.first + o.streams {
        let m = mixed(seed, o.calls);
        let (made, lines) = reference(&m.bytes);
        match printed(&o.program, &m.bytes) {
            Ok(here) if here == lines => as_alone(&made, &here).map_err(|e| format!("seed {seed}: {e}"))?,
            _ => return Err(reported(&o.program, seed, made)),
        }
        calls += m.calls;
        m.census.into_iter().for_each(|(what, n)| *census.entry(what).or_default() += n);
    }
    let figures = format!("{} streams of {calls} calls agree: {}", o.streams, verdict::words(&census));
    seen(&census).map_err(|e| format!("{figures}\n{e}"))?;
    Ok(figures)
}

fn main() -> ExitCode {
    verdict::told(run())
}
