//! Runs a listing program on seeded command streams and compares what it prints with the reference receiver. The streams of even
//! seeds have openings 01 and 04, those of the others 01 alone; the streams of the seeds 2 and 3 more than a multiple of 4 have closes.
//!
//!     compare PROGRAM [--streams N] [--calls N] [--first SEED] [--kind KIND]
//!     compare PROGRAM --long [--first SEED]      long bursts instead: trains that fill the program's buffers, and that pass them
//!
//! On the first difference the stream is cut down to few calls that still differ; they are printed, and written to
//! target/tests/differing.bin.

use std::process::ExitCode;

mod generator;
mod long;
mod program;
mod random;
#[allow(dead_code)]
mod receiver;
mod reduced;
mod signal;
mod verdict;

use generator::{Stream, by_seed};
use program::{printed, shortened};
use receiver::{Receiver, Reply};
use reduced::{shrunken, words};
use signal::{KINDS, Kind};
use verdict::{Census, at_least};

const LEFT: &str = "target/tests/differing.bin";

/// The calls of a stream cut down that are printed.
const SHOWN: usize = 60;

/// What a run of streams of every kind must have seen, at the least; one of a single kind sees fewer.
const LEAST: [(&str, u64); 46] = [
    ("opening", 4000),
    ("begin", 15_000),
    ("step", 2_500_000),
    ("ook vector", 6000),
    ("fsk angle", 2000),
    ("fsk vector", 4000),
    ("cut train", 2000),
    ("end before the index", 20),
    ("NaN in a record", 3),
    ("infinity in a record", 20),
    ("idle", 10_000),
    ("carrier", 3000),
    ("refused 1", 10),
    ("refused 2", 20),
    ("refused 3", 2000),
    ("refused 5", 6000),
    ("refused 6", 8000),
    ("refused 7", 2500),
    ("refused 8", 100),
    ("carry train", 2000),
    ("carry train with other widths", 350),
    ("carry train held back", 25),
    ("refused by carry alone", 800),
    ("call of a stream with closes", 2_000_000),
    ("close before any settings", 15),
    ("close of an idle lane", 2500),
    ("close in lead", 1600),
    ("close in lead in OOK mode", 600),
    ("close in lead in FSK mode", 700),
    ("close in lead in Auto mode", 350),
    ("close in burst", 4500),
    ("close in burst in OOK mode", 1200),
    ("close in burst in FSK mode", 1900),
    ("close in burst in Auto mode", 1300),
    ("close with no pulse held", 3000),
    ("close with an open gap", 800),
    ("close with a closed gap", 500),
    ("close right after a pulse", 200),
    ("close within a pulse", 3000),
    ("close with a full train", 50),
    ("close within a frame", 2700),
    ("close that drops a whole frame", 1600),
    ("close with a train within a frame", 450),
    ("close that gives a train", 1200),
    ("close that gives other widths by carry", 50),
    ("close as the last byte", 40),
];

/// What a run of long bursts must have seen, at the least.
const LEAST_LONG: [(&str, u64); 4] = [
    ("carry train", 18),
    ("carry train with other widths", 5),
    ("close that gives a train", 8),
    ("close that drops a whole frame", 4),
];

/// What the reference prints.
fn reference(mut input: &[u8]) -> Vec<u8> {
    let mut receiver = Receiver::new();
    let mut out = Vec::new();
    while !input.is_empty() {
        let reply = receiver.call(&mut input);
        receiver.lines(&reply, &mut out).unwrap();
        if reply.ends() {
            break;
        }
    }
    out
}

fn differs(program: &str, input: &[u8]) -> bool {
    printed(program, input).as_deref() != Ok(&reference(input))
}

/// A command's bytes, and whether it is a step that the reference accepts.
#[derive(Clone)]
struct Call {
    bytes: Vec<u8>,
    stepped: bool,
}

fn calls(mut input: &[u8]) -> Vec<Call> {
    let mut receiver = Receiver::new();
    let mut calls = Vec::new();
    while !input.is_empty() {
        let before = input;
        let reply = receiver.call(&mut input);
        let taken = if reply.ends() { before.len() } else { before.len() - input.len() };
        calls.push(Call {
            bytes: before[..taken].to_vec(),
            stepped: before[0] == 3 && !matches!(reply, Reply::Refused(_)),
        });
        input = &before[taken..];
    }
    calls
}

/// The bytes of the calls, where each step that was accepted follows the one before it by index.
fn joined(calls: &[Call]) -> Vec<u8> {
    let mut receiver = Receiver::new();
    let mut bytes = Vec::new();
    for call in calls {
        let mut command = call.bytes.clone();
        if call.stepped {
            command[1..9].copy_from_slice(&(receiver.last() + 1).to_le_bytes());
        }
        let reply = receiver.call(&mut &command[..]);
        bytes.extend(command);
        if reply.ends() {
            break;
        }
    }
    bytes
}

fn reported(program: &str, seed: u64, input: &[u8]) -> String {
    let kept = shrunken(calls(input), |fewer| differs(program, &joined(fewer)));
    let bytes = joined(&kept);
    let left = std::fs::write(LEFT, &bytes).map_or_else(|e| e.to_string(), |()| LEFT.to_string());
    let mut report = format!("seed {seed}: {} calls differ ({left})\n", kept.len());
    for call in calls(&bytes).iter().take(SHOWN) {
        report += &format!("  {}\n", words(&call.bytes));
    }
    let here = printed(program, &bytes).unwrap_or_else(String::into_bytes);
    report += &format!("reference:\n{}", shortened(&reference(&bytes)));
    report + &format!("{program}:\n{}", shortened(&here))
}

struct Options {
    program: String,
    streams: u64,
    calls: u64,
    first: u64,
    kind: Option<Kind>,
    long: bool,
}

const USE: &str = "compare PROGRAM [--streams N] [--calls N] [--first SEED] [--kind KIND] [--long]";

fn options() -> Result<Options, String> {
    let mut args = std::env::args().skip(1);
    let program = args.next().ok_or(USE)?;
    let mut o = Options { program, streams: 400, calls: 20_000, first: 1, kind: None, long: false };
    while let Some(a) = args.next() {
        if a == "--long" {
            o.long = true;
            continue;
        }
        let value = args.next().ok_or(format!("{a}: a value"))?;
        let number = || value.parse().map_err(|_| format!("{a}: a number"));
        match a.as_str() {
            "--streams" => o.streams = number()?,
            "--calls" => o.calls = number()?,
            "--first" => o.first = number()?,
            "--kind" => o.kind = Some(KINDS.iter().find(|k| k.0 == value).ok_or("--kind: unknown")?.1),
            _ => return Err(USE.to_string()),
        }
    }
    Ok(o)
}

/// The same lines of the program and the reference.
fn agrees(o: &Options, seed: u64, s: &Stream) -> Result<(), String> {
    if differs(&o.program, &s.bytes) { Err(reported(&o.program, seed, &s.bytes)) } else { Ok(()) }
}

fn seeded(o: &Options) -> Result<String, String> {
    let (mut calls, mut census) = (0, Census::new());
    for seed in o.first..o.first + o.streams {
        let s = by_seed(seed, o.calls, o.kind);
        agrees(o, seed, &s)?;
        calls += s.calls;
        if s.census.contains_key("close") {
            *census.entry("call of a stream with closes".to_string()).or_default() += s.calls;
        }
        for (what, n) in s.census {
            // Trains by kind, refusals by number.
            let what = what.split(',').next().unwrap_or_default().to_string();
            *census.entry(what).or_default() += n;
        }
    }
    let figures = format!("{} streams of {calls} calls agree: {}", o.streams, verdict::words(&census));
    let least = if o.kind.is_none() { &LEAST[..] } else { &[("step", 1)] };
    at_least(&census, least).map_err(|e| format!("{figures}\n{e}"))?;
    Ok(figures)
}

fn long_bursts(o: &Options) -> Result<String, String> {
    let bursts = long::listed();
    let (mut calls, mut longest, mut census) = (0, 0, Census::new());
    for burst in &bursts {
        let s = burst.stream(o.first, Receiver::new())?;
        agrees(o, o.first, &s).map_err(|e| format!("{}: {e}", burst.name()))?;
        calls += s.calls;
        longest = s.decided.iter().map(|d| d.1).fold(longest, u64::max);
        s.census.into_iter().for_each(|(what, n)| *census.entry(what).or_default() += n);
    }
    at_least(&census, &LEAST_LONG)?;
    census.retain(|what, _| what.starts_with("carry") || what.starts_with("close that"));
    let (count, kinds) = (bursts.len(), verdict::words(&census));
    Ok(format!("{count} long bursts of {calls} calls agree, the longest train of {longest} pairs; {kinds}"))
}

fn main() -> ExitCode {
    verdict::told(options().and_then(|o| if o.long { long_bursts(&o) } else { seeded(&o) }))
}
