//! The two pulse buffers, whole, after every call of seeded command streams: as `lane_buffers` and `lane_buffers_lent` of
//! crates/exports/out/libexports.a leave them, which make the calls of a list of commands from the lane that never had settings,
//! a step by value or on the lane lent for change, and as the reference does.
//! The buffers hold any numbers before the first call; some are too short for the settings, and longer than they need. The streams of
//! even seeds have openings 01 and 04, those of the others 01 alone; the streams of the seeds 2 and 3 more than a multiple of 4 have
//! closes.
//!
//!     buffers [--streams N] [--calls N] [--first SEED]
//!     buffers --long SLOTS [--first SEED]      bursts that fill 65,536 pairs and that pass them, in buffers of so many slots, instead;
//!                                              compared at some calls of each

use std::process::ExitCode;

mod generator;
mod long;
mod random;
#[allow(dead_code)]
mod receiver;
mod signal;
mod verdict;

use generator::by_seed;
use long::Long;
use random::Random;
use receiver::{Receiver, Reply};
use signal::CLOSE;
use verdict::{Census, at_least};

/// Room for the lines of a stream.
const TEXT: usize = 1 << 24;

/// The most pairs of a train.
const PAIRS_MOST: u64 = 65_536;

/// What a run must have compared, at the least: after how many calls, and after how many that left a slot other than it was; trains in
/// carry mode; and closes, of which one that drops a frame writes nothing to the FSK buffer.
const LEAST: [(&str, u64); 11] = [
    ("calls", 100_000),
    ("calls that write", 3000),
    ("carry train", 60),
    ("carry train with other widths", 10),
    ("close in lead", 70),
    ("close with no pulse held", 80),
    ("close with an open gap", 25),
    ("close with a closed gap", 13),
    ("close that drops a whole frame", 35),
    ("close with a train within a frame", 15),
    ("close beside a short FSK buffer", 5),
];
const LEAST_LONG: [(&str, u64); 4] =
    [("calls", 10), ("calls that write", 10), ("carry train with other widths", 1), ("close that gives a train", 1)];

unsafe extern "C" {
    fn lane_buffers(
        commands: *const u8,
        commands_len: usize,
        ook: *mut u32,
        ook_len: usize,
        fsk: *mut u32,
        fsk_len: usize,
        text: *mut u8,
        text_len: usize,
    ) -> usize;
    fn lane_buffers_lent(
        commands: *const u8,
        commands_len: usize,
        ook: *mut u32,
        ook_len: usize,
        fsk: *mut u32,
        fsk_len: usize,
    ) -> usize;
}

/// Makes the calls of the commands, with both buffers and room for their lines, and answers how many bytes they took.
type CallAll = fn(&[u8], &mut [Vec<u32>; 2], &mut [u8]) -> usize;

fn by_value(commands: &[u8], [ook, fsk]: &mut [Vec<u32>; 2], text: &mut [u8]) -> usize {
    // The function reads and writes these slices alone and keeps no pointer to them.
    unsafe {
        lane_buffers(
            commands.as_ptr(),
            commands.len(),
            ook.as_mut_ptr(),
            ook.len(),
            fsk.as_mut_ptr(),
            fsk.len(),
            text.as_mut_ptr(),
            text.len(),
        )
    }
}

fn by_lending(commands: &[u8], [ook, fsk]: &mut [Vec<u32>; 2], _: &mut [u8]) -> usize {
    // As above.
    unsafe {
        lane_buffers_lent(commands.as_ptr(), commands.len(), ook.as_mut_ptr(), ook.len(), fsk.as_mut_ptr(), fsk.len())
    }
}

const WAYS: [(&str, CallAll); 2] = [("by value", by_value), ("by lending", by_lending)];

/// A buffer before the first call.
fn filled(r: &mut Random, slots: usize) -> Vec<u32> {
    (0..slots).map(|_| r.u32()).collect()
}

fn any_buffer(r: &mut Random) -> Vec<u32> {
    let slots = if r.once_in(4) { r.pick(&[0, 1, 7, 40, 127, 600, 4095, 5000]) } else { 4096 };
    filled(r, slots)
}

/// Commands, and both buffers before the first.
struct Case {
    commands: Vec<u8>,
    start: [Vec<u32>; 2],
}

impl Case {
    /// Runs the commands of the front from the start in each way: both buffers must be as the receiver's, and `taken` bytes used.
    fn compared(&self, front: &[u8], taken: usize, receiver: &Receiver, run: &mut Run) -> Result<(), String> {
        for (way, call_all) in WAYS {
            run.here.clone_from(&self.start);
            let used = call_all(front, &mut run.here, &mut run.text);
            if used != taken {
                return Err(format!("{way}: {used} bytes of {} taken", front.len()));
            }
            for (name, (slots, right)) in ["ook", "fsk"].iter().zip(run.here.iter().zip(receiver.buffers())) {
                if let Some(i) = (0..right.len()).find(|&i| slots[i] != right[i]) {
                    let (got, bytes) = (slots[i], front.len());
                    return Err(format!("first {bytes} bytes, {way}: {name} slot {i} is {got}, not {}", right[i]));
                }
            }
        }
        run.count("calls", 1);
        run.count("calls that write", u64::from(run.here != run.before));
        run.before.clone_from(&run.here);
        Ok(())
    }

    /// Follows the first calls, and compares after each of them that `stops` names by its number and reply.
    fn followed(&self, calls: u64, stops: impl Fn(u64, &Reply) -> bool, run: &mut Run) -> Result<(), String> {
        let [ook, fsk] = self.start.clone();
        let mut receiver = Receiver::with_buffers(ook, fsk);
        let mut rest = &self.commands[..];
        run.before.clone_from(&self.start);
        for n in 0..calls {
            if rest.is_empty() {
                break;
            }
            let found = if rest.starts_with(&CLOSE) { receiver.found() } else { Vec::new() };
            let reply = receiver.call(&mut rest);
            let taken = self.commands.len() - rest.len();
            if stops(n, &reply) {
                let front = if reply.ends() { &self.commands[..] } else { &self.commands[..taken] };
                self.compared(front, taken, &receiver, run)?;
                run.carried(&receiver, &reply);
                run.closed(&found, &receiver, &reply);
            }
            if reply.ends() {
                break;
            }
        }
        Ok(())
    }
}

/// A run of cases: what it saw, the buffers that it works on, those after the comparison before, and room for lines.
struct Run {
    census: Census,
    here: [Vec<u32>; 2],
    before: [Vec<u32>; 2],
    text: Vec<u8>,
}

impl Run {
    fn new() -> Self {
        Self { census: Census::new(), here: Default::default(), before: Default::default(), text: vec![0; TEXT] }
    }

    fn count(&mut self, what: &str, n: u64) {
        *self.census.entry(what.to_string()).or_default() += n;
    }

    /// Counts the trains of a call in carry mode.
    fn carried(&mut self, receiver: &Receiver, reply: &Reply) {
        if !matches!(reply, Reply::Refused(_)) {
            receiver.carried().into_iter().for_each(|kind| self.count(kind, 1));
        }
    }

    /// Counts a close, by what it found and what it gave. In OOK mode the FSK buffer may be too short for the settings.
    fn closed(&mut self, found: &[&str], receiver: &Receiver, reply: &Reply) {
        found.iter().for_each(|kind| self.count(kind, 1));
        if let Reply::Closed { .. } = reply {
            self.count("close that gives a train", u64::from(receiver.decided().is_some()));
            self.count("close beside a short FSK buffer", u64::from(receiver.short_of_fsk()));
        }
    }

    fn ended(&self, least: &[(&str, u64)]) -> Result<String, String> {
        let figures = format!("both buffers equal, by value and by lending, after {}", verdict::words(&self.census));
        at_least(&self.census, least).map_err(|e| format!("{figures}\n{e}"))?;
        Ok(figures)
    }
}

fn seeded(streams: u64, calls: u64, first: u64) -> Result<String, String> {
    let mut run = Run::new();
    for seed in first..first + streams {
        let mut r = Random::new(!seed);
        let start = [any_buffer(&mut r), any_buffer(&mut r)];
        let s = by_seed(seed, calls, None);
        let case = Case { commands: s.bytes, start };
        case.followed(calls, |_, _| true, &mut run).map_err(|e| format!("seed {seed}, {e}"))?;
        run.count("streams", 1);
    }
    run.ended(&LEAST)
}

/// A long burst, compared after each quarter of its calls and where a burst ends.
fn long_burst(burst: &Long, slots: usize, seed: u64, run: &mut Run) -> Result<(), String> {
    let mut r = Random::new(!seed);
    let start = [filled(&mut r, slots), filled(&mut r, slots)];
    let [ook, fsk] = start.clone();
    let s = burst.stream(seed, Receiver::with_buffers(ook, fsk))?;
    let quarter = s.calls / 4;
    let case = Case { commands: s.bytes, start };
    let ends = |reply: &Reply| matches!(reply, Reply::Idle { .. } | Reply::Closed { .. });
    let stops = |n, reply: &Reply| ends(reply) || n > 0 && n % quarter == 0;
    run.count("streams", 1);
    case.followed(s.calls, stops, run).map_err(|e| format!("{}: {e}", burst.name()))
}

/// The bursts that are tried: fewer where the buffers are longer than any train.
fn bursts(slots: usize) -> Vec<Long> {
    let [_, full, over, frame, frame_over, _, auto_over, auto_frame_over, both] = long::filling(PAIRS_MOST);
    let [carry_full, carry_over, ..] = long::carrying(PAIRS_MOST);
    let [closed, _, _, _, both_closed] = long::closing(PAIRS_MOST);
    if slots as u64 > 2 * PAIRS_MOST {
        return vec![over, frame, carry_full, closed];
    }
    vec![full, over, frame, frame_over, auto_over, auto_frame_over, both, carry_over, closed, both_closed]
}

fn long_bursts(slots: usize, seed: u64) -> Result<String, String> {
    let mut run = Run::new();
    for burst in bursts(slots) {
        long_burst(&burst, slots, seed, &mut run)?;
    }
    run.ended(&LEAST_LONG)
}

fn run() -> Result<String, String> {
    let (mut streams, mut calls, mut first, mut slots) = (400u64, 400u64, 1u64, None);
    let mut args = std::env::args().skip(1);
    while let Some(a) = args.next() {
        let value = args.next().and_then(|v| v.parse().ok()).ok_or(format!("{a}: a number"))?;
        match a.as_str() {
            "--streams" => streams = value,
            "--calls" => calls = value,
            "--first" => first = value,
            "--long" => slots = Some(value as usize),
            _ => return Err("buffers [--streams N] [--calls N] [--first SEED] [--long SLOTS]".to_string()),
        }
    }
    slots.map_or_else(|| seeded(streams, calls, first), |slots| long_bursts(slots, first))
}

fn main() -> ExitCode {
    verdict::told(run())
}
