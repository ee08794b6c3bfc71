//! Tests the reference, and nothing of Rattle: demand 3 holds of the published lane. For every OOK burst that ends in a seeded stream,
//! the pulses of its record, taken as document 01 defines them, are those of its train, and its last gap is 0, or the gap before a
//! pulse that starts behind the train. A close ends a burst with the last step, and in lead gives no train. Where a gap is under
//! way, the train of a close, in any mode, is the one that the published lane gives where the gap has run out. In carry mode the slots
//! up to the last pulse are the differences of R-1's boundaries, taken from the record's edges, and add up to the last pulse's rounded
//! end. R-9: the same holds of every Auto burst in which `fsk_phase` is 0 after each sample of its record, or no frame was found; and
//! as long as an OOK burst is under way, its calls have brought fewer samples than the bound on the wait allows. Long bursts come then,
//! and last the widths of single rows of edges, some of which no list of calls has.
//!
//!     pulses [--streams N] [--calls N]

use std::process::ExitCode;

mod generator;
mod long;
mod random;
#[allow(dead_code)]
mod receiver;
mod signal;
mod verdict;

use generator::SORTS;
use receiver::{Limits, Receiver, Reply, Sample, Train, carried_widths, width_between};
use signal::{CLOSE, Kind};
use verdict::{Census, at_least};

/// A longest stretch of one level that has at least min_steps samples, with its edge at sample number min_steps.
struct Run {
    high: bool,
    edge: f64,
}

fn counted_runs(record: &[Sample], min_steps: usize) -> Vec<Run> {
    let stretches = record.chunk_by(|a, b| a.high == b.high);
    let counted = stretches.filter(|s| s.len() >= min_steps);
    counted.map(|s| Run { high: s[0].high, edge: s[min_steps - 1].edge }).collect()
}

/// The edges of each row of high runs that a low run closes: the first high run's and the low run's; and the edge of a row that none
/// closes.
fn pulses(record: &[Sample], min_steps: usize) -> (Vec<[f64; 2]>, Option<f64>) {
    let mut first = None;
    let mut pulses = Vec::new();
    for run in counted_runs(record, min_steps) {
        if run.high {
            first = first.or(Some(run.edge));
        } else if let Some(edge) = first.take() {
            pulses.push([edge, run.edge]);
        }
    }
    (pulses, first)
}

/// R-1's boundaries of these edges, the first one's among them, in 64ths of a step; and how many edges lie below the boundary
/// before.
fn boundaries(edges: &[f64]) -> (Vec<u64>, usize) {
    let (mut boundaries, mut held) = (Vec::new(), 0);
    for edge in edges {
        // Ties go away from zero. No list reaches 2^47, and its edges are numbers.
        let here = ((edge - edges[0]) * 64.0).round();
        let before = boundaries.last().copied().unwrap_or(0);
        held += usize::from(here < before as f64);
        boundaries.push(before.max(here as u64));
    }
    (boundaries, held)
}

/// Whole steps, ties up.
fn rounded(boundary: u64) -> u64 {
    boundary / 64 + u64::from(boundary % 64 >= 32)
}

/// What a run must have seen, at the least.
const LEAST: [(&str, u64); 23] = [
    ("bursts", 16_000),
    ("Auto bursts without a frame", 8000),
    ("Auto trains without a frame", 3500),
    ("Auto bursts with a frame begun", 3000),
    ("Auto bursts with other trains, which had a frame", 900),
    ("waits", 1_500_000),
    ("waits to the last sample that is allowed", 4500),
    ("waits for the lead alone", 13_000),
    ("trains", 10_000),
    ("cut trains", 800),
    ("pulses", 35_000),
    ("trains of 300 pairs or more", 11),
    ("carry trains", 3500),
    ("carry trains of 300 pairs or more", 5),
    ("carry trains with other widths", 600),
    ("carry trains held back", 40),
    ("close in lead", 1300),
    ("close with no pulse held", 1400),
    ("close with an open gap", 1000),
    ("close with a closed gap", 500),
    ("close right after a pulse", 300),
    ("close with a full train", 60),
    ("closes as a gap that has run out", 1400),
];

/// R-1 for a train in carry mode and the pulses of the record that it has.
fn check_carried(c: &mut Census, kept: &[[f64; 2]], train: &Train) -> Result<(), String> {
    let slots = &train.slots[..2 * kept.len() - 1];
    let (boundaries, held) = boundaries(kept.as_flattened());
    let widths: Vec<u64> = boundaries.windows(2).map(|b| rounded(b[1]) - rounded(b[0])).collect();
    let most = u64::from(u32::MAX);
    if !slots.iter().map(|&w| u64::from(w)).eq(widths.iter().map(|&w| w.min(most))) {
        return Err(format!("boundaries {boundaries:?}, train {slots:?}"));
    }
    let sum: u64 = slots.iter().map(|&w| u64::from(w)).sum();
    let end = rounded(boundaries[boundaries.len() - 1]);
    if widths.iter().all(|&w| w <= most) && sum != end {
        return Err(format!("train {slots:?} adds up to {sum}, not {end}"));
    }
    let plain = kept.as_flattened().windows(2).map(|e| width_between(e[0], e[1]));
    let other = !slots.iter().copied().eq(plain);
    let long = kept.len() >= 300;
    let mut count = |what: &str, n: bool| *c.entry(what.to_string()).or_default() += u64::from(n);
    count("carry trains", true);
    count("carry trains of 300 pairs or more", long);
    count("carry trains with other widths", other);
    count("carry trains held back", held > 0);
    Ok(())
}

/// The last gap, which is not demand 3's: 0 where no pulse starts behind the last one of the train, and else the gap before it.
fn check_last_gap(kept: &[[f64; 2]], next: Option<f64>, carry: bool, train: &Train) -> Result<(), String> {
    let edges = [kept.as_flattened(), next.as_slice()].concat();
    let [.., fall, rise] = edges[..] else { return Ok(()) };
    let gap = match (next, carry) {
        (None, _) => 0,
        (_, false) => width_between(fall, rise),
        _ => {
            let (boundaries, _) = boundaries(&edges);
            let [.., fall, rise] = boundaries[..] else { return Ok(()) };
            (rounded(rise) - rounded(fall)).min(u64::from(u32::MAX)) as u32
        }
    };
    if train.slots.last() == Some(&gap) { Ok(()) } else { Err(format!("train {:?}, last gap {gap}", train.slots)) }
}

/// Demand 3 for an ended burst and the trains that its calls gave.
fn check(c: &mut Census, record: &[Sample], limits: Limits, trains: &[Train]) -> Result<(), String> {
    let (pulses, under_way) = pulses(record, limits.min_steps);
    let (bursts, listed) =
        if limits.auto { ("Auto bursts without a frame", "Auto trains without a frame") } else { ("bursts", "trains") };
    let mut count = |what: &str, n: usize| *c.entry(what.to_string()).or_default() += n as u64;
    count(bursts, 1);
    if pulses.is_empty() && trains.is_empty() {
        return Ok(());
    }
    let [train] = trains else {
        return Err(format!("{} pulses, {} trains", pulses.len(), trains.len()));
    };
    let pairs = train.slots.len() / 2;
    count(listed, 1);
    count("trains of 300 pairs or more", usize::from(pairs >= 300));
    count("cut trains", usize::from(train.cut));
    count("pulses", pairs);
    let kept = &pulses[..pulses.len().min(limits.max_pulses)];
    if kept.is_empty() || pairs != kept.len() || train.cut != (pulses.len() > limits.max_pulses) {
        return Err(format!("pulses {pulses:?}, train {:?}, cut {}", train.slots, train.cut));
    }
    let next = pulses.get(kept.len()).map(|p| p[0]).or(under_way);
    check_last_gap(kept, next, limits.carry, train)?;
    if limits.carry {
        return check_carried(c, kept, train);
    }
    let widths = kept.iter().map(|&[rise, fall]| width_between(rise, fall));
    if !train.slots.iter().step_by(2).copied().eq(widths) {
        return Err(format!("pulses {kept:?}, train {:?}", train.slots));
    }
    Ok(())
}

/// Demand 3 for a burst that ended; in Auto mode R-9's, of one in which `fsk_phase` stays 0, and of one in which no frame was found.
/// Of the others it may be false, and is for some.
fn check_ended(c: &mut Census, receiver: &Receiver, limits: Limits, trains: &[Train]) -> Result<(), String> {
    let record = receiver.record();
    let split = record.iter().any(|s| s.fsk_phase != 0);
    if !limits.auto || !split || !receiver.framed() {
        *c.entry("Auto bursts with a frame begun".to_string()).or_default() += u64::from(limits.auto && split);
        return check(c, record, limits, trains);
    }
    if check(&mut Census::new(), record, limits, trains).is_err() {
        *c.entry("Auto bursts with other trains, which had a frame".to_string()).or_default() += 1;
    }
    Ok(())
}

/// R-9 for an OOK burst under way, whose calls have brought so many samples: they are fewer than would have ended it, by the low ones
/// behind the last high one, and by those of the lead.
fn check_waits(c: &mut Census, record: &[Sample], limits: Limits, samples: usize) -> Result<(), String> {
    let wait = limits.min_steps.max(limits.gap_steps + 1);
    let last_high = record.iter().rposition(|s| s.high).map_or(0, |i| i + 1);
    let by = (last_high + wait).max(limits.lead_len);
    let quiet = record.chunk_by(|a, b| a.high == b.high).any(|run| !run[0].high && run.len() >= wait);
    if quiet || samples >= by || (!record.is_empty() && record.len() != samples) {
        return Err(format!(
            "{samples} samples, {} of them in the record, the last high one {last_high}",
            record.len()
        ));
    }
    let mut count = |what: &str, n: bool| *c.entry(what.to_string()).or_default() += u64::from(n);
    count("waits", true);
    count("waits to the last sample that is allowed", samples + 1 == by && !record.is_empty());
    count("waits for the lead alone", record.is_empty() && samples >= wait);
    Ok(())
}

/// R-13 for an accepted close: in lead it gives no train, and the record has no sample; where the envelope and the carrier are gone
/// it gives what the published lane gives where the gap has run out; the phase line is of the last index.
fn check_closed(
    c: &mut Census,
    receiver: &Receiver,
    reply: &Reply,
    phase: &str,
    run_out: Option<Vec<u8>>,
) -> Result<(), String> {
    let mut lines = Vec::new();
    receiver.lines(reply, &mut lines).map_err(|e| e.to_string())?;
    let idle = format!("idle {}\n", receiver.last());
    let right = match (phase, run_out) {
        ("close in lead", _) if !receiver.record().is_empty() => {
            return Err("a close in lead with a record".to_string());
        }
        ("close in lead", _) => idle.into_bytes(),
        (_, Some(run_out)) => {
            *c.entry("closes as a gap that has run out".to_string()).or_default() += 1;
            [run_out, idle.into_bytes()].concat()
        }
        _ => return Ok(()),
    };
    let [got, right] = [lines, right].map(|l| String::from_utf8_lossy(&l).into_owned());
    if got == right { Ok(()) } else { Err(format!("a close prints\n{got}and not\n{right}")) }
}

fn follow(c: &mut Census, mut input: &[u8]) -> Result<(), String> {
    let mut receiver = Receiver::new();
    let (mut trains, mut samples) = (Vec::new(), 0);
    while !input.is_empty() {
        let found = if input.starts_with(&CLOSE) { receiver.found() } else { Vec::new() };
        let run_out = found.first().and_then(|_| receiver.run_out());
        let reply = receiver.call(&mut input);
        match reply {
            Reply::Begun => (trains, samples) = (Vec::new(), 1),
            Reply::Refused(_) => {}
            _ => {
                trains.extend(receiver.decided());
                samples += 1;
            }
        }
        let limits = receiver.limits();
        if let (Reply::Begun | Reply::Stayed, Some(limits @ Limits { auto: false, .. })) = (&reply, limits) {
            check_waits(c, receiver.record(), limits, samples)?;
        }
        let ended = matches!(reply, Reply::Idle { .. } | Reply::Carrier { .. } | Reply::Closed { .. });
        if let (true, Some(limits)) = (ended, limits) {
            check_ended(c, &receiver, limits, &trains)?;
            found.iter().for_each(|kind| *c.entry(kind.to_string()).or_default() += 1);
        }
        if let Reply::Closed { .. } = reply {
            check_closed(c, &receiver, &reply, found[0], run_out)?;
        }
        if reply.ends() {
            break;
        }
    }
    Ok(())
}

/// R-1's widths of rows of edges, each worked by hand.
fn worked() -> Result<usize, String> {
    let (nan, far, most) = (f64::NAN, f64::INFINITY, u32::MAX);
    let power = |n: u32| (1u64 << n) as f64;
    let table: [(&[f64], &[u32]); 14] = [
        // Halves: rounded to whole steps the boundaries are 0, 2, 4 and 6.
        (&[10.5, 12.0, 14.5, 16.0], &[2, 2, 2]),
        // 31.5 64ths are 32, and these a step; 31.25 are 31, and these none. 95.25 are one step, 95.5 two.
        (&[0.0, 31.5 / 64.0], &[1]),
        (&[0.0, 31.25 / 64.0, 95.25 / 64.0, 95.5 / 64.0], &[0, 1, 1]),
        // Never below the boundary before, that of the first edge among them.
        (&[14.0, 13.0, 17.0, 22.5], &[0, 3, 6]),
        (&[0.0, 4.0, 3.0, 3.5, 6.0], &[4, 0, 0, 2]),
        (&[0.0, -far, 2.0], &[0, 2]),
        // The difference is the f64 one: 2^53 has no neighbour a step above it.
        (&[power(53), power(53) + 1.0, power(53) + 2.0], &[0, 2]),
        // NaN counts as 0.
        (&[0.0, 2.0, nan, 5.0], &[2, 0, 3]),
        (&[nan, 2.0, 3.0], &[0, 0]),
        // A width stops at 2^32 - 1, and the boundary does not.
        (&[0.0, power(32) - 1.0, power(33)], &[most, most]),
        (&[0.0, power(32), power(32) + 5.0], &[most, 5]),
        // A difference counts as 2^47 64ths at the most.
        (&[0.0, power(41) - 5.0, power(41) + 5.0, far], &[most, 5, 0]),
        (&[0.0, power(42), power(41)], &[most, 0]),
        (&[0.0, 1.0, far, power(41)], &[1, most, 0]),
    ];
    for (edges, widths) in table {
        let got = carried_widths(edges);
        if got != widths {
            return Err(format!("edges {edges:?}: widths {got:?}, not {widths:?}"));
        }
    }
    Ok(table.len())
}

fn run() -> Result<String, String> {
    let (mut streams, mut calls) = (40, 20_000);
    let mut args = std::env::args().skip(1);
    while let Some(a) = args.next() {
        let number = args.next().and_then(|v| v.parse().ok()).ok_or(format!("{a}: a number"))?;
        match a.as_str() {
            "--streams" => streams = number,
            "--calls" => calls = number,
            _ => return Err(format!("unknown option {a}")),
        }
    }
    let mut c = Census::new();
    for seed in 1..=streams {
        for kind in [Kind::Ook, Kind::Auto, Kind::Exact, Kind::Edges, Kind::Damaged] {
            for (name, made) in SORTS {
                let s = made(seed, calls, Some(kind));
                follow(&mut c, &s.bytes).map_err(|e| format!("seed {seed}, {kind:?}, {name}: {e}"))?;
            }
        }
    }
    for burst in long::listed() {
        let s = burst.stream(1, Receiver::new())?;
        follow(&mut c, &s.bytes).map_err(|e| format!("{}: {e}", burst.name()))?;
    }
    let rows = worked()?;
    let words = verdict::words(&c);
    let figures = format!("bursts that ended, with each train as in its record: {words}; {rows} rows of edges");
    at_least(&c, &LEAST).map_err(|e| format!("{figures}\n{e}"))?;
    Ok(figures)
}

fn main() -> ExitCode {
    verdict::told(run())
}
