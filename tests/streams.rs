//! Writes a command stream for the listing program (document 01, "Commands") to standard output.
//!
//!     streams [--seed N] [--calls N] [--kind KIND] [--carry] [--close] [--census]
//!     streams --long [--seed N]      the long bursts of the kept stream instead, a seed each
//!     streams --short [--seed N] [--calls N]     bursts of short pulses instead, those of the benchmark
//!     streams --antennas [--seed N] [--calls N] [--census]     commands for sixteen antennas instead (document 02, R-4)
//!
//! Kinds: ook, fsk, auto (settings of that mode), exact (values that meet thresholds and ties exactly), edges (values and
//! settings at and past the ends of the domain), damaged (commands with changed, lost or repeated bytes; such a stream may end
//! early) and any (one of them, by the seed). With --carry openings are commands 01 and 04, elsewhere 01 alone. With --close there are
//! closes, commands 05. With --census the kinds of calls and replies are counted on standard error.

use std::io::{self, Write};

mod generator;
mod long;
mod mixed;
mod random;
#[allow(dead_code)]
mod receiver;
mod signal;
mod sixteen;
mod verdict;
mod worked;

use generator::{carried, carried_closed, closed, stream};
use receiver::Receiver;
use signal::KINDS;

fn main() -> io::Result<()> {
    let (mut seed, mut calls, mut kind) = (1u64, 10_000u64, None);
    let (mut carry, mut close, mut census) = (false, false, false);
    let (mut long, mut short, mut antennas) = (false, false, false);
    let mut args = std::env::args().skip(1);
    while let Some(a) = args.next() {
        let mut value = || args.next().unwrap_or_else(|| usage());
        match a.as_str() {
            "--seed" => seed = value().parse().unwrap_or_else(|_| usage()),
            "--calls" => calls = value().parse().unwrap_or_else(|_| usage()),
            "--kind" => kind = Some(value()),
            "--carry" => carry = true,
            "--close" => close = true,
            "--census" => census = true,
            "--long" => long = true,
            "--short" => short = true,
            "--antennas" => antennas = true,
            _ => usage(),
        }
    }
    if long {
        let streams = (seed..).zip(long::kept()).map(|(seed, burst)| burst.stream(seed, Receiver::new()));
        let streams = streams.collect::<Result<Vec<_>, _>>().map_err(io::Error::other)?;
        return streams.iter().try_for_each(|s| io::stdout().lock().write_all(&s.bytes));
    }
    let kind = kind.filter(|k| k != "any").map(|name| {
        let found = KINDS.iter().find(|(n, _)| *n == name);
        found.unwrap_or_else(|| usage()).1
    });
    let made = match (carry, close) {
        (false, false) => stream,
        (true, false) => carried,
        (false, true) => closed,
        (true, true) => carried_closed,
    };
    let (bytes, counts) = if antennas {
        let m = mixed::mixed(seed, calls);
        (m.bytes, m.census)
    } else {
        let s = if short { long::short_pulses(seed, calls) } else { made(seed, calls, kind) };
        (s.bytes, s.census)
    };
    if census {
        for (what, n) in &counts {
            eprintln!("{n:9} {what}");
        }
    }
    io::stdout().lock().write_all(&bytes)
}

fn usage() -> ! {
    eprintln!(
        "streams [--seed N] [--calls N] [--kind ook|fsk|auto|exact|edges|damaged|any] [--carry] [--close] [--census] \
         [--long | --short | --antennas]"
    );
    std::process::exit(2)
}
