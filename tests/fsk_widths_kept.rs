//! Replays the kept sample of slot lists and published widths, tests/data/fsk_widths.txt, through `lane_fsk_widths` of
//! crates/host/out/libhost.a; tests/fsk_widths.rs wrote it. Needs no published source.

use std::process::ExitCode;

mod host;
mod verdict;

const SAMPLE: &str = include_str!("data/fsk_widths.txt");

/// Lists that the sample must have, at the least.
const LEAST: usize = 400;

fn numbers(words: &str) -> Vec<u32> {
    words.split_whitespace().map(|w| w.parse().unwrap()).collect()
}

fn run() -> Result<String, String> {
    for line in SAMPLE.lines() {
        let (slots, widths) = line.split_once(':').ok_or("slots : widths")?;
        let mut got = numbers(slots);
        let reply = host::fsk_widths(&mut got);
        if reply != Ok(()) || got != numbers(widths) {
            return Err(format!("slots {slots}\n  published {widths}\n  here      {got:?}, {reply:?}"));
        }
    }
    match SAMPLE.lines().count() {
        lists @ LEAST.. => Ok(format!("{lists} kept lists agree")),
        lists => Err(format!("only {lists} lists are kept, and {LEAST} are wanted")),
    }
}

fn main() -> ExitCode {
    verdict::told(run())
}
