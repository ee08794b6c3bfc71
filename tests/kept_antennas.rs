//! The kept stream for sixteen antennas, crates/antennas/stdin, and its lines, crates/antennas/stdout: counts the kinds of lines and
//! fails where one that must be there is missing; then each program named must print these lines.
//!
//!     kept_antennas [PROGRAM...]

use std::fs::{read, read_to_string};
use std::process::ExitCode;

mod program;
mod verdict;

use program::printed;
use verdict::{Census, at_least};

const STREAM: &str = "crates/antennas/stdin";
const LINES: &str = "crates/antennas/stdout";

/// What the lines must have, with the least number of each; every antenna has a train too.
const LEAST: [(&str, u64); 12] = [
    ("ook", 20),
    ("fsk", 3),
    ("idle", 30),
    ("carrier", 3),
    ("refused 2", 1),
    ("refused 3", 1),
    ("refused 5", 10),
    ("refused 6", 1),
    ("refused 6 by the antenna", 8),
    ("refused 7", 1),
    ("refused 8", 1),
    ("refused 12", 10),
];

/// The kinds of a line. Refusals 1 and 2 are without an antenna.
fn kinds(line: &str) -> Vec<String> {
    let Some((antenna, words)) = line.split_once(' ').filter(|(first, _)| *first != "refused") else {
        return vec![line.to_string()];
    };
    match words.split(' ').next().unwrap_or_default() {
        "refused" if antenna.len() > 1 && antenna > "15" => vec!["refused 6 by the antenna".to_string()],
        "refused" => vec![words.to_string()],
        kind @ ("ook" | "fsk") => vec![kind.to_string(), format!("train of antenna {antenna}")],
        kind => vec![kind.to_string()],
    }
}

fn run() -> Result<String, String> {
    let stream = read(STREAM).map_err(|e| format!("{STREAM}: {e}"))?;
    let lines = read_to_string(LINES).map_err(|e| format!("{LINES}: {e}"))?;
    let mut census = Census::new();
    for kind in lines.lines().flat_map(kinds) {
        *census.entry(kind).or_default() += 1;
    }
    let trains: Vec<String> = (0..16).map(|antenna| format!("train of antenna {antenna}")).collect();
    let trains = trains.iter().map(|train| (&train[..], 1));
    let floors: Vec<(&str, u64)> = LEAST.into_iter().chain(trains).collect();
    at_least(&census, &floors).map_err(|e| format!("{STREAM}: {e}"))?;
    let programs: Vec<String> = std::env::args().skip(1).collect();
    for program in &programs {
        if printed(program, &stream)? != lines.as_bytes() {
            return Err(format!("{program} prints other lines than {LINES}"));
        }
    }
    Ok(format!("{} prints {LINES}: {}", programs.join(" and "), verdict::words(&census)))
}

fn main() -> ExitCode {
    verdict::told(run())
}
