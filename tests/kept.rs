//! The kept stream, crates/listing/stdin, and its listing, crates/listing/stdout: counts the kinds of lines and fails where
//! one that must be there is missing; then each program named must print that listing.
//!
//!     kept [PROGRAM...]

use std::fs::{File, read, read_to_string};
use std::process::{Command, ExitCode};

mod program;
mod verdict;

use verdict::{Census, at_least};

const STREAM: &str = "crates/listing/stdin";
const LISTING: &str = "crates/listing/stdout";

/// M6, M7 and M8 come first (document 01, "Worked bursts"), then bursts of R-1 (document 02): the same two pulses twice in carry
/// mode, with a refused carry in between, a train with an edge before the one before, and the two pulses without carry.
const FRONT: &str = "ook 11 15 0 4 41000000 vector 40800000 00000000 1 4 0\nidle 19\n\
                     ook 11 19 0 8 41000000 vector 40e00000 00000000 1 8 0\nidle 23\nidle 16\n\
                     ook 11 16 0 5 41000000 vector 40800000 00000000 2 2 2 2 0\nidle 21\nrefused 3\n\
                     ook 31 36 0 5 41000000 vector 40800000 00000000 2 2 2 2 0\nidle 41\n\
                     ook 11 23 0 12 41fe7965 vector 41000000 00000000 2 0 3 6 0\nidle 27\n\
                     ook 11 16 0 5 41000000 vector 40800000 00000000 2 2 3 2 0\nidle 21\n";

/// Bursts of R-13 (document 02) come among the others: closes of an idle lane, in lead, in a pulse, in a gap, in the next pulse, twice,
/// in carry mode, in a frame, after one, and of a train within a frame.
const CLOSED: &str = "\nrefused 5\nidle 15\nidle 17\n\
                      ook 11 14 0 3 41000000 vector 40400000 00000000 1 3 0\nidle 16\n\
                      ook 11 14 0 3 41000000 vector 40400000 00000000 1 3 3\nidle 19\nrefused 5\n\
                      ook 11 16 0 5 41000000 vector 40800000 00000000 2 2 2 2 2\nidle 20\nidle 17\n\
                      fsk 10 14 0 4 41000000 vector 40400000 00000000 1 3 0\nidle 16\n\
                      ook 11 14 0 3 41000000 vector 40400000 00000000 1 3 3\nidle 37\n";

/// What the stream and its listing must have, with the least number of each. No list of calls meets refusal 4, refusals 1 and 2
/// end a stream, and refusal 9 is not a command's.
const LEAST: [(&str, u64); 38] = [
    ("opening, mode 0", 2),
    ("opening, mode 1", 2),
    ("opening, mode 2", 2),
    ("opening, mode 0, carry 0", 2),
    ("opening, mode 0, carry 1", 10),
    ("opening, mode 1, carry 1", 2),
    ("opening, mode 2, carry 0", 1),
    ("opening, mode 2, carry 1", 5),
    ("opening, carry above 1", 10),
    ("begin", 300),
    ("close after 01", 1),
    ("close after 02", 1),
    ("close after 03", 50),
    ("close after 04", 1),
    ("close after 05", 5),
    ("train", 300),
    ("ook vector", 50),
    ("fsk angle", 20),
    ("fsk vector", 50),
    ("ook cut", 1),
    ("fsk cut", 1),
    ("train of 10 pairs or more", 10),
    ("train of 300 pairs or more", 6),
    ("train of 2,048 pairs", 1),
    ("frame of no pair", 1),
    ("end before the index", 1),
    ("span below the sum of the widths", 20),
    ("span above the sum of the widths", 20),
    ("NaN in a record", 1),
    ("infinity in a record", 1),
    ("idle", 100),
    ("carrier", 10),
    ("refused 2", 1),
    ("refused 3", 1),
    ("refused 5", 1),
    ("refused 6", 1),
    ("refused 7", 1),
    ("refused 8", 1),
];

/// The kinds of a train line, by its words: kind, index, end, cut mark, span, level, carrier, pairs, widths.
fn train(words: &[&str]) -> Vec<String> {
    let pairs_at = if words[6] == "angle" { 8 } else { 9 };
    let number = |at: usize| words[at].parse::<u64>().unwrap();
    let pairs = number(pairs_at);
    let floats = &words[5..pairs_at];
    let sum: u64 = (pairs_at + 1..words.len()).map(number).sum();
    let named = [
        ("train", true),
        ("train of 10 pairs or more", pairs >= 10),
        ("train of 300 pairs or more", pairs >= 300),
        ("train of 2,048 pairs", pairs == 2048),
        ("frame of no pair", pairs == 0),
        ("end before the index", number(2) < number(1)),
        ("span below the sum of the widths", number(4) < sum),
        ("span above the sum of the widths", number(4) > sum),
        ("NaN in a record", floats.contains(&"7fc00000")),
        ("infinity in a record", floats.contains(&"7f800000") || floats.contains(&"ff800000")),
    ];
    let mut kinds: Vec<String> = named.iter().filter(|n| n.1).map(|n| n.0.to_string()).collect();
    kinds.push(format!("{} {}", words[0], words[6]));
    if words[3] == "1" {
        kinds.push(format!("{} cut", words[0]));
    }
    kinds
}

fn line(line: &str) -> Vec<String> {
    let words: Vec<&str> = line.split(' ').collect();
    match words[0] {
        "ook" | "fsk" => train(&words),
        "refused" => vec![line.to_string()],
        word => vec![word.to_string()],
    }
}

/// The commands of the stream, accepted or not, and the number of bytes after the last whole one.
fn commands(mut rest: &[u8]) -> (Vec<String>, usize) {
    let mut kinds = Vec::new();
    let mut before = 0;
    loop {
        let size = match rest.first() {
            Some(1) => 38,
            Some(2) => 61,
            Some(3) => 25,
            Some(4) => 39,
            Some(5) => 1,
            _ => return (kinds, rest.len()),
        };
        if rest.len() < size {
            return (kinds, rest.len());
        }
        kinds.push(match rest[0] {
            1 => format!("opening, mode {}", rest[1]),
            4 if rest[38] > 1 => "opening, carry above 1".to_string(),
            4 => format!("opening, mode {}, carry {}", rest[1], rest[38]),
            2 => "begin".to_string(),
            5 => format!("close after {before:02x}"),
            _ => "step".to_string(),
        });
        before = rest[0];
        rest = &rest[size..];
    }
}

fn counted(stream: &[u8], listing: &str) -> Result<Census, String> {
    let (kinds, left) = commands(stream);
    if left > 60 {
        return Err(format!("{STREAM}: {left} bytes after the last command"));
    }
    if !listing.starts_with(FRONT) {
        return Err(format!("{LISTING}: M6, M7, M8 and R-1's bursts are not first"));
    }
    if !listing.contains(CLOSED) {
        return Err(format!("{LISTING}: R-13's bursts are not in it"));
    }
    let mut census = Census::new();
    for kind in kinds.into_iter().chain(listing.lines().flat_map(line)) {
        *census.entry(kind).or_default() += 1;
    }
    at_least(&census, &LEAST).map_err(|e| format!("{STREAM}: {e}"))?;
    Ok(census)
}

fn run() -> Result<String, String> {
    let stream = read(STREAM).map_err(|e| format!("{STREAM}: {e}"))?;
    let listing = read_to_string(LISTING).map_err(|e| format!("{LISTING}: {e}"))?;
    let census = counted(&stream, &listing)?;
    let programs: Vec<String> = std::env::args().skip(1).collect();
    for program in &programs {
        let input = File::open(STREAM).map_err(|e| e.to_string())?;
        let output = Command::new(program).stdin(input).output().map_err(|e| format!("{program}: {e}"))?;
        if program::good(program, output)? != listing.as_bytes() {
            return Err(format!("{program} prints other lines than {LISTING}"));
        }
    }
    Ok(format!("{} prints {LISTING}: {}", programs.join(" and "), verdict::words(&census)))
}

fn main() -> ExitCode {
    verdict::told(run())
}
