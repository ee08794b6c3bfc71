//! A program on a live pipe. Each answer must come as soon as its command's last byte is there, with nothing sent behind it: by single
//! commands, in pieces of commands, several commands in one write, and where one read brings more lines than the program writes at
//! once. A read or a write that fails must be said on standard error.

use std::fs::{File, OpenOptions};

use crate::program::{Live, complaint, printed};

/// A command and what it prints.
pub type Call = (Vec<u8>, String);

/// The script cut into pieces; after each the sender waits.
enum Pieces {
    Commands(usize),
    Bytes(usize),
}

impl Pieces {
    /// The places where a piece ends, of commands that end at `ends`.
    fn places(&self, ends: &[usize]) -> Vec<usize> {
        let last = *ends.last().unwrap();
        let mut places: Vec<usize> = match *self {
            Pieces::Commands(n) => ends.chunks(n).map(|c| *c.last().unwrap()).collect(),
            Pieces::Bytes(n) => (n..last).step_by(n).chain([last]).collect(),
        };
        places.dedup();
        places
    }
}

/// Sends the script piece by piece. After each, what the commands that are whole by now print must come, and nothing else.
fn answered(program: &str, script: &[Call], pieces: &Pieces) -> Result<(), String> {
    let bytes: Vec<u8> = script.iter().flat_map(|c| c.0.clone()).collect();
    let ends: Vec<usize> = (1..=script.len()).map(|n| script[..n].iter().map(|c| c.0.len()).sum()).collect();
    let mut live = Live::start(program, &[])?;
    let mut sent = 0;
    for place in pieces.places(&ends) {
        live.send(&bytes[sent..place])?;
        let whole = ends.iter().zip(script).filter(|(end, _)| (sent + 1..=place).contains(end));
        let lines: String = whole.map(|(_, call)| &call.1[..]).collect();
        live.answers(lines.as_bytes()).map_err(|e| format!("after {place} bytes {e}"))?;
        sent = place;
    }
    live.closes()
}

/// Refusal 1 ends the stream though the input is open.
fn ended(program: &str) -> Result<(), String> {
    let mut live = Live::start(program, &[9])?;
    live.answers(b"refused 1\n")?;
    live.ends()
}

/// What a pipe holds and one read takes.
pub const READ: usize = 1 << 16;

/// Bytes of lines that a flood brings with one read, at the least. A program that keeps room for the longest call's lines (172,400
/// bytes) in a text of 262,144 bytes writes fewer at once.
const FLOOD: usize = 95_000;

/// All lines of a flood come before the next is sent, and those of the last before the input ends.
fn flooded(program: &str, floods: &[Vec<u8>; 2]) -> Result<(), String> {
    let first = printed(program, &floods[0])?;
    let both = printed(program, &floods.concat())?;
    let lines = both.split_at(first.len());
    if lines.0.len().min(lines.1.len()) < FLOOD {
        return Err(format!("{} and {} bytes of lines are no floods", lines.0.len(), lines.1.len()));
    }
    let mut live = Live::start(program, &floods[0])?;
    live.answers(lines.0)?;
    live.send(&floods[1])?;
    live.answers(lines.1)?;
    live.closes()
}

/// What the program must say where it cannot write or read, and where it can.
fn complained(program: &str, from: &str, to: &str, words: &str) -> Result<(), String> {
    let input = File::open(from).map_err(|e| format!("{from}: {e}"))?;
    let output = OpenOptions::new().write(true).open(to).map_err(|e| format!("{to}: {e}"))?;
    let said = complaint(program, input, output)?;
    if said == words { Ok(()) } else { Err(format!("said {said:?}, wanted {words:?}")) }
}

/// What is sent to a program, by its name: a script; two floods, the second after the first; and a stream from a file.
pub struct Sent {
    pub name: &'static str,
    pub script: Vec<Call>,
    pub floods: [Vec<u8>; 2],
    pub stream: &'static str,
}

/// Every way of sending. The figures, or what failed.
pub fn tried(program: &str, sent: &Sent) -> Result<String, String> {
    let Sent { name, script, floods, stream } = sent;
    let mut tries = Vec::new();
    for n in [1, 2, 3, 7, script.len()] {
        tries.push((format!("{n} commands at a time"), answered(program, script, &Pieces::Commands(n))));
    }
    for n in [1, 10, 24, 40, 61] {
        tries.push((format!("{n} bytes at a time"), answered(program, script, &Pieces::Bytes(n))));
    }
    tries.push(("refusal 1".to_string(), ended(program)));
    tries.push(("floods".to_string(), flooded(program, floods)));
    for (from, to, words) in [
        (*stream, "/dev/full", format!("{name}: write: No space left on device\n")),
        ("/", "/dev/null", format!("{name}: read: Is a directory\n")),
        (*stream, "/dev/null", String::new()),
    ] {
        tries.push((format!("from {from} to {to}"), complained(program, from, to, &words)));
    }
    let faults: Vec<String> =
        tries.iter().filter_map(|(what, r)| Some(format!("{what}: {}", r.as_ref().err()?))).collect();
    if !faults.is_empty() {
        return Err(faults.join("\n"));
    }
    Ok(format!("{} calls in ten ways of sending, two floods, {} tries in all", script.len(), tries.len()))
}
