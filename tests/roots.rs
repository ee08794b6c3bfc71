//! The table that the square root begins from, three times over: the array in the source of crate table, what the program `roots`
//! prints, and its rule, worked out here.
//!
//!     roots PROGRAM

use std::fs::OpenOptions;
use std::process::{Command, ExitCode, Stdio};

#[allow(dead_code)]
mod program;
mod verdict;

const SOURCE: &str = include_str!("../crates/table/src/lib.rt");

const FIRST: u64 = 256;
const NUMBERS: usize = 768;

/// The largest whole number whose square is at most 64 * i.
fn by_rule(i: u64) -> u64 {
    (0..).take_while(|r| r * r <= 64 * i).last().unwrap()
}

/// The bytes of the array in the source, the entry of 256 first.
fn in_source() -> Result<Vec<u64>, String> {
    let (_, rest) = SOURCE.split_once("static ENTRIES: [u8; 768] = [").ok_or("the source has no array of 768 bytes")?;
    let (entries, _) = rest.split_once("];").ok_or("the array in the source does not end")?;
    let words = entries.split(',').map(str::trim).filter(|word| !word.is_empty());
    words.map(|word| word.parse::<u8>().map(u64::from).map_err(|e| format!("{word}: {e}"))).collect()
}

fn by_program(program: &str) -> Result<Vec<u64>, String> {
    let output = Command::new(program).output().map_err(|e| format!("{program}: {e}"))?;
    let text = String::from_utf8(program::good(program, output)?).map_err(|e| e.to_string())?;
    if !text.ends_with('\n') {
        return Err(format!("the last line of {program} does not end"));
    }
    text.lines()
        .map(|line| match line.parse::<u64>() {
            Ok(n) if n.to_string() == line => Ok(n),
            _ => Err(format!("{program} prints the line `{line}`")),
        })
        .collect()
}

/// What the program says where it cannot write.
fn on_a_full_disk(program: &str) -> Result<(), String> {
    let full = OpenOptions::new().write(true).open("/dev/full").map_err(|e| e.to_string())?;
    let mut command = Command::new(program);
    let output = command.stdout(full).stderr(Stdio::piped()).output().map_err(|e| format!("{program}: {e}"))?;
    match output.stderr.as_slice() {
        b"roots: write: No space left on device\n" => Ok(()),
        said => Err(format!("on a full disk {program} says {:?}", String::from_utf8_lossy(said))),
    }
}

fn run() -> Result<String, String> {
    let program = std::env::args().nth(1).ok_or("roots PROGRAM")?;
    let rule: Vec<u64> = (FIRST..).map(by_rule).take(NUMBERS).collect();
    for (what, numbers) in [("the source", in_source()?), ("the program", by_program(&program)?)] {
        if numbers.len() != NUMBERS {
            return Err(format!("{what} has {} numbers", numbers.len()));
        }
        if let Some(at) = (0..NUMBERS).find(|&at| numbers[at] != rule[at]) {
            return Err(format!("{what} has {} for {}, the rule {}", numbers[at], FIRST + at as u64, rule[at]));
        }
    }
    let known = [(256, 128), (511, 180), (512, 181), (1023, 255)];
    if let Some((i, r)) = known.into_iter().find(|&(i, r)| rule[i - FIRST as usize] != r) {
        return Err(format!("the rule worked out here gives no {r} for {i}"));
    }
    on_a_full_disk(&program)?;
    Ok(format!("{NUMBERS} numbers, from {} to {}, by the rule, in the source and printed", rule[0], rule[NUMBERS - 1]))
}

fn main() -> ExitCode {
    verdict::told(run())
}
