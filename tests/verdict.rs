//! The end of a test program: its figures or what failed, and floors for its counts, so that a run that saw too little fails.

#![allow(dead_code)]

use std::collections::BTreeMap;
use std::process::ExitCode;

/// How often each kind of thing came.
pub type Census = BTreeMap<String, u64>;

/// Fails at the first count that is below its floor.
pub fn at_least(census: &Census, floors: &[(&str, u64)]) -> Result<(), String> {
    for &(what, least) in floors {
        let n = census.get(what).copied().unwrap_or(0);
        if n < least {
            return Err(format!("{n} of `{what}` seen, and {least} are wanted"));
        }
    }
    Ok(())
}

/// The counts in words.
pub fn words(census: &Census) -> String {
    let words: Vec<String> = census.iter().map(|(what, n)| format!("{what}: {n}")).collect();
    words.join(", ")
}

/// Prints the figures, or what failed.
pub fn told(result: Result<String, String>) -> ExitCode {
    let (text, code) = match result {
        Ok(figures) => (figures, ExitCode::SUCCESS),
        Err(e) => (e, ExitCode::FAILURE),
    };
    println!("{text}");
    code
}
