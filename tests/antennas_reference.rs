//! The reference program for sixteen antennas: commands on standard input, their lines on standard output (document 02, R-4). It
//! answers what one read brought before the next, and says which of them failed.

use std::io::{self, Read, Write};

// The published text has parts that a listing does not read.
#[allow(dead_code)]
mod receiver;
mod sixteen;

use sixteen::{Sixteen, size};

/// True where the call at the front can be made with nothing more read.
fn ready(input: &[u8]) -> bool {
    input.first().is_some_and(|&command| size(command).is_none_or(|size| input.len() >= size))
}

/// Says what failed, in the words of the system alone.
fn said(what: &str, e: &io::Error) {
    let words = e.to_string();
    eprintln!("antennas: {what}: {}", words.split(" (os error").next().unwrap_or_default());
}

fn main() {
    let mut lanes = Sixteen::new();
    let (mut input, mut block) = (Vec::new(), vec![0; 1 << 16]);
    let (mut read, mut ended) = (1, false);
    while read > 0 && !ended {
        read = match io::stdin().read(&mut block) {
            Ok(read) => read,
            Err(e) => return said("read", &e),
        };
        input.extend(&block[..read]);
        let (mut rest, mut lines) = (&input[..], Vec::new());
        while !ended && (ready(rest) || read == 0 && !rest.is_empty()) {
            let answer = lanes.call(&mut rest);
            lanes.lines(&answer, &mut lines).unwrap();
            ended = answer.reply.ends();
        }
        input = rest.to_vec();
        let written = io::stdout().write_all(&lines).and_then(|()| io::stdout().flush());
        if let Err(e) = written {
            return said("write", &e);
        }
    }
}
