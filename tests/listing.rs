//! The reference listing program: commands on standard input, their listing on standard output (document 01, "Commands").

use std::io::{self, Read, Write};

// The published text has parts that a listing does not read.
#[allow(dead_code)]
mod receiver;

use receiver::Receiver;

fn main() -> io::Result<()> {
    let mut input = Vec::new();
    io::stdin().lock().read_to_end(&mut input)?;
    let mut out = io::BufWriter::new(io::stdout().lock());
    let mut receiver = Receiver::new();
    let mut rest = &input[..];
    while !rest.is_empty() {
        let reply = receiver.call(&mut rest);
        receiver.lines(&reply, &mut out)?;
        if reply.ends() {
            break;
        }
    }
    out.flush()
}
