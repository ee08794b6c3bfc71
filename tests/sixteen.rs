//! Sixteen reference receivers (document 02, R-4): commands with an antenna number right after the command byte, counted among the
//! operand bytes, and the lines of their calls, each after the antenna number and a blank. Which lanes are out of idle is asked of
//! every lane at each begin; the rest is the receiver's. Each program uses a part of it.

#![allow(dead_code)]

use std::io::{self, Write};

use crate::receiver::{Receiver, Reply, operand_bytes};

pub const ANTENNAS: usize = 16;

/// The bytes of a command with its antenna; none of a byte that is no command.
pub fn size(command: u8) -> Option<usize> {
    Some(1 + 1 + operand_bytes(command)?)
}

/// What a call gives, and the antenna that it named; refusals 1 and 2 name none.
pub struct Answer {
    pub antenna: Option<u8>,
    pub reply: Reply,
}

pub struct Sixteen {
    lanes: Vec<Receiver>,
}

impl Sixteen {
    pub fn new() -> Self {
        Self { lanes: (0..ANTENNAS).map(|_| Receiver::new()).collect() }
    }

    /// The lane of an antenna; none above 15.
    pub fn lane(&self, antenna: u8) -> Option<&Receiver> {
        self.lanes.get(usize::from(antenna))
    }

    /// The antennas whose lanes are out of idle.
    pub fn out(&self) -> Vec<u8> {
        (0..).zip(&self.lanes).filter(|(_, lane)| !lane.idle()).map(|(antenna, _)| antenna).collect()
    }

    /// How many lanes beside this antenna's are out of idle.
    pub fn others_out(&self, antenna: u8) -> usize {
        (0..).zip(&self.lanes).filter(|(other, lane)| *other != antenna && !lane.idle()).count()
    }

    /// Makes the call at the front of `input` and leaves what follows it there; `input` is not empty.
    pub fn call(&mut self, input: &mut &[u8]) -> Answer {
        let command = input[0];
        let refused = |number| Answer { antenna: None, reply: Reply::Refused(number) };
        let Some(size) = size(command) else { return refused(1) };
        let Some((whole, rest)) = input.split_at_checked(size) else { return refused(2) };
        *input = rest;
        let antenna = whole[1];
        let others = self.others_out(antenna);
        let reply = match self.lanes.get_mut(usize::from(antenna)) {
            Some(lane) => lane.called(command, &whole[2..], others),
            None => Reply::Refused(6),
        };
        Answer { antenna: Some(antenna), reply }
    }

    /// The lines of a call: those of the lane, each after the antenna's number.
    pub fn lines(&self, answer: &Answer, out: &mut impl Write) -> io::Result<()> {
        let mut lines = Vec::new();
        match (&answer.reply, answer.antenna) {
            (Reply::Refused(number), _) => writeln!(lines, "refused {number}")?,
            (reply, Some(antenna)) => self.lanes[usize::from(antenna)].lines(reply, &mut lines)?,
            (_, None) => unreachable!("an answer without an antenna"),
        }
        out.write_all(&numbered(answer.antenna, &lines))
    }
}

/// The lines, each after the antenna's number and a blank.
pub fn numbered(antenna: Option<u8>, lines: &[u8]) -> Vec<u8> {
    let number = antenna.map_or(String::new(), |n| format!("{n} "));
    lines.split_inclusive(|&b| b == b'\n').flat_map(|line| [number.as_bytes(), line].concat()).collect()
}
