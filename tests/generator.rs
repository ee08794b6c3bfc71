//! Command streams from a seed: openings, bursts of every kind of signal, refused commands in between, damaged ones. A reference
//! receiver follows the stream, so that a burst is begun where the lane is idle and stepped until it is idle again. The openings of
//! `stream` are commands 01; those of `carried` are 01 and 04, with carry on and off in turn. `closed` and `carried_closed` are
//! such streams with closes, commands 05. Each program uses a part of it.

#![allow(dead_code)]

use crate::random::Random;
use crate::receiver::{Receiver, Reply, refused_by_carry};
use crate::signal::{
    AT_EDGES, CLOSE, Generator, KINDS, Kind, OUTSIDE, Tick, WORKED, begin_command, part, step_command, value,
};
use crate::verdict::Census;

const INDEX_MOST: u64 = 1 << 40;

/// The bytes of the command that starts with this one; of another byte or none, more than there are.
fn size(command: Option<&u8>) -> usize {
    match command {
        Some(1) => 38,
        Some(2) => 61,
        Some(3) => 25,
        Some(4) => 39,
        Some(_) => 1,
        None => usize::MAX,
    }
}

/// A decided train or frame by its line: the kind, the pairs, whether it is cut.
pub type Decided = (&'static str, u64, bool);

/// A stream under way: its bytes, those that made calls, and the receiver that follows them.
pub struct Stream {
    pub bytes: Vec<u8>,
    taken: usize,
    receiver: Receiver,
    pub calls: u64,
    ended: bool,
    /// What decides on closes, a sequence of its own; none where nothing is drawn for them.
    closing: Option<Random>,
    /// A seeded stream without closes: a byte 05 that damage puts where a command starts stops it as an unknown command does, so that
    /// its bytes do not depend on closes. The calls from there on are made at its end.
    stops_at_close: bool,
    stopped: bool,
    /// The calls after which a close may be the last byte.
    last_close: u64,
    /// How often each kind of call and reply came.
    pub census: Census,
    pub decided: Vec<Decided>,
}

impl Stream {
    pub fn new(receiver: Receiver) -> Self {
        let (bytes, census, decided) = (Vec::new(), Census::new(), Vec::new());
        let (closing, last_close, stops_at_close, stopped) = (None, 0, false, false);
        Self {
            bytes,
            taken: 0,
            receiver,
            calls: 0,
            ended: false,
            closing,
            stops_at_close,
            stopped,
            last_close,
            census,
            decided,
        }
    }

    fn over(&self) -> bool {
        self.ended || self.stopped
    }

    fn count(&mut self, what: &str) {
        *self.census.entry(what.to_string()).or_default() += 1;
    }

    /// Sends bytes; the receiver makes every call that is whole by now. True if the last one was accepted.
    pub fn send(&mut self, bytes: &[u8]) -> bool {
        let mut accepted = false;
        self.bytes.extend(bytes);
        self.stopped |= self.stops_at_close && self.at_close();
        while !self.over() && self.bytes.len() - self.taken >= size(self.bytes[self.taken..].first()) {
            accepted = self.call();
            self.stopped |= self.stops_at_close && self.at_close();
        }
        accepted
    }

    /// True where the next command is a close.
    fn at_close(&self) -> bool {
        self.bytes[self.taken..].starts_with(&CLOSE)
    }

    fn call(&mut self) -> bool {
        self.calls += 1;
        let found = if self.at_close() { self.receiver.found() } else { Vec::new() };
        let (before, mut rest) = (self.taken, &self.bytes[self.taken..]);
        let reply = self.receiver.call(&mut rest);
        self.taken = self.bytes.len() - rest.len();
        self.ended = reply.ends();
        let mut lines = Vec::new();
        self.receiver.lines(&reply, &mut lines).unwrap();
        self.counted(&String::from_utf8(lines).unwrap(), &reply);
        self.counted_carry(before, &reply);
        self.counted_close(&found, &reply);
        !matches!(reply, Reply::Refused(_))
    }

    /// A close, by what it found and what it gave.
    fn counted_close(&mut self, found: &[&str], reply: &Reply) {
        found.iter().for_each(|kind| self.count(kind));
        if let Reply::Closed { .. } = reply {
            let train = self.receiver.decided().is_some();
            self.count(if train { "close that gives a train" } else { "close that gives no train" });
            if self.receiver.carried().contains(&"carry train with other widths") {
                self.count("close that gives other widths by carry");
            }
        }
    }

    /// What the call that starts at this byte has to do with carry.
    fn counted_carry(&mut self, at: usize, reply: &Reply) {
        match reply {
            Reply::Refused(3) if refused_by_carry(&self.bytes[at..self.taken]) => self.count("refused by carry alone"),
            Reply::Refused(_) => {}
            _ => self.receiver.carried().into_iter().for_each(|kind| self.count(kind)),
        }
    }

    /// Makes the calls that are left. Bytes of a command that is not whole end the stream by refusal 2.
    fn finish(&mut self) {
        while self.stopped && !self.ended && self.bytes.len() - self.taken >= size(self.bytes[self.taken..].first()) {
            self.call();
        }
        if !self.ended && self.taken < self.bytes.len() {
            self.call();
        }
    }

    fn counted(&mut self, lines: &str, reply: &Reply) {
        match reply {
            Reply::Opened => self.count("opening"),
            Reply::Begun => self.count("begin"),
            Reply::Closed { .. } => self.count("close"),
            Reply::Refused(_) => {}
            _ => self.count("step"),
        }
        for line in lines.lines() {
            let words: Vec<&str> = line.split(' ').collect();
            match words[0] {
                "refused" => self.count(line),
                "ook" | "fsk" => {
                    let number = |at: usize| words[at].parse::<u64>().unwrap();
                    let cut = if words[3] == "1" { ", cut" } else { "" };
                    let pairs = number(if words[6] == "angle" { 8 } else { 9 });
                    let size = match pairs {
                        0 => "no pair",
                        1 => "1 pair",
                        2..=9 => "2 to 9 pairs",
                        _ => "10 pairs or more",
                    };
                    self.decided.push((if words[0] == "ook" { "ook" } else { "fsk" }, pairs, words[3] == "1"));
                    self.count(&format!("{} {}, {size}{cut}", words[0], words[6]));
                    let floats = &words[5..words.len().min(9)];
                    for (what, found) in [
                        ("cut train", words[3] == "1"),
                        ("end before the index", number(2) < number(1)),
                        ("NaN in a record", floats.contains(&"7fc00000")),
                        ("infinity in a record", floats.contains(&"7f800000") || floats.contains(&"ff800000")),
                    ] {
                        if found {
                            self.count(what);
                        }
                    }
                }
                word => self.count(word),
            }
        }
    }
}

/// A burst from the index on, undisturbed: begin, and steps until the lane is idle again.
pub fn whole_burst(s: &mut Stream, index: u64, factor: f32, ticks: &[Tick]) {
    s.send(&begin_command(index, factor, &ticks[0], [1.0, 0.0], &[0.0; 7]));
    for (i, t) in (index + 1..).zip(&ticks[1..]) {
        if s.receiver.idle() {
            break;
        }
        s.send(&step_command(i, t));
    }
}

fn burst(g: &mut Generator, s: &mut Stream) {
    let plan = g.plan();
    let (factor, ticks) = g.samples(&plan);
    let last = s.receiver.last();
    let mut index = match g.r.below(40) {
        0..3 => g.r.below(10),
        3..5 => INDEX_MOST - g.r.below(400),
        5..8 => g.r.below(INDEX_MOST),
        8 => INDEX_MOST + g.r.below(3),
        _ if last + 1000 > INDEX_MOST => g.r.below(1 << 20),
        _ => last + g.r.from_to(1, 200),
    };
    let mut aim = s.aim(g.settings.mode, ticks.len() as u64);
    let before = [value(g.r.unit()), part(-g.r.unit())];
    let mut earlier = [0.0; 7];
    for e in &mut earlier {
        *e = match g.r.below(3) {
            0 => 0.0,
            1 => ticks[0].envelope,
            _ => value(f64::from(ticks[0].envelope) * g.r.between(0.0, 2.0)),
        };
    }
    let command = begin_command(index, factor, &ticks[0], before, &earlier);
    send_disturbed(g, s, &command);
    if s.receiver.idle() {
        // The begin was refused or damaged.
        return;
    }
    close_at(s, &mut aim);
    let broken_off = g.r.once_in(25).then(|| g.r.below(ticks.len() as u64));
    for (i, t) in ticks[1..].iter().enumerate() {
        if s.over() || s.receiver.idle() || broken_off == Some(i as u64) {
            break;
        }
        index = s.receiver.last() + 1;
        if index > INDEX_MOST {
            s.send(&step_command(index, t));
            break;
        }
        send_disturbed(g, s, &step_command(index, t));
        close_at(s, &mut aim);
    }
}

/// Where a burst is closed: the kind of close that is wanted, or any, and how many calls before it could have been one.
struct Aim {
    kind: Option<&'static str>,
    after: u64,
}

/// Kinds of closes, with a number that the calls before lie below: first those that only pulses have, last those that only frames
/// have, and those that take both.
const AIMS: [(&str, u64); 9] = [
    ("close with an open gap", 30),
    ("close right after a pulse", 4),
    ("close with a closed gap", 10),
    ("close with a full train", 2),
    ("close in lead", 15),
    ("close with no pulse held", 10),
    ("close within a frame", 40),
    ("close that drops a whole frame", 20),
    ("close with a train within a frame", 10),
];

impl Stream {
    /// Whether the next burst, of so many samples in this mode, is closed, and where. The samples may end before the place is found.
    fn aim(&mut self, mode: u8, samples: u64) -> Option<Aim> {
        let r = self.closing.as_mut()?;
        if r.once_in(3) {
            return None;
        }
        if r.once_in(8) {
            return Some(Aim { kind: None, after: r.below(samples) });
        }
        let (kind, most) = match mode {
            0 => r.pick(&AIMS[..6]),
            1 => r.pick(&AIMS[4..8]),
            _ => r.pick(&AIMS),
        };
        Some(Aim { kind: Some(kind), after: r.below(most) })
    }

    /// True once in `n` in a stream with closes.
    fn closes_once_in(&mut self, n: u64) -> bool {
        self.closing.as_mut().is_some_and(|r| r.once_in(n))
    }
}

/// Closes the burst where that is aimed at; then now and then once more, and with a step behind it. A stream may end there.
fn close_at(s: &mut Stream, aim: &mut Option<Aim>) {
    let Some(Aim { kind, after }) = aim else { return };
    if s.over() || s.receiver.idle() || kind.is_some_and(|k| !s.receiver.found().contains(&k)) {
        return;
    }
    if *after > 0 {
        *after -= 1;
        return;
    }
    *aim = None;
    s.send(&CLOSE);
    if s.calls >= s.last_close && s.closes_once_in(3) {
        s.count("close as the last byte");
        s.stopped = true;
        return;
    }
    if s.closes_once_in(4) {
        s.send(&CLOSE);
    }
    if s.closes_once_in(8) {
        let index = s.receiver.last() + 1;
        s.send(&step_command(index, &Tick { noise: 0.0, envelope: 8.0, sample: [1.0, 0.0] }));
    }
}

/// Sends the command; before it now and then another, and in a damaged stream changed bytes.
fn send_disturbed(g: &mut Generator, s: &mut Stream, command: &[u8]) {
    let often = match g.kind {
        Kind::Damaged => 12,
        Kind::Edges => 60,
        _ => 400,
    };
    if g.r.once_in(often) {
        let other = disturbance(g, s, command);
        s.send(&other);
    }
    if s.closes_once_in(often * 4) {
        s.send(&CLOSE);
    }
    if g.kind == Kind::Damaged && g.r.once_in(3000) {
        let cut = g.r.below(command.len() as u64) as usize;
        s.send(&command[..cut]);
        return;
    }
    if s.receiver.idle() == (command[0] == 2) {
        s.send(command);
    }
}

/// A command that mostly is refused, by one fault or several: out of turn, with another index, with a float outside its range,
/// with settings outside the domain, or damaged.
fn disturbance(g: &mut Generator, s: &mut Stream, command: &[u8]) -> Vec<u8> {
    let index = s.receiver.last();
    match g.r.below(8) {
        0 => {
            if let Some(outside) = g.carry_outside() {
                return outside.command();
            }
            let mut bad = g.edge_settings();
            if g.kind != Kind::Damaged {
                bad.mode = 3;
            }
            return bad.command();
        }
        n @ 1..4 if g.kind == Kind::Damaged => return damaged(&mut g.r, command, n),
        _ => {}
    }
    let mut other = command.to_vec();
    let faults = g.r.pick(&[1, 2, 4, 4, 4, 3, 5, 6, 7]);
    if faults & 1 != 0 {
        let t = Tick { noise: 0.0, envelope: 1.0, sample: [1.0, 0.0] };
        let again = index.wrapping_add(g.r.below(2));
        other = match command[0] {
            3 => begin_command(again, 1.0, &t, [1.0, 0.0], &[0.0; 7]),
            _ => step_command(again, &t),
        };
    }
    if faults & 2 != 0 {
        let wrong = g.r.pick(&[index, index + 2, index + 32, index.wrapping_sub(1), INDEX_MOST + 1, u64::MAX]);
        other[1..9].copy_from_slice(&wrong.to_le_bytes());
    }
    if faults & 4 != 0 {
        put_odd_float(&mut g.r, &mut other);
    }
    other
}

fn put_odd_float(r: &mut Random, command: &mut [u8]) {
    let floats = (command.len() - 9) / 4;
    let at = 9 + 4 * r.below(floats as u64) as usize;
    let x = if r.once_in(3) { r.pick(&AT_EDGES) } else { r.pick(&OUTSIDE) };
    command[at..at + 4].copy_from_slice(&x.to_bits().to_le_bytes());
}

/// The command with one bit of its operands changed, with any operands, seldom with another command byte, or twice.
fn damaged(r: &mut Random, command: &[u8], how: u64) -> Vec<u8> {
    let mut other = command.to_vec();
    match how {
        1 => {
            let bit = 8 + r.below(8 * (other.len() as u64 - 1));
            other[bit as usize / 8] ^= 1 << (bit % 8);
        }
        2 => other[1..].fill_with(|| r.u32() as u8),
        _ if r.once_in(300) => other[0] = r.pick(&[0, 4, 5, 16, 17, 255]),
        _ => other.extend(command),
    }
    other
}

/// The stream of a seed, of about `calls` calls; its kind by the seed where none is given. Its openings are commands 01.
pub fn stream(seed: u64, calls: u64, kind: Option<Kind>) -> Stream {
    made(seed, calls, kind, [false, false])
}

/// Such a stream with openings 01 and 04.
pub fn carried(seed: u64, calls: u64, kind: Option<Kind>) -> Stream {
    made(seed, calls, kind, [true, false])
}

/// A stream with openings 01, and closes.
pub fn closed(seed: u64, calls: u64, kind: Option<Kind>) -> Stream {
    made(seed, calls, kind, [false, true])
}

/// A stream with openings 01 and 04, and closes.
pub fn carried_closed(seed: u64, calls: u64, kind: Option<Kind>) -> Stream {
    made(seed, calls, kind, [true, true])
}

/// Makes a stream of a seed.
pub type Made = fn(u64, u64, Option<Kind>) -> Stream;

/// The four sorts of streams.
pub const SORTS: [(&str, Made); 4] = [
    ("01 and 04", carried),
    ("01 alone", stream),
    ("01 and 04, with closes", carried_closed),
    ("01 alone, with closes", closed),
];

/// The stream of a seed, whose remainder by 4 is the place of its sort: those of even seeds have openings 01 and 04, and those of
/// the seeds 2 and 3 more than a multiple of 4 have closes.
pub fn by_seed(seed: u64, calls: u64, kind: Option<Kind>) -> Stream {
    SORTS[seed as usize % SORTS.len()].1(seed, calls, kind)
}

fn made(seed: u64, calls: u64, kind: Option<Kind>, [carry, close]: [bool; 2]) -> Stream {
    // What is drawn for carry and for closes is drawn apart.
    let carry = carry.then(|| Random::new(seed ^ (1 << 63)));
    let closing = close.then(|| Random::new(seed ^ (1 << 62)));
    let mut r = Random::new(seed);
    let by_seed = KINDS[r.below(KINDS.len() as u64) as usize].1;
    let kind = kind.unwrap_or(by_seed);
    let mut g = Generator { r, kind, settings: WORKED, carry };
    let mut s = Stream { closing, stops_at_close: !close, last_close: calls / 10 * 9, ..Stream::new(Receiver::new()) };
    if s.closes_once_in(4) {
        s.send(&CLOSE);
    }
    if g.r.once_in(4) {
        // Before any settings.
        burst(&mut g, &mut s);
        s.send(&step_command(1, &Tick { noise: 0.0, envelope: 0.0, sample: [0.0; 2] }));
    }
    while !s.over() && s.calls < calls {
        let next = g.settings();
        if s.send(&next.command()) {
            g.settings = next;
        }
        for _ in 0..g.r.from_to(1, 8) {
            if s.over() || !s.receiver.idle() {
                break;
            }
            if s.closes_once_in(10) {
                s.send(&CLOSE);
            }
            if let Some(again) = g.carry_changed() {
                s.send(&again.command());
            }
            burst(&mut g, &mut s);
        }
    }
    if !s.over() && g.r.once_in(3) {
        let command = g.settings.command();
        s.send(&command[..g.r.from_to(1, command.len() as u64 - 1) as usize]);
    }
    if !s.over() && s.closes_once_in(4) {
        s.send(&CLOSE);
    }
    s.finish();
    s
}
