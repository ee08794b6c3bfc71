//! Command streams for sixteen antennas, from a seed (document 02, R-4). Each antenna has commands of its own: streams of generator.rs,
//! of every kind and sort, short bursts, or now and then one of 300 pairs. They are sent in turn, one by one or in runs, most of them to the lanes that are out of
//! idle; a begin that meets refusal 12 is mostly sent again later, so that four lanes are out of idle most of the time, and their
//! bursts are as long as they are alone. In between come antennas above 15, commands for another antenna than their own, begins that
//! meet another refusal beside four lanes, and, at the end of some streams, changed, lost and missing bytes.

use crate::generator::by_seed;
use crate::long;
use crate::random::Random;
use crate::receiver::{Receiver, Reply, operand_bytes};
use crate::signal::{CLOSE, Kind, OUTSIDE, Settings, WORKED};
use crate::sixteen::{ANTENNAS, Answer, Sixteen};
use crate::verdict::Census;
use crate::worked::{noisy_calls, to_antenna};

/// What waits to be sent to an antenna: a stream of commands without antennas, and how much of it was sent.
struct Waiting {
    bytes: Vec<u8>,
    sent: usize,
    /// Its begin met refusal 12.
    refused: bool,
}

impl Waiting {
    /// The next command; none where no whole one is left.
    fn next(&self) -> Option<&[u8]> {
        let rest = &self.bytes[self.sent..];
        rest.get(..1 + operand_bytes(*rest.first()?)?)
    }
}

/// A stream under way, and the lanes that follow it.
pub struct Mixed {
    r: Random,
    /// What decides on long bursts, a sequence of its own.
    long: Random,
    pub bytes: Vec<u8>,
    lanes: Sixteen,
    waiting: Vec<Waiting>,
    pub calls: u64,
    /// How often each kind of call and reply came.
    pub census: Census,
    /// What freed the fourth place, and whose it was, while nobody has taken it.
    freed: Option<(&'static str, u8)>,
    ended: bool,
}

/// How the commands of a stream come.
struct Manner {
    /// The most commands of an antenna in a row.
    run: u64,
    /// Once in so many runs the antenna is any, and not one that is out of idle.
    any: u64,
    /// One lane in so many has short bursts alone.
    short: u64,
    /// The antennas that are used, in turn by number from the first on.
    antennas: u64,
    first: u64,
}

impl Manner {
    fn drawn(r: &mut Random) -> Self {
        Self {
            run: r.pick(&[1, 1, 2, 4, 16, 64]),
            any: r.pick(&[2, 6, 12, 30]),
            short: r.pick(&[2, 4, 8]),
            antennas: r.pick(&[5, 8, 12, 16, 16, 16, 16, 16]),
            first: r.below(ANTENNAS as u64),
        }
    }

    fn antenna(&self, r: &mut Random) -> u8 {
        ((self.first + r.below(self.antennas)) % ANTENNAS as u64) as u8
    }
}

/// Short bursts with settings near those of M6, of every mode, by 01 and by 04; some are closed, some broken off by the next opening.
fn short_bursts(r: &mut Random) -> Vec<u8> {
    let mut bytes = Vec::new();
    for _ in 0..6 {
        let settings = Settings {
            mode: r.below(3) as u8,
            min_steps: r.pick(&[1, 2, 2, 3]) as u32,
            long_steps: r.pick(&[6, 9, 1000, 1000]),
            max_pulses: r.pick(&[1, 2, 4, 2048]),
            carry: r.pick(&[None, Some(0), Some(1)]),
            ..WORKED
        };
        bytes.extend(settings.command());
        let noise = r.pick(&[0.0, 0.0, 0.25, 1.0]);
        for _ in 0..r.from_to(1, 4) {
            let mut envelopes = vec![0.0];
            for _ in 0..r.from_to(1, 4) {
                let (high, edge, low) = (r.from_to(1, 5), r.pick(&[8.0, 4.0, 0.0]), r.from_to(1, 4));
                envelopes.extend([vec![8.0; high as usize], vec![edge], vec![0.0; low as usize]].concat());
            }
            let ends = !r.once_in(4);
            if ends {
                envelopes.extend([0.0; 9]);
            }
            bytes.extend(noisy_calls(r.below(1 << 30), noise, &envelopes).concat());
            if r.once_in(3) {
                bytes.extend(CLOSE);
            } else if !ends {
                break;
            }
        }
    }
    bytes
}

/// One of the bursts of 300 pairs in the kept stream of the listing program.
fn long_burst(r: &mut Random) -> Vec<u8> {
    let [usual, full, over, frame, both, _] = long::kept();
    let bursts = [usual, full, over, frame, both];
    let burst = &bursts[r.below(bursts.len() as u64) as usize];
    burst.stream(r.below(1 << 32), Receiver::new()).map_or(Vec::new(), |s| s.bytes)
}

impl Mixed {
    fn count(&mut self, what: &str) {
        *self.census.entry(what.to_string()).or_default() += 1;
    }

    /// Makes the call at the front of `bytes`, which is sent; what is left of them.
    fn call<'a>(&mut self, bytes: &'a [u8]) -> (&'a [u8], Answer) {
        let mut rest = bytes;
        let antenna = bytes.get(1).copied().unwrap_or(0);
        let before = self.lanes.out();
        let others = self.lanes.others_out(antenna);
        let answer = self.lanes.call(&mut rest);
        self.calls += 1;
        self.ended = answer.reply.ends();
        if let Some(antenna) = answer.antenna {
            self.counted_place(bytes[0], antenna, before.len(), others, &answer.reply);
        }
        self.counted_lines(&answer);
        (rest, answer)
    }

    fn counted_lines(&mut self, answer: &Answer) {
        match answer.reply {
            Reply::Opened => self.count("opening"),
            Reply::Begun => self.count("begin"),
            Reply::Closed { .. } => self.count("close"),
            Reply::Refused(_) => {}
            _ => self.count("step"),
        }
        let mut lines = Vec::new();
        self.lanes.lines(answer, &mut lines).unwrap();
        for line in String::from_utf8(lines).unwrap().lines() {
            let words: Vec<&str> = line.split(' ').collect();
            let number = answer.antenna.map_or(0, |_| 1);
            match words[number] {
                "refused" => self.count(&words[number..].join(" ")),
                kind @ ("ook" | "fsk") => {
                    self.count(kind);
                    self.count(&format!("train of antenna {:02}", answer.antenna.unwrap()));
                    let digits = words[number + if words[number + 6] == "angle" { 8 } else { 9 }].len();
                    if digits > 1 {
                        self.count("train of ten pairs or more");
                    }
                    if digits > 2 {
                        self.count("train of a hundred pairs or more");
                        self.count(&format!("long train of antenna {:02}", answer.antenna.unwrap()));
                    }
                }
                word => self.count(word),
            }
        }
    }

    /// What the call has to do with the four places: how many lanes were out of idle before it, and how many beside its own.
    fn counted_place(&mut self, command: u8, antenna: u8, out: usize, others: usize, reply: &Reply) {
        let now = self.lanes.out().len();
        assert!(now <= 4, "{now} lanes are out of idle");
        if antenna > 15 {
            self.count("refused 6 by the antenna");
            return;
        }
        let lane = &self.lanes.lane(antenna).unwrap();
        let short = lane.short_of_fsk();
        match reply {
            Reply::Refused(12) if short => self.count("refused 12 in place of 8"),
            Reply::Refused(n @ (3 | 6 | 7)) if command == 2 && others == 4 => {
                self.count(&format!("begin beside four that meets {n}"));
            }
            Reply::Refused(5) if command == 2 && out == 4 => self.count("begin of one of four that meets 5"),
            Reply::Refused(3) if out == 4 => self.count("opening with four out that meets 3"),
            Reply::Begun => self.counted_begin(antenna, others),
            _ => {}
        }
        if now < out {
            let by = match reply {
                Reply::Opened => "an opening",
                Reply::Closed { .. } => "a close",
                Reply::Carrier { .. } => "a carrier",
                _ => "an idle",
            };
            self.freed = (out == 4).then_some((by, antenna));
        }
    }

    fn counted_begin(&mut self, antenna: u8, others: usize) {
        if others == 3 {
            if let Some((by, left)) = self.freed {
                self.count(&format!("let in after {by} freed a place"));
                if left == antenna {
                    self.count("let in by the place that it freed");
                }
            }
            self.freed = None;
        }
        if std::mem::take(&mut self.waiting[usize::from(antenna)].refused) {
            self.count("let in after refusal 12");
        }
    }

    fn send(&mut self, antenna: u8, command: &[u8]) -> Reply {
        let bytes = to_antenna(antenna, command);
        self.bytes.extend(&bytes);
        self.call(&bytes).1.reply
    }

    /// The next command of an antenna, which gets others where it has none left.
    fn next(&mut self, antenna: u8, manner: &Manner) -> Vec<u8> {
        let at = usize::from(antenna);
        while self.waiting[at].next().is_none() {
            let bytes = if self.long.once_in(20) {
                long_burst(&mut self.long)
            } else if self.r.once_in(manner.short) {
                short_bursts(&mut self.r)
            } else {
                let kind = self.r.pick(&[None, None, Some(Kind::Ook), Some(Kind::Auto)]);
                by_seed(self.r.below(1 << 32), 600, kind).bytes
            };
            self.waiting[at] = Waiting { bytes, sent: 0, refused: self.waiting[at].refused };
        }
        self.waiting[at].next().unwrap().to_vec()
    }

    /// Sends the next command of an antenna; false where its begin met refusal 12. It then mostly waits.
    fn one(&mut self, antenna: u8, manner: &Manner) -> bool {
        let command = self.next(antenna, manner);
        let size = command.len();
        let idle = self.lanes.lane(antenna).unwrap().idle();
        if idle && command[0] == 3 && !self.r.once_in(20) {
            // Its begin was refused or dropped.
            self.waiting[usize::from(antenna)].sent += size;
            return true;
        }
        self.disturb(antenna, &command, idle);
        let reply = self.send(antenna, &command);
        let refused = matches!(reply, Reply::Refused(12));
        let waiting = &mut self.waiting[usize::from(antenna)];
        waiting.refused |= refused;
        if !refused || self.r.once_in(24) {
            waiting.sent += size;
        }
        !refused
    }

    /// Before a command of an antenna, now and then: the same for an antenna above 15, or, where it is no begin, for any; a begin without room, before an
    /// opening; a begin with a fault.
    fn disturb(&mut self, antenna: u8, command: &[u8], idle: bool) {
        if self.r.once_in(150) {
            let above = self.r.pick(&[16, 17, 31, 32, 64, 128, 240, 255, 16 + antenna, 128 + antenna]);
            self.send(above, command);
        }
        if command[0] != 2 && self.r.once_in(2000) {
            let other = self.r.below(ANTENNAS as u64) as u8;
            self.send(other, command);
        }
        let opening = command[0] == 1 || command[0] == 4;
        if opening && idle && self.r.once_in(4) {
            let mut large = command.to_vec();
            let max_pulses: u32 = self.r.pick(&[2049, 4096, 65_536]);
            large[18..22].copy_from_slice(&max_pulses.to_le_bytes());
            self.send(antenna, &large);
            let begin = noisy_calls(self.r.below(1 << 40), 0.0, &[0.0]).concat();
            self.send(antenna, &begin);
        }
        if command[0] == 2 && self.r.once_in(12) {
            let mut faulty = command.to_vec();
            if self.r.once_in(2) {
                let above = (1u64 << 40) + 1 + self.r.below(3);
                faulty[1..9].copy_from_slice(&above.to_le_bytes());
            } else {
                let at = 9 + 4 * self.r.below(13) as usize;
                faulty[at..at + 4].copy_from_slice(&self.r.pick(&OUTSIDE).to_bits().to_le_bytes());
            }
            self.send(antenna, &faulty);
        }
    }

    /// Bytes that end the stream, or may end it: a byte that is no command, a command cut short, or commands with a byte changed, lost
    /// or put in, which are read as they come.
    fn end(&mut self, manner: &Manner) {
        let antenna = manner.antenna(&mut self.r);
        let mut bytes = Vec::new();
        for _ in 0..self.r.from_to(1, 12) {
            let command = self.next(antenna, manner);
            self.waiting[usize::from(antenna)].sent += command.len();
            let above = if self.r.once_in(6) { 16 } else { 0 };
            bytes.extend(to_antenna(antenna + above, &command));
        }
        let at = self.r.below(bytes.len() as u64) as usize;
        let other = self.r.u32() as u8;
        match self.r.below(6) {
            0 => return,
            1 => bytes.truncate(at),
            2 => bytes.push(self.r.pick(&[0, 6, 16, 17, 255])),
            3 => bytes[at] = other,
            4 => drop(bytes.remove(at)),
            _ => bytes.insert(at, other),
        }
        self.bytes.extend(&bytes);
        let mut rest = &bytes[..];
        while !self.ended && !rest.is_empty() {
            rest = self.call(rest).0;
        }
    }
}

/// The stream of a seed, of about so many calls.
pub fn mixed(seed: u64, calls: u64) -> Mixed {
    let mut r = Random::new(seed ^ (1 << 61));
    let manner = Manner::drawn(&mut r);
    let waiting = (0..ANTENNAS).map(|_| Waiting { bytes: Vec::new(), sent: 0, refused: false }).collect();
    let (bytes, census) = (Vec::new(), Census::new());
    let long = Random::new(seed ^ (1 << 60));
    let mut m = Mixed { r, long, bytes, lanes: Sixteen::new(), waiting, calls: 0, census, freed: None, ended: false };
    while m.calls < calls {
        let out = m.lanes.out();
        let any = out.is_empty() || m.r.once_in(if out.len() < 4 { 2 } else { manner.any });
        let antenna = if any { manner.antenna(&mut m.r) } else { m.r.pick(&out) };
        for _ in 0..m.r.from_to(1, manner.run) {
            if !m.one(antenna, &manner) {
                break;
            }
        }
    }
    m.end(&manner);
    m
}
