//! Long bursts, from a seed: the 300 pulses that a transmitter sends, and trains and frames that fill max_pulses and that pass it,
//! without carry and in carry mode; some are closed.

#![allow(dead_code)]

use crate::generator::{Decided, Stream, whole_burst};
use crate::random::Random;
use crate::receiver::Receiver;
use crate::signal::{CLOSE, Generator, Kind, Settings, Stretch, Tick};

/// A part of a burst.
#[derive(Clone, Copy, Debug)]
pub enum Part {
    Pulses(u64),
    /// A frame of so many pairs.
    Tones(u64),
}

use Part::{Pulses, Tones};

/// A burst, and what it must give: each of its trains and frames.
pub struct Long {
    mode: u8,
    max_pulses: u64,
    parts: Vec<Part>,
    gives: Vec<Decided>,
    /// As in `Settings`.
    carry: Option<u8>,
    /// Closed as soon as the last pulse is held, or in its last tone.
    close: bool,
}

/// Bursts of every mode that just do not fill `most` pairs, fill them, and pass them. In Auto mode the train before a frame
/// is decided with it.
pub fn filling(most: u64) -> [Long; 9] {
    let (less, more, many) = (most - 1, most + 1, most + 40);
    let burst = |mode, parts: &[Part], gives: &[Decided]| Long {
        mode,
        max_pulses: most,
        parts: parts.to_vec(),
        gives: gives.to_vec(),
        carry: None,
        close: false,
    };
    [
        burst(0, &[Pulses(less)], &[("ook", less, false)]),
        burst(0, &[Pulses(most)], &[("ook", most, false)]),
        burst(0, &[Pulses(more)], &[("ook", most, true)]),
        burst(1, &[Tones(most)], &[("fsk", most, false)]),
        burst(1, &[Tones(many)], &[("fsk", most, true)]),
        burst(2, &[Pulses(most)], &[("ook", most, false)]),
        burst(2, &[Pulses(more)], &[("ook", most, true)]),
        burst(2, &[Tones(many)], &[("fsk", most, true)]),
        burst(2, &[Pulses(less), Tones(most)], &[("fsk", most, false), ("ook", less, false)]),
    ]
}

/// The 300 pulses, and room for more.
fn usual() -> Long {
    let gives = vec![("ook", 300, false)];
    Long { mode: 0, max_pulses: 2048, parts: vec![Pulses(300)], gives, carry: None, close: false }
}

fn carried(burst: Long) -> Long {
    Long { carry: Some(1), ..burst }
}

/// Bursts in carry mode that fill `most` pairs and that pass them, in OOK mode and in Auto, and with a frame after the train.
pub fn carrying(most: u64) -> [Long; 4] {
    let [_, full, over, _, _, _, auto_over, _, both] = filling(most);
    [full, over, auto_over, both].map(carried)
}

/// Bursts that are closed: trains that fill `most` pairs, in OOK mode and in Auto, and in carry mode; and frames that pass them, in
/// FSK mode and after a train in Auto mode, which are dropped.
pub fn closing(most: u64) -> [Long; 5] {
    let [_, full, _, _, frame, auto_full, _, _, both] = filling(most);
    let [carry_full, ..] = carrying(most);
    let frame = Long { gives: Vec::new(), ..frame };
    let both = Long { gives: vec![("ook", most - 1, false)], ..both };
    [full, auto_full, carry_full, frame, both].map(|burst| Long { close: true, ..burst })
}

/// Those that the listing program's buffers hold, and that pass them.
pub fn listed() -> Vec<Long> {
    let plain = std::iter::once(usual()).chain(filling(300)).chain(filling(2048));
    let carry = [carried(usual())].into_iter().chain(carrying(300)).chain(carrying(2048));
    plain.chain(carry).chain(closing(300)).chain(closing(2048)).collect()
}

/// Those of the kept stream: the 300 pulses, trains and frames that fill 300 pairs or pass them, and a train that passes the
/// program's buffers.
pub fn kept() -> [Long; 6] {
    let [_, full, over, _, frame, _, _, _, both] = filling(300);
    let [_, _, longest, ..] = filling(2048);
    [usual(), full, over, frame, both, longest]
}

impl Long {
    pub fn name(&self) -> String {
        let carry = if self.carry == Some(1) { ", carry" } else { "" };
        let close = if self.close { ", closed" } else { "" };
        format!("mode {}, max_pulses {}, {:?}{carry}{close}", self.mode, self.max_pulses, self.parts)
    }

    fn settings(&self, r: &mut Random) -> Settings {
        Settings {
            mode: self.mode,
            min_steps: if self.max_pulses > 2048 { 1 } else { r.pick(&[1, 2, 5]) },
            gap_steps: 20,
            pre_timeout: 20,
            long_steps: 1 << 24,
            max_pulses: self.max_pulses as u32,
            // 0.03 and 0.06 of a turn.
            floats: [1.0, 100.0, 0.188_495_56, 0.376_991_12],
            carry: self.carry,
        }
    }

    /// The settings, the burst and a short one after it; Err where they do not give what they must.
    pub fn stream(&self, seed: u64, receiver: Receiver) -> Result<Stream, String> {
        let mut r = Random::new(seed);
        let settings = self.settings(&mut r);
        let mut g = Generator { r, kind: Kind::Ook, settings, carry: None };
        let mut s = Stream::new(receiver);
        s.send(&g.settings.command());
        // A train is cut before a frame by the sum of its widths, which is near the true one where each of them is whole, without a
        // ripple, or in carry mode.
        let ripple = if self.parts.len() > 1 && self.carry.is_none() { 0.0 } else { 0.1 };
        let index = g.r.below(1 << 39);
        let short = if self.mode == 1 { Tones(3) } else { Pulses(3) };
        for (index, parts, close) in [(index, &self.parts[..], self.close), (index + (1 << 30), &[short], false)] {
            let mut plan = plan(&mut g.r, parts, u64::from(settings.min_steps));
            if close {
                plan.pop();
                let len = if matches!(parts.last(), Some(Pulses(_))) { u64::from(settings.min_steps) } else { 0 };
                plan.push(Stretch { len, on: false, turn: 0.0 });
            }
            let (factor, mut ticks) = g.clear_samples(&plan, ripple);
            if self.carry.is_some() {
                halve_ends(&plan, &mut ticks);
            }
            whole_burst(&mut s, index, factor, &ticks);
            if close {
                s.send(&CLOSE);
            }
        }
        let kind = if self.mode == 1 { "fsk" } else { "ook" };
        let gives = [&self.gives[..], &[(kind, 3, false)]].concat();
        if s.decided == gives { Ok(s) } else { Err(format!("{}: gives {:?}, not {gives:?}", self.name(), s.decided)) }
    }
}

/// Bursts of 300 pulses of 3 to 6 samples, with gaps of as many between them, until so many calls are made: an edge is refined at
/// every fifth sample or so.
pub fn short_pulses(seed: u64, calls: u64) -> Stream {
    let settings = Settings { min_steps: 3, ..usual().settings(&mut Random::new(seed)) };
    let mut g = Generator { r: Random::new(seed), kind: Kind::Ook, settings, carry: None };
    let mut s = Stream::new(Receiver::new());
    s.send(&settings.command());
    let mut index = 0;
    while s.calls < calls {
        let plan = plan(&mut g.r, &[Pulses(300)], u64::from(settings.min_steps));
        let (factor, ticks) = g.clear_samples(&plan, 0.1);
        whole_burst(&mut s, index, factor, &ticks);
        index += ticks.len() as u64;
    }
    s
}

/// Brings the last of several samples of a pulse to the middle of the levels: then one of its edges is half way between two samples,
/// and the widths without carry do not add up.
fn halve_ends(plan: &[Stretch], ticks: &mut [Tick]) {
    let mut end = 0;
    for s in plan.windows(2) {
        end += s[0].len as usize;
        if s[0].len > 1 && s[0].on && !s[1].on {
            ticks[end - 1].envelope = 4.0;
        }
    }
}

/// Pulses and gaps from the shortest on; runs of tones of two samples and three. The first gap is shorter than the lead, so that a
/// pulse is in it.
fn plan(r: &mut Random, parts: &[Part], min: u64) -> Vec<Stretch> {
    let mut plan = Vec::new();
    for part in parts {
        match *part {
            Pulses(count) => {
                for _ in 0..count {
                    plan.push(Stretch { len: r.from_to(min, 2 * min), on: false, turn: 0.3 });
                    plan.push(Stretch { len: r.from_to(min, 2 * min), on: true, turn: 0.3 });
                }
            }
            Tones(pairs) => {
                plan.push(Stretch { len: 2 * min, on: false, turn: 0.0 });
                for run in 0..2 * pairs {
                    let len = if run == 0 { 6 } else { r.from_to(2, 3) };
                    plan.push(Stretch { len, on: true, turn: if run % 2 == 0 { 0.8 } else { -0.8 } });
                }
            }
        }
    }
    plan.push(Stretch { len: 30, on: false, turn: 0.0 });
    plan
}
