//! The reference receiver: the published lane, as tests/cut gives it, with what document 01 adds around it ("Added around
//! the lane", "Commands", "Replies other than an answer"), and of document 02 R-1's carry mode (its widths are in carry.rs), R-13's
//! close and R-4's refusal 12. All that is not the lane is written from these texts alone and reads no Rattle source.

include!("../target/tests/published.rs");

use std::io::{self, Write};

/// Slots of each pulse buffer: 2,048 pairs.
const BUFFER_SLOTS: usize = 2 * 2048;

// Document 01, "Domain".
const STEPS_MOST: u32 = 1 << 24;
const PULSES_MOST: u32 = 65_536;
const RATIO_MOST: f32 = 1e6;
const VALUE_MOST: f32 = 1e18;
const INDEX_MOST: u64 = 1 << 40;

// Operand bytes of commands 01, 02 and 03; 04 has those of 01 and carry, 05 has none.
const OPENING_BYTES: usize = 37;
const BEGIN_BYTES: usize = 60;
const STEP_BYTES: usize = 24;

/// begin is refused where so many other lanes are out of idle.
const OTHERS_OUT: usize = 4;

/// The operand bytes of a command; none of a byte that is no command.
pub fn operand_bytes(command: u8) -> Option<usize> {
    match command {
        1 => Some(OPENING_BYTES),
        2 => Some(BEGIN_BYTES),
        3 => Some(STEP_BYTES),
        4 => Some(OPENING_BYTES + 1),
        5 => Some(0),
        _ => None,
    }
}

/// A refusal's number.
pub type Refused = u32;

struct Opening {
    mode: u8,
    min_steps: u32,
    gap_steps: u32,
    pre_timeout: u32,
    long_steps: u32,
    max_pulses: u32,
    alpha: f32,
    gap_ratio: f32,
    fsk_delta: f32,
    fsk_split: f32,
    carry: u8,
}

struct Begin {
    index: u64,
    factor: f32,
    envelope: f32,
    sample: C32,
    before: C32,
    /// Seven earlier envelopes, nearest first.
    earlier: [f32; 7],
}

struct Step {
    index: u64,
    noise: f32,
    envelope: f32,
    sample: C32,
}

/// Operand bytes, taken from the front.
struct Operands<'a>(&'a [u8]);

impl Operands<'_> {
    fn bytes<const N: usize>(&mut self) -> [u8; N] {
        let (front, rest) = self.0.split_at(N);
        self.0 = rest;
        front.try_into().unwrap()
    }

    fn u8(&mut self) -> u8 {
        self.bytes::<1>()[0]
    }

    fn u32(&mut self) -> u32 {
        u32::from_le_bytes(self.bytes())
    }

    fn u64(&mut self) -> u64 {
        u64::from_le_bytes(self.bytes())
    }

    fn f32(&mut self) -> f32 {
        f32::from_bits(self.u32())
    }

    fn c32(&mut self) -> C32 {
        C32 { re: self.f32(), im: self.f32() }
    }

    /// The operands of 01 leave carry off; those of 04 end with it.
    fn opening(mut self) -> Opening {
        Opening {
            mode: self.u8(),
            min_steps: self.u32(),
            gap_steps: self.u32(),
            pre_timeout: self.u32(),
            long_steps: self.u32(),
            max_pulses: self.u32(),
            alpha: self.f32(),
            gap_ratio: self.f32(),
            fsk_delta: self.f32(),
            fsk_split: self.f32(),
            carry: if self.0.is_empty() { 0 } else { self.u8() },
        }
    }

    fn begin(mut self) -> Begin {
        Begin {
            index: self.u64(),
            factor: self.f32(),
            envelope: self.f32(),
            sample: self.c32(),
            before: self.c32(),
            earlier: [(); 7].map(|()| self.f32()),
        }
    }

    fn step(mut self) -> Step {
        Step { index: self.u64(), noise: self.f32(), envelope: self.f32(), sample: self.c32() }
    }
}

/// From 0 to `most`; no NaN. -0 lies in the range.
fn within(x: f32, most: f32) -> bool {
    x >= 0.0 && x <= most
}

fn sample_within(x: C32) -> bool {
    within(x.re.abs(), VALUE_MOST) && within(x.im.abs(), VALUE_MOST)
}

/// The settings of an opening where they lie in the domain.
fn settings(o: &Opening) -> Option<Params> {
    let modulation = match o.mode {
        0 => PulseModulation::Ook,
        1 => PulseModulation::Fsk,
        2 => PulseModulation::Auto,
        _ => return None,
    };
    let steps = |n: u32| (1..=STEPS_MOST).contains(&n);
    let good = steps(o.min_steps)
        && steps(o.gap_steps)
        && steps(o.long_steps)
        && (1..=o.gap_steps).contains(&o.pre_timeout)
        && (1..=PULSES_MOST).contains(&o.max_pulses)
        && within(o.alpha, 1.0)
        && within(o.gap_ratio, RATIO_MOST)
        && within(o.fsk_delta, RATIO_MOST)
        && within(o.fsk_split, RATIO_MOST)
        && o.carry <= 1;
    let Derived { fsk_min, lead_len, refine_at } = derived(o.min_steps);
    good.then_some(Params {
        modulation,
        alpha: o.alpha,
        min_steps: o.min_steps,
        gap_steps: o.gap_steps,
        gap_ratio: o.gap_ratio,
        pre_timeout: o.pre_timeout,
        long_steps: o.long_steps,
        fsk_min,
        max_pulses: o.max_pulses,
        fsk_delta: o.fsk_delta,
        fsk_split: o.fsk_split,
        lead_len,
        carry: o.carry == 1,
        refine_at,
    })
}

/// True for a whole command 04 that only its carry byte lets meet refusal 3.
pub fn refused_by_carry(command: &[u8]) -> bool {
    let [4, operands @ ..] = command else { return false };
    let o = Operands(operands).opening();
    o.carry > 1 && settings(&Opening { carry: 0, ..o }).is_some()
}

/// The lane with what document 01 adds around it, and its two buffers.
pub struct Receiver {
    /// None before the first accepted opening.
    settings: Option<Params>,
    lane: Lane,
    /// The index and the sample of the last accepted call.
    last: u64,
    before: C32,
    ook: Vec<u32>,
    fsk: Vec<u32>,
    record: Vec<Sample>,
}

/// A sample of a burst's record (document 01, "Lists, burst records and pulses"): its level, and the edge of the run under way
/// and `fsk_phase` as they stand after the sample.
#[derive(Clone, Copy)]
pub struct Sample {
    pub high: bool,
    pub edge: f64,
    pub fsk_phase: u32,
}

impl Receiver {
    pub fn new() -> Self {
        Self::with_buffers(vec![0; BUFFER_SLOTS], vec![0; BUFFER_SLOTS])
    }

    pub fn with_buffers(ook: Vec<u32>, fsk: Vec<u32>) -> Self {
        let before = C32::default();
        Self { settings: None, lane: Lane::default(), last: 0, before, ook, fsk, record: Vec::new() }
    }

    /// The OOK and the FSK buffer, whole.
    pub fn buffers(&self) -> [&[u32]; 2] {
        [&self.ook, &self.fsk]
    }

    pub fn idle(&self) -> bool {
        self.lane.mode == IDLE
    }

    /// The index of the last accepted call.
    pub fn last(&self) -> u64 {
        self.last
    }

    /// Refusal 8.
    fn room(&self, p: &Params) -> bool {
        let slots = 2 * p.max_pulses as usize;
        self.ook.len() >= slots && (p.modulation == PulseModulation::Ook || self.fsk.len() >= slots)
    }

    /// Clears both records and writes the envelope to its place of the ring.
    fn enter(&mut self, index: u64, envelope: f32) {
        self.lane.out = [Out::default(); 2];
        self.lane.ring[(index % RING as u64) as usize] = envelope;
        self.last = index;
    }

    fn open(&mut self, o: &Opening) -> Result<(), Refused> {
        let p = settings(o).ok_or(3u32)?;
        self.settings = Some(p);
        self.lane = Lane::default();
        self.last = 0;
        self.before = C32::default();
        Ok(())
    }

    /// Begins beside so many other lanes that are out of idle.
    fn begin(&mut self, b: &Begin, others: usize) -> Result<(), Refused> {
        let p = self.settings.ok_or(3u32)?;
        if self.lane.mode != IDLE {
            return Err(5);
        }
        if b.index > INDEX_MOST {
            return Err(6);
        }
        let values = within(b.factor, RATIO_MOST)
            && within(b.envelope, VALUE_MOST)
            && sample_within(b.sample)
            && sample_within(b.before)
            && b.earlier.iter().all(|&e| within(e, VALUE_MOST));
        if !values {
            return Err(7);
        }
        if others >= OTHERS_OUT {
            return Err(12);
        }
        if !self.room(&p) {
            return Err(8);
        }
        self.enter(b.index, b.envelope);
        self.record.clear();
        self.before = b.sample;
        self.lane.begin_lead(b.index, b.factor, b.envelope, b.sample, b.before);
        // `history` reads the envelopes in the order of time, with begin's own last.
        let mut env = [0.0; HIST];
        env[HIST - 1] = b.envelope;
        for (back, &e) in b.earlier.iter().enumerate() {
            env[HIST - 2 - back] = e;
        }
        history(&mut self.lane, &env, HIST - 1, 1, b.index);
        Ok(())
    }

    fn step(&mut self, s: &Step) -> Result<Next, Refused> {
        let Some(p) = self.settings.filter(|_| self.lane.mode != IDLE) else {
            return Err(5);
        };
        if s.index > INDEX_MOST || s.index != self.last + 1 {
            return Err(6);
        }
        let values = within(s.noise, VALUE_MOST) && within(s.envelope, VALUE_MOST) && sample_within(s.sample);
        if !values {
            return Err(7);
        }
        if !self.room(&p) {
            return Err(8);
        }
        self.enter(s.index, s.envelope);
        let before = std::mem::replace(&mut self.before, s.sample);
        let mut pairs = LanePairs { ook: &mut self.ook, fsk: &mut self.fsk };
        let next = if self.lane.mode == LEAD {
            let filling = self.lane;
            let next = self.lane.lead(&p, s.noise, &mut pairs, s.envelope, s.sample);
            if self.lane.mode == BURST {
                self.record = replayed(filling, &p, s);
            }
            next
        } else {
            let next = self.lane.sample(&p, s.noise, &mut pairs, s.envelope, s.sample, before, s.index);
            self.record.push(sample_of(&self.lane));
            next
        };
        if next != Next::Stay {
            self.lane.mode = IDLE;
        }
        Ok(next)
    }

    /// Where its gap has run out, `sample` ends a burst by `end_train`, which decides the train where pulses are held, and answers
    /// idle; the frame's state stays behind, and the next burst clears it. In lead there is nothing to end, and no replay is made.
    fn close(&mut self) -> Result<(), Refused> {
        let Some(p) = self.settings.filter(|_| self.lane.mode != IDLE) else {
            return Err(5);
        };
        if !self.room(&p) {
            return Err(8);
        }
        self.lane.out = [Out::default(); 2];
        if self.lane.mode == BURST {
            self.lane.end_train(&mut LanePairs { ook: &mut self.ook, fsk: &mut self.fsk });
        }
        self.lane.mode = IDLE;
        Ok(())
    }
}

fn sample_of(lane: &Lane) -> Sample {
    Sample { high: lane.level == 1, edge: lane.t_run, fsk_phase: u32::from(lane.fsk_phase) }
}

/// The samples of the lead that the step fills, as `lead` replays them: up to the first answer that is not stay.
fn replayed(mut lane: Lane, p: &Params, s: &Step) -> Vec<Sample> {
    let len = p.lead_len as usize;
    lane.lead_e[len - 1] = s.envelope;
    lane.lead_x[len] = s.sample;
    lane.high = lane.lead_e[..len].iter().fold(0.0, |m, &v| if v > m { v } else { m });
    lane.begin_burst(lane.lead_at as f64, lane.lead_e[0]);
    let mut pairs = LanePairs { ook: &mut [], fsk: &mut [] };
    let mut samples = Vec::new();
    for i in 0..len {
        let (e, x, xp) = (lane.lead_e[i], lane.lead_x[i + 1], lane.lead_x[i]);
        let next = lane.sample(p, s.noise, &mut pairs, e, x, xp, lane.lead_at + i as u64);
        samples.push(sample_of(&lane));
        if next != Next::Stay {
            break;
        }
    }
    samples
}

/// A decided OOK train: its cut mark and its slots, a pulse's width and a gap's in turn.
pub struct Train {
    pub cut: bool,
    pub slots: Vec<u32>,
}

/// What demand 3 and R-9 ask of the settings of a lane in OOK or in Auto mode.
#[derive(Clone, Copy)]
pub struct Limits {
    pub auto: bool,
    pub min_steps: usize,
    pub gap_steps: usize,
    pub max_pulses: usize,
    pub lead_len: usize,
    pub carry: bool,
}

/// What demand 3 speaks of.
impl Receiver {
    /// The settings, where the mode is not FSK.
    pub fn limits(&self) -> Option<Limits> {
        let p = self.settings.filter(|p| p.modulation != PulseModulation::Fsk)?;
        Some(Limits {
            auto: p.modulation == PulseModulation::Auto,
            min_steps: p.min_steps as usize,
            gap_steps: p.gap_steps as usize,
            max_pulses: p.max_pulses as usize,
            lead_len: p.lead_len as usize,
            carry: p.carry,
        })
    }

    /// The samples of the burst so far; none before its lead is full.
    pub fn record(&self) -> &[Sample] {
        &self.record
    }

    /// Whether a frame was found in the burst.
    pub fn framed(&self) -> bool {
        self.lane.frames > 0
    }

    /// The OOK train that the last accepted call decided.
    pub fn decided(&self) -> Option<Train> {
        let r = &self.lane.out[0];
        (r.state == OUT_DECIDE).then(|| Train { cut: r.flags == 1, slots: self.ook[..2 * r.pairs as usize].to_vec() })
    }

    /// Kinds of the OOK train that the last accepted call decided in carry mode, by its slots up to the last pulse: one has a width
    /// that is another without carry; in one a boundary was held back by the boundary before.
    pub fn carried(&self) -> Vec<&'static str> {
        let r = &self.lane.out[0];
        if r.state != OUT_DECIDE || !self.settings.is_some_and(|p| p.carry) {
            return Vec::new();
        }
        let Boundaries { other_at, held_at, .. } = self.lane.boundaries;
        let last = 2 * r.pairs - 2;
        let kinds =
            [("carry train", 0), ("carry train with other widths", other_at), ("carry train held back", held_at)];
        kinds.into_iter().filter(|k| k.1 <= last).map(|k| k.0).collect()
    }
}

/// The kinds of a close by the mode, in lead and in a burst.
const IN_LEAD: [&str; 3] = ["close in lead in OOK mode", "close in lead in FSK mode", "close in lead in Auto mode"];
const IN_BURST: [&str; 3] = ["close in burst in OOK mode", "close in burst in FSK mode", "close in burst in Auto mode"];

/// What R-13 speaks of.
impl Receiver {
    /// The kinds of a close that would come now, by what it finds: the phase first.
    pub fn found(&self) -> Vec<&'static str> {
        let Some(p) = self.settings else { return vec!["close before any settings"] };
        let l = &self.lane;
        let mode = p.modulation as usize;
        match l.mode {
            IDLE => return vec!["close of an idle lane"],
            LEAD => return vec!["close in lead", IN_LEAD[mode]],
            _ => {}
        }
        let held = l.ook_n + l.open > 0;
        // A presence, or an absence that is too short yet to end it.
        let frame = mode != 0 && (l.p_level == 1 || l.p_confirmed == 0);
        // `end_frame` writes nothing to buffers without a slot.
        let end_frame = || { self.lane }.end_frame(&p, &mut LanePairs { ook: &mut [], fsk: &mut [] }, 0.0, 1.0);
        let presence = if l.p_level == 1 { l.p_run } else { l.p_prev };
        let whole = frame && presence >= p.min_steps && end_frame();
        let kinds = [
            ("close in burst", true),
            (IN_BURST[mode], true),
            ("close with no pulse held", !held),
            ("close with an open gap", l.open == 1),
            ("close with a closed gap", held && l.open == 0),
            ("close right after a pulse", l.open == 1 && l.level == 0 && l.run_len == p.min_steps),
            ("close within a pulse", l.level == 1),
            ("close with a full train", l.ook_n == p.max_pulses),
            ("close within a frame", frame),
            ("close that drops a whole frame", whole),
            ("close with a train within a frame", held && frame),
        ];
        kinds.into_iter().filter(|k| k.1).map(|k| k.0).collect()
    }

    /// The lines of the train that the published `sample` decides where the gap of the burst under way has run out: at one more low
    /// sample, with limits for the gap that it passes. None outside a burst, and where neither envelope nor carrier is gone for
    /// min_steps yet.
    pub fn run_out(&self) -> Option<Vec<u8>> {
        let mut p = self.settings?;
        let mut lane = self.lane;
        let gone = lane.level == 0 && lane.confirmed == 1 && lane.p_level == 0 && lane.p_confirmed == 1;
        if lane.mode != BURST || !gone {
            return None;
        }
        (p.gap_steps, p.pre_timeout) = (0, 0);
        lane.out = [Out::default(); 2];
        let (mut ook, mut fsk, zero) = (self.ook.clone(), self.fsk.clone(), C32::default());
        let mut pairs = LanePairs { ook: &mut ook, fsk: &mut fsk };
        let next = lane.sample(&p, 0.0, &mut pairs, 0.0, zero, zero, self.last + 1);
        assert!(next == Next::Idle, "the gap has not run out: {next:?}");
        let mut lines = Vec::new();
        train(&mut lines, "fsk", &lane.out[1], &fsk).unwrap();
        train(&mut lines, "ook", &lane.out[0], &ook).unwrap();
        Some(lines)
    }

    /// True where the FSK buffer is too short for the settings, which OOK mode allows.
    pub fn short_of_fsk(&self) -> bool {
        self.settings.is_some_and(|p| self.fsk.len() < 2 * p.max_pulses as usize)
    }
}

/// The width between two edges.
pub fn width_between(a: f64, b: f64) -> u32 {
    width(a, b)
}

/// The widths in carry mode between each edge and the next, of which the first is the first pulse's.
pub fn carried_widths(edges: &[f64]) -> Vec<u32> {
    let mut boundaries = Boundaries::from(edges[0]);
    edges.windows(2).map(|e| boundaries.width(e[1], width(e[0], e[1]))).collect()
}

/// The bits of a float; every NaN as one.
fn bits(x: f32) -> u32 {
    if x.is_nan() { 0x7fc0_0000 } else { x.to_bits() }
}

/// The line of a record that decides a train or frame.
fn train(out: &mut impl Write, kind: &str, r: &Out, buffer: &[u32]) -> io::Result<()> {
    if r.state != OUT_DECIDE {
        return Ok(());
    }
    let widths = buffer.get(..2 * r.pairs as usize).unwrap_or_default();
    let span = r.end.saturating_sub(r.index);
    write!(out, "{kind} {} {} {} {span} {:08x} ", r.index, r.end, r.flags, bits(r.level))?;
    match r.freq {
        Carrier::Angle(a) => write!(out, "angle {:08x}", bits(a))?,
        Carrier::Vector(re, im) => write!(out, "vector {:08x} {:08x}", bits(re), bits(im))?,
    }
    write!(out, " {}", r.pairs)?;
    for w in widths {
        write!(out, " {w}")?;
    }
    writeln!(out)
}

/// What a call gives.
pub enum Reply {
    Opened,
    Begun,
    Stayed,
    Idle {
        index: u64,
    },
    Carrier {
        index: u64,
        envelope: f32,
    },
    /// With the index of the last accepted call before.
    Closed {
        index: u64,
    },
    Refused(Refused),
}

impl Reply {
    /// Refusals 1 and 2 end the stream.
    pub fn ends(&self) -> bool {
        matches!(self, Reply::Refused(1 | 2))
    }
}

impl Receiver {
    /// Makes the call at the front of `input` and leaves what follows it there; `input` is not empty.
    pub fn call(&mut self, input: &mut &[u8]) -> Reply {
        let command = input[0];
        let Some(size) = operand_bytes(command) else {
            return Reply::Refused(1);
        };
        let Some((operands, rest)) = input[1..].split_at_checked(size) else {
            return Reply::Refused(2);
        };
        *input = rest;
        self.called(command, operands, 0)
    }

    /// Makes the call of a command with its operands, of which none is missing, beside so many other lanes that are out of idle.
    pub fn called(&mut self, command: u8, operands: &[u8], others: usize) -> Reply {
        let operands = Operands(operands);
        let reply = match command {
            1 | 4 => self.open(&operands.opening()).map(|()| Reply::Opened),
            2 => self.begin(&operands.begin(), others).map(|()| Reply::Begun),
            5 => self.close().map(|()| Reply::Closed { index: self.last }),
            _ => self.stepped(&operands.step()),
        };
        reply.unwrap_or_else(Reply::Refused)
    }

    fn stepped(&mut self, s: &Step) -> Result<Reply, Refused> {
        let index = s.index;
        Ok(match self.step(s)? {
            Next::Stay => Reply::Stayed,
            Next::Idle => Reply::Idle { index },
            Next::IdleAt(envelope) => Reply::Carrier { index, envelope },
        })
    }

    /// The lines of a call: the frame, the train, the phase.
    pub fn lines(&self, reply: &Reply, out: &mut impl Write) -> io::Result<()> {
        if let Reply::Refused(number) = reply {
            return writeln!(out, "refused {number}");
        }
        train(out, "fsk", &self.lane.out[1], &self.fsk)?;
        train(out, "ook", &self.lane.out[0], &self.ook)?;
        match reply {
            Reply::Idle { index } | Reply::Closed { index } => writeln!(out, "idle {index}"),
            Reply::Carrier { index, envelope } => {
                writeln!(out, "carrier {index} {:08x}", bits(*envelope))
            }
            _ => Ok(()),
        }
    }
}
