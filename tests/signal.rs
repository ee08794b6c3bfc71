//! The signals of the command streams, from a seed: settings, and bursts of pulses, of two tones and of carriers with their
//! envelopes, noise and samples; values and settings at and past the ends of the domain.

use std::f64::consts::TAU;

use crate::random::Random;

const MAX_F32: f32 = 1e18;

#[derive(Clone, Copy, Debug, PartialEq)]
pub enum Kind {
    Ook,
    Fsk,
    Auto,
    /// Small binary fractions and quarter turns: thresholds, ties and windows are met exactly.
    Exact,
    Edges,
    Damaged,
}

pub const KINDS: [(&str, Kind); 6] = [
    ("ook", Kind::Ook),
    ("fsk", Kind::Fsk),
    ("auto", Kind::Auto),
    ("exact", Kind::Exact),
    ("edges", Kind::Edges),
    ("damaged", Kind::Damaged),
];

/// The operands of command 01, or of 04.
#[derive(Clone, Copy)]
pub struct Settings {
    pub mode: u8,
    pub min_steps: u32,
    pub gap_steps: u32,
    pub pre_timeout: u32,
    pub long_steps: u32,
    pub max_pulses: u32,
    /// alpha, gap_ratio, fsk_delta, fsk_split.
    pub floats: [f32; 4],
    /// The last operand of 04; none for 01.
    pub carry: Option<u8>,
}

/// The settings of M6 to M8.
pub const WORKED: Settings = Settings {
    mode: 0,
    min_steps: 2,
    gap_steps: 4,
    pre_timeout: 4,
    long_steps: 1000,
    max_pulses: 4,
    floats: [0.5, 100.0, 0.0, 0.0],
    carry: None,
};

impl Settings {
    pub fn command(&self) -> Vec<u8> {
        let mut c = vec![if self.carry.is_some() { 4 } else { 1 }, self.mode];
        for n in [self.min_steps, self.gap_steps, self.pre_timeout, self.long_steps, self.max_pulses] {
            c.extend(n.to_le_bytes());
        }
        put_floats(&mut c, &self.floats);
        c.extend(self.carry);
        c
    }
}

fn put_floats(c: &mut Vec<u8>, floats: &[f32]) {
    for x in floats {
        c.extend(x.to_bits().to_le_bytes());
    }
}

/// What one sample brings.
#[derive(Clone, Copy)]
pub struct Tick {
    pub noise: f32,
    pub envelope: f32,
    pub sample: [f32; 2],
}

pub fn begin_command(index: u64, factor: f32, first: &Tick, before: [f32; 2], earlier: &[f32]) -> Vec<u8> {
    let mut c = vec![2];
    c.extend(index.to_le_bytes());
    put_floats(&mut c, &[factor, first.envelope]);
    put_floats(&mut c, &first.sample);
    put_floats(&mut c, &before);
    put_floats(&mut c, earlier);
    c
}

pub fn step_command(index: u64, t: &Tick) -> Vec<u8> {
    let mut c = vec![3];
    c.extend(index.to_le_bytes());
    put_floats(&mut c, &[t.noise, t.envelope]);
    put_floats(&mut c, &t.sample);
    c
}

/// Command 05 has no operands.
pub const CLOSE: [u8; 1] = [5];

/// Values at the ends of the domain and of the format.
pub const AT_EDGES: [f32; 13] = [
    0.0,
    -0.0,
    1e-45,
    1e-40,
    1.175_494_4e-38,
    f32::MIN_POSITIVE,
    1e-30,
    1e-15,
    1.0,
    1e6,
    999_999_984_306_749_440.0 - 68_719_476_736.0,
    MAX_F32,
    8.0,
];

/// Values outside every range.
pub const OUTSIDE: [f32; 8] =
    [f32::NAN, f32::INFINITY, f32::NEG_INFINITY, -1e-45, -1.0, 1.000_000_1e18, -1.000_000_1e18, f32::MAX];

/// One stretch of the plan of a burst: its length, whether the carrier is on, its turn per sample in radians.
#[derive(Clone, Copy)]
pub struct Stretch {
    pub len: u64,
    pub on: bool,
    pub turn: f64,
}

pub struct Generator {
    pub r: Random,
    pub kind: Kind,
    pub settings: Settings,
    /// What decides on carry; none where every opening is a command 01. It is a sequence of its own, so that the bytes of a stream
    /// without carry do not depend on it.
    pub carry: Option<Random>,
}

impl Generator {
    fn mode(&mut self) -> u8 {
        match self.kind {
            Kind::Ook => 0,
            Kind::Fsk => 1,
            Kind::Auto => 2,
            _ => self.r.below(3) as u8,
        }
    }

    /// The carry of an opening: mostly on, also off by 04 or by 01, and now and then outside the domain.
    fn carry_byte(&mut self) -> Option<u8> {
        let r = self.carry.as_mut()?;
        match r.below(24) {
            0..3 => None,
            3..7 => Some(0),
            7 => Some(r.pick(&[2, 255])),
            _ => Some(1),
        }
    }

    /// The settings under way with another carry, between two bursts.
    pub fn carry_changed(&mut self) -> Option<Settings> {
        let again = self.carry.as_mut()?.once_in(6);
        let carry = if again { self.carry_byte() } else { None };
        again.then_some(Settings { carry, ..self.settings })
    }

    /// The settings under way with a carry outside the domain, in a burst; none in a stream without carry.
    pub fn carry_outside(&mut self) -> Option<Settings> {
        let r = self.carry.as_mut()?;
        let carry = Some(r.pick(&[2, 3, 128, 255]));
        r.once_in(2).then_some(Settings { carry, ..self.settings })
    }

    /// alpha, gap_ratio, fsk_delta, fsk_split.
    fn usual_floats(&mut self) -> [f32; 4] {
        let r = &mut self.r;
        let quarter = std::f32::consts::FRAC_PI_2;
        if self.kind == Kind::Exact {
            [
                r.pick(&[0.25, 0.5, 1.0, 1.0]),
                r.pick(&[0.5, 1.0, 1.5, 2.0, 4.0]),
                r.pick(&[0.0, 0.5, 1.0, quarter]),
                r.pick(&[0.0, 1.0, quarter, 2.0 * quarter]),
            ]
        } else if r.once_in(3) {
            [
                r.pick(&[0.0, 0.1, 0.25, 0.5, 0.544, 0.9, 1.0]),
                r.pick(&[0.0, 0.5, 1.5, 4.0, 10.0, 100.0, 1e6]),
                r.pick(&[0.0, 0.05, 0.1, 0.3, 0.6, 4.0]),
                r.pick(&[0.0, 0.2, 0.376_991_12, 1.0, 7.0]),
            ]
        } else {
            // 0.03 and 0.06 of a turn.
            let ratio = r.pick(&[1.5, 3.0, 10.0, 10.0]);
            [r.between(0.3, 1.0) as f32, ratio, 0.188_495_56, 0.376_991_12]
        }
    }

    fn usual_settings(&mut self) -> Settings {
        let (mode, floats, carry) = (self.mode(), self.usual_floats(), self.carry_byte());
        let r = &mut self.r;
        let min_steps = match r.below(8) {
            0 => r.from_to(1, 40),
            1 => r.pick(&[16, 20, 25, 26, 27, 28, 33]),
            _ => r.pick(&[1, 2, 2, 3, 3, 4, 5, 6, 8, 10]),
        };
        let gap_steps = match r.below(6) {
            0 => r.from_to(1, 10),
            1 => r.from_to(min_steps, 200),
            _ => r.from_to(2 * min_steps, 5 * min_steps + 20),
        };
        let pre_timeout = match r.below(3) {
            0 => gap_steps,
            1 => r.from_to(1, gap_steps),
            _ => r.from_to(gap_steps.div_ceil(2), gap_steps),
        };
        let long_steps = match r.below(12) {
            0 => r.from_to(1, min_steps),
            1 => r.from_to(min_steps, 60),
            2 => r.from_to(60, 200),
            _ => r.from_to(200, 3000),
        };
        let max_pulses = match r.below(8) {
            0 => r.from_to(1, 3),
            1 | 2 => r.from_to(2, 12),
            _ => r.pick(&[20, 40, 64, 300, 2048]),
        };
        Settings {
            mode,
            min_steps: min_steps as u32,
            gap_steps: gap_steps as u32,
            pre_timeout: pre_timeout as u32,
            long_steps: long_steps as u32,
            max_pulses: max_pulses as u32,
            floats,
            carry,
        }
    }

    /// Settings with one or two of them at or past an end of the domain.
    pub fn edge_settings(&mut self) -> Settings {
        let mut s = self.usual_settings();
        let r = &mut self.r;
        let steps = [0, 1, (1 << 24) - 1, 1 << 24, (1 << 24) + 1, u32::MAX];
        for _ in 0..r.from_to(1, 2) {
            match r.below(10) {
                0 => s.mode = r.pick(&[0, 1, 2, 3, 255]),
                1 => s.min_steps = r.pick(&steps),
                2 => s.gap_steps = r.pick(&steps),
                3 => s.pre_timeout = r.pick(&[0, 1, s.gap_steps, s.gap_steps.saturating_add(1)]),
                4 => s.long_steps = r.pick(&steps),
                5 => s.max_pulses = r.pick(&[0, 1, 2047, 2048, 2049, 65_536, 65_537, u32::MAX]),
                n => {
                    let i = n as usize - 6;
                    let most = if i == 0 { 1.0 } else { 1e6f32 };
                    s.floats[i] = match r.below(5) {
                        0 => r.pick(&OUTSIDE),
                        1 => f32::from_bits(most.to_bits() + 1),
                        2 => f32::from_bits(most.to_bits() - 1),
                        3 => most,
                        _ => r.pick(&[0.0, -0.0, 1e-45, 1e-38]),
                    }
                }
            }
        }
        s
    }

    pub fn settings(&mut self) -> Settings {
        if self.kind == Kind::Edges && self.r.once_in(2) || self.r.once_in(30) {
            self.edge_settings()
        } else {
            self.usual_settings()
        }
    }

    /// A length near the shortest run, near `other`, or longer.
    fn run_length(&mut self, other: u64) -> u64 {
        let min = u64::from(self.settings.min_steps).min(60);
        let r = &mut self.r;
        match r.below(10) {
            0 => r.from_to(min.saturating_sub(2).max(1), min + 1),
            1 => r.from_to(1, min),
            2 => r.from_to(other.min(300).saturating_sub(2).max(1), other.min(300) + 2),
            3 if self.kind == Kind::Edges => r.from_to(150, 400),
            3 => r.from_to(min, 8 * min + 30),
            _ => r.from_to(min, 3 * min + 4),
        }
    }

    fn pulses(&mut self, plan: &mut Vec<Stretch>) {
        let most = u64::from(self.settings.max_pulses);
        let count = match self.r.below(6) {
            0 => self.r.from_to(most.min(80), (most + 2).min(82)),
            1 => 1,
            _ => self.r.from_to(1, 12),
        };
        let steady = !self.r.once_in(4);
        let mut turn = self.r.between(-3.2, 3.2);
        let ended = u64::from(self.settings.gap_steps);
        for i in 0..count {
            if i > 0 {
                let near = if self.r.once_in(4) { ended } else { 4 };
                let len = self.run_length(near);
                plan.push(Stretch { len, on: false, turn });
            }
            if !steady {
                turn = self.r.pick(&[0.0, TAU / 2.0, TAU / 4.0, -TAU / 4.0]);
            }
            self.pulse(plan, turn);
        }
    }

    /// A pulse, now and then with a glitch inside.
    fn pulse(&mut self, plan: &mut Vec<Stretch>, turn: f64) {
        let len = self.run_length(8);
        if len > 4 && self.r.once_in(6) {
            let at = self.r.from_to(1, len - 2);
            let short = self.r.from_to(1, u64::from(self.settings.min_steps).min(20));
            plan.push(Stretch { len: at, on: true, turn });
            plan.push(Stretch { len: short, on: false, turn });
            plan.push(Stretch { len: len - at, on: true, turn });
        } else {
            plan.push(Stretch { len, on: true, turn });
        }
    }

    /// A frame of two tones, on a symbol grid or off it; its first run may be short.
    fn frame(&mut self, plan: &mut Vec<Stretch>) {
        let shortest = (self.settings.min_steps / 2).clamp(2, 8);
        let r = &mut self.r;
        let split = r.pick(&[0.02, 0.1, 0.2, 0.3, 0.4, 0.4, 0.5, 0.6, 0.8, 1.0, 1.5]);
        let centre = r.between(-0.6, 0.6);
        let symbol = match r.below(6) {
            0 => r.between(1.2, 14.0),
            _ => f64::from(shortest) * r.between(1.1, 3.0),
        };
        let jitter = symbol * r.pick(&[0.0, 0.0, 0.05, 0.1, 0.2, 0.4]);
        let on_grid = !r.once_in(4);
        let most = if r.once_in(4) { 90 } else { 24 };
        let short_first = r.once_in(4);
        let mut up = r.once_in(2);
        let (mut at, mut done) = (0.0, 0u64);
        for i in 0..r.from_to(2, most) {
            at += match i {
                0 if short_first => r.between(1.0, f64::from(shortest) + 1.0),
                _ if on_grid => symbol * r.pick(&[1.0, 1.0, 1.0, 2.0, 2.0, 3.0]),
                _ => r.between(1.0, 4.0 * symbol),
            };
            let end = (at + r.between(-jitter, jitter)).max(0.0).round() as u64;
            let len = end.saturating_sub(done);
            done += len;
            let turn = if up { centre + split } else { centre - split };
            plan.push(Stretch { len, on: true, turn });
            up = !up;
        }
    }

    /// A carrier longer than long_steps where that is near.
    fn carrier(&mut self, plan: &mut Vec<Stretch>) {
        let long = u64::from(self.settings.long_steps);
        let len =
            if long < 400 { self.r.from_to(long.saturating_sub(1).max(1), long + 8) } else { self.r.from_to(20, 200) };
        let turn = self.r.between(-3.2, 3.2);
        plan.push(Stretch { len, on: true, turn });
    }

    fn silence(&mut self, plan: &mut Vec<Stretch>, len: u64) {
        plan.push(Stretch { len, on: false, turn: 0.0 });
    }

    fn part(&mut self, plan: &mut Vec<Stretch>) {
        let tones = match self.settings.mode {
            0 => 1,
            1 => 6,
            _ => 5,
        };
        if self.r.below(10) < tones {
            self.frame(plan);
        } else if self.r.once_in(8) {
            self.carrier(plan);
        } else if self.r.once_in(14) {
            let len = self.r.from_to(1, 30);
            self.silence(plan, len);
        } else {
            self.pulses(plan);
        }
    }

    /// The stretches of one burst. In Auto mode pulses before a frame and after it are frequent.
    pub fn plan(&mut self) -> Vec<Stretch> {
        let mut plan = Vec::new();
        let low = self.r.below(4);
        self.silence(&mut plan, low);
        if self.settings.mode == 2 && self.r.once_in(4) {
            self.pulses(&mut plan);
            let gap = self.settings.gap_steps.min(300).max(self.settings.min_steps.min(60));
            let len = self.r.from_to(u64::from(self.settings.min_steps.min(60)), u64::from(gap));
            self.silence(&mut plan, len);
            self.frame(&mut plan);
            self.silence(&mut plan, len);
            self.pulses(&mut plan);
        } else {
            for i in 0..self.r.pick(&[1, 1, 2, 3]) {
                if i > 0 {
                    let len = self.run_length(4);
                    self.silence(&mut plan, len);
                }
                self.part(&mut plan);
            }
        }
        let gap = u64::from(self.settings.gap_steps.max(self.settings.min_steps));
        self.silence(&mut plan, gap.min(3000) + 4);
        plan
    }

    /// How the samples of a burst look. Two bursts in three are plain: a steady noise, and samples as large as the envelope.
    fn shape(&mut self) -> Shape {
        let r = &mut self.r;
        let edges = self.kind == Kind::Edges;
        let plain = !r.once_in(3);
        let level = if edges && r.once_in(2) {
            r.pick(&[1e-42, 1e-38, 1e-30, 1e-16, 1e-14, 1e-12, 1e5, 1e12, 9e17, 1e18, 1e18])
        } else {
            r.pick(&[8.0, 8.0, 1.0, 0.37, 0.001, 100.0])
        };
        let usual: [&[f64]; 3] = [&[0.01, 0.05, 0.1], &[0.0, 0.02, 0.1], &[1.0, 1.0, 0.6]];
        let other: [&[f64]; 3] = [&[0.0, 0.001, 0.2, 0.4], &[0.0, 0.1, 0.3], &[1.0, 0.5, 0.2]];
        let [quiet, ripple, weak] = if plain { usual } else { other }.map(|of| r.pick(of));
        Shape {
            level,
            quiet: level * quiet,
            factor: match r.below(24) {
                0 => 0.0,
                1 => 1e6,
                2 | 3 => r.pick(&[0.5, 4.0, 10.0]),
                _ => r.between(1.2, 2.5) as f32,
            },
            noise: if plain { 3 } else { r.below(4) },
            edge: r.below(3),
            low_pass: r.between(0.3, 0.95),
            ripple,
            weak,
            sample: match (edges, plain) {
                (true, _) => r.below(6),
                (_, true) => 3,
                _ => r.below(4),
            },
            odd_values: edges && r.once_in(2),
        }
    }

    fn ticks(&mut self, shape: &Shape, plan: &[Stretch]) -> Vec<Tick> {
        let mut state = State { noise: shape.quiet, before: 0.0, phase: self.r.between(0.0, TAU) };
        let mut ticks = Vec::new();
        for s in plan {
            ticks.extend((0..s.len).map(|i| shape.tick(&mut self.r, &mut state, s, i)));
        }
        ticks
    }

    /// A burst of small binary fractions: some samples of each stretch stand at a threshold or beside it.
    fn exact_ticks(&mut self, shape: &Shape, plan: &[Stretch]) -> Vec<Tick> {
        let r = &mut self.r;
        let noise = shape.quiet;
        let (middle, trigger) = ((noise + shape.level) / 2.0, noise * f64::from(shape.factor));
        let places = [
            middle * 1.125,
            middle * 0.875,
            middle,
            trigger * 1.125,
            trigger * 0.875,
            trigger * 2.25,
            shape.level / 2.0,
            shape.level / 4.0,
            noise,
        ];
        let mut quarters = 0i64;
        let mut ticks = Vec::new();
        for s in plan {
            let held = if r.once_in(2) { 0 } else { r.from_to(1, 5) };
            let place = r.pick(&places);
            let aim = if s.on { shape.level } else { r.pick(&[0.0, noise / 2.0, noise]) };
            for i in 0..s.len {
                quarters += (s.turn / (TAU / 4.0)).round() as i64;
                let size = shape.level as f32;
                ticks.push(Tick {
                    noise: value(noise),
                    envelope: value(if i < held { place } else { aim }),
                    sample: [[size, 0.0], [0.0, size], [-size, 0.0], [0.0, -size]][quarters.rem_euclid(4) as usize],
                });
            }
        }
        ticks
    }

    /// The factor and the samples of a burst that shows its plan: sharp edges, low noise.
    pub fn clear_samples(&mut self, plan: &[Stretch], ripple: f64) -> (f32, Vec<Tick>) {
        let shape = Shape {
            level: 8.0,
            quiet: 0.08,
            factor: 2.0,
            noise: 3,
            edge: 0,
            sample: 3,
            low_pass: 1.0,
            ripple,
            weak: 1.0,
            odd_values: false,
        };
        (shape.factor, self.ticks(&shape, plan))
    }

    /// Brings some stretches of a burst, the last not among them, near the middle of its levels, and cuts them to about the shortest
    /// run: they pass a threshold by their first sample and lie on the other side of the middle after it. Then an edge is refined
    /// late and the next one early, and it may come out before the other. Streams without carry have no such burst.
    fn sagged(&mut self, plan: &[Stretch], ticks: Vec<Tick>) -> Vec<Tick> {
        let min = self.settings.min_steps.min(60) as usize;
        let Some(r) = self.carry.as_mut().filter(|_| min > 3) else { return ticks };
        if !r.once_in(3) {
            return ticks;
        }
        let level = ticks.iter().map(|t| f64::from(t.envelope)).fold(0.0, f64::max);
        let mut rest = &ticks[..];
        let mut sagged = Vec::with_capacity(ticks.len());
        for s in &plan[..plan.len() - 1] {
            let (here, after) = rest.split_at(s.len as usize);
            rest = after;
            if r.once_in(2) {
                let len = min + r.below(2) as usize;
                sagged.extend(here.iter().take(len).enumerate().map(|(i, t)| near_middle(r, level, s.on, i, t)));
            } else {
                sagged.extend(here);
            }
        }
        sagged.extend(rest);
        sagged
    }

    /// The factor and the samples of a burst.
    pub fn samples(&mut self, plan: &[Stretch]) -> (f32, Vec<Tick>) {
        let (factor, ticks) = self.unsagged(plan);
        (factor, self.sagged(plan, ticks))
    }

    fn unsagged(&mut self, plan: &[Stretch]) -> (f32, Vec<Tick>) {
        let mut shape = self.shape();
        if self.kind == Kind::Edges && self.r.once_in(10) {
            shape.factor = self.r.pick(&[-0.0, 999_999.94, 1e6, 1_000_000.06]);
        }
        if self.kind != Kind::Exact {
            return (shape.factor, self.ticks(&shape, plan));
        }
        shape.level = self.r.pick(&[1.0, 4.0, 8.0, 8.0]);
        shape.quiet = shape.level * self.r.pick(&[0.0, 0.03125, 0.0625, 0.125]);
        shape.factor = self.r.pick(&[0.5, 1.0, 2.0, 2.0, 4.0]);
        (shape.factor, self.exact_ticks(&shape, plan))
    }
}

/// Sample number `i` of a stretch that starts beyond its threshold and goes on between that for its end and the level of refinement.
fn near_middle(r: &mut Random, level: f64, on: bool, i: usize, t: &Tick) -> Tick {
    let noise = f64::from(t.noise);
    let middle = (level + noise) / 2.0;
    let refined = (level * level / 4.0 + 0.955 * noise * noise).sqrt();
    let envelope = match (i, on) {
        (0, true) => middle * 1.14,
        (0, false) => middle * 0.86,
        (_, true) => r.between(middle * 0.88, refined),
        _ => r.between(refined, middle * 1.12),
    };
    Tick { envelope: value(envelope), ..*t }
}

/// How the samples of a burst look.
struct Shape {
    /// The envelope where the carrier is on, and the noise.
    level: f64,
    quiet: f64,
    factor: f32,
    /// Kinds, by number: how noise changes, how an edge looks, how large samples are.
    noise: u64,
    edge: u64,
    sample: u64,
    low_pass: f64,
    ripple: f64,
    /// The envelope of the lower tone, as a part of the level.
    weak: f64,
    odd_values: bool,
}

/// What one sample hands to the next.
struct State {
    noise: f64,
    before: f64,
    phase: f64,
}

impl Shape {
    /// Sample number `i` of a stretch.
    fn tick(&self, r: &mut Random, state: &mut State, s: &Stretch, i: u64) -> Tick {
        state.noise = match self.noise {
            0 => r.between(0.0, self.level),
            1 => self.quiet * r.between(0.2, 3.0),
            2 => (state.noise * r.between(0.9, 1.1)).min(self.level),
            _ => self.quiet,
        };
        let aim = match (s.on, s.turn < 0.0) {
            (true, false) => self.level,
            (true, true) => self.level * self.weak,
            _ => self.quiet * r.between(0.3, 1.2),
        };
        let before = state.before;
        state.before = match self.edge {
            0 => aim,
            1 if i == 0 => before + (aim - before) * r.unit(),
            1 => aim,
            _ => before + self.low_pass * (aim - before),
        };
        let envelope = state.before * (1.0 + self.ripple * r.between(-1.0, 1.0));
        let size = match self.sample {
            0 => 1.0,
            1 => self.level * r.unit(),
            2 => r.pick(&[1e-20, 1e-3, 1e9, 1e18]),
            // Sums of these pass the largest float.
            4 => 1.5e18,
            _ => envelope,
        };
        state.phase += s.turn;
        let (sin, cos) = state.phase.sin_cos();
        let mut t =
            Tick { noise: value(state.noise), envelope: value(envelope), sample: [part(size * cos), part(size * sin)] };
        if self.odd_values && r.once_in(40) {
            odd(r, &mut t);
        }
        t
    }
}

/// In 0 to 1e18.
pub fn value(x: f64) -> f32 {
    (x as f32).clamp(0.0, MAX_F32)
}

/// In -1e18 to 1e18.
pub fn part(x: f64) -> f32 {
    (x as f32).clamp(-MAX_F32, MAX_F32)
}

/// One of the values at an end of its range.
fn odd(r: &mut Random, t: &mut Tick) {
    let x = r.pick(&AT_EDGES);
    match r.below(4) {
        0 => t.noise = x,
        1 => t.envelope = x,
        2 => t.sample[0] = if r.once_in(2) { x } else { -x },
        _ => t.sample[1] = if r.once_in(2) { x } else { -x },
    }
}
