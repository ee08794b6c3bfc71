//! Document 01's worked bursts M6 to M8 as commands: samples (1, 0), noise 0, factor 1, history 0. Beside them bursts of document 02:
//! of R-1, whose widths are others with carry, of R-2, most of whose spans are not the sum of their widths, and of R-13, which are
//! closed.

#![allow(dead_code)]

use crate::signal::{Settings, Tick, WORKED, begin_command, step_command};

/// The envelopes, in turn.
pub const M6: [f32; 10] = [0.0, 8.0, 8.0, 8.0, 8.0, 0.0, 0.0, 0.0, 0.0, 0.0];
pub const M7: [f32; 14] = [0.0, 8.0, 8.0, 8.0, 8.0, 0.0, 8.0, 8.0, 8.0, 0.0, 0.0, 0.0, 0.0, 0.0];
pub const M8: [f32; 7] = [0.0; 7];

/// a pulse and a carrier after it; two pulses; a frame that ends before its index, in FSK mode with noise 1.
pub const CARRIED: [f32; 14] = [0.0, 8.0, 8.0, 8.0, 0.0, 0.0, 0.0, 8.0, 8.0, 8.0, 8.0, 8.0, 8.0, 8.0];
pub const TWO: [f32; 12] = [0.0, 8.0, 8.0, 8.0, 0.0, 0.0, 0.0, 8.0, 8.0, 8.0, 0.0, 0.0];
pub const BACKWARD: [f32; 7] = [0.0, 0.0, 8.0, 2.0, 0.0, 0.0, 0.0];

/// two pulses with an edge half way between two samples each; and a train, with min_steps 4, whose first pulse ends before it
/// starts. There the level is refined at about 15.9: the rise, at a sample of 19 with three of 14 after it, lies at 14, the fall at
/// 13, the next rise at 17 and its fall at 22.5. And a pulse that rises a 128th after a sample and falls half way between two: its
/// length is 159.5 64ths.
pub const HALVES: [f32; 12] = [0.0, 8.0, 4.0, 0.0, 0.0, 8.0, 4.0, 0.0, 0.0, 0.0, 0.0, 0.0];
pub const BACK: [f32; 18] =
    [0.0, 19.0, 14.0, 14.0, 14.0, 13.0, 17.0, 17.0, 17.0, 32.0, 32.0, 32.0, 32.0, 0.0, 0.0, 0.0, 0.0, 0.0];

pub const TIE: [f32; 9] = [0.0, 126.0, 254.0, 254.0, 0.0, 0.0, 0.0, 0.0, 0.0];

/// R-1's 300 pulses, each with the gap after it, and the samples that end the burst.
pub fn three_hundred() -> Vec<f32> {
    [vec![0.0], [8.0, 4.0, 0.0, 0.0].repeat(300), vec![0.0; 3]].concat()
}

/// a pulse, the gap after it and a pulse under way, of which the lead, the first seven samples, has all but the last three; a
/// pulse of which the low run after it is too short yet to count.
pub const HELD: [f32; 10] = [0.0, 8.0, 8.0, 8.0, 0.0, 0.0, 0.0, 8.0, 8.0, 8.0];
pub const UNFINISHED: [f32; 8] = [0.0, 8.0, 8.0, 8.0, 8.0, 8.0, 8.0, 0.0];

/// Two pulses as in `HALVES`, and a third that closes the gap after the second.
pub const HALVES_HELD: [f32; 11] = [0.0, 8.0, 4.0, 0.0, 0.0, 8.0, 4.0, 0.0, 0.0, 8.0, 8.0];

/// With noise 1: the same pulses as in `HELD`, with a carrier in the gap between them.
pub const PRESENT: [f32; 10] = [0.0, 8.0, 8.0, 8.0, 2.0, 2.0, 2.0, 8.0, 8.0, 8.0];

/// `PRESENT` in Auto mode with alpha 1, and after it as many samples of the last pulse as six runs of two tones take, a quarter turn
/// up and one down for each sample, of three samples each. Each presence with more than three runs is a frame, and this one is not
/// over.
pub fn tones() -> Vec<u8> {
    let settings = Settings { mode: 2, floats: [1.0, 100.0, 0.0, 0.0], ..WORKED };
    let turns = [[1.0, 0.0], [0.0, 1.0], [-1.0, 0.0], [0.0, -1.0]];
    let up = [1, 2, 3, 2, 1, 0].iter().cycle().take(18);
    let samples = PRESENT.iter().map(|&e| (e, 0)).chain(up.map(|&turn| (8.0, turn)));
    let mut ticks = samples.map(|(envelope, turn)| Tick { noise: 1.0, envelope, sample: turns[turn] });
    let first = ticks.next().unwrap();
    let begin = begin_command(10, 1.0, &first, [1.0, 0.0], &[0.0; 7]);
    let steps = (11..).zip(ticks).flat_map(|(i, t)| step_command(i, &t));
    settings.command().into_iter().chain(begin).chain(steps).collect()
}

/// In FSK mode with alpha 1 and noise 1, from index 10 on: a low sample, six runs of two tones, a quarter turn up and one down for each
/// sample, of so many samples each, and five low samples, of which the second ends the frame and the last the burst.
pub fn two_tones(len: usize) -> Vec<u8> {
    let settings = Settings { mode: 1, floats: [1.0, 100.0, 0.0, 0.0], ..WORKED };
    let turns = [[1.0, 0.0], [0.0, 1.0], [-1.0, 0.0], [0.0, -1.0]];
    let up = (0..6).flat_map(|run| vec![if run % 2 == 0 { 1 } else { 3 }; len]);
    let high = up.scan(0, |turn, by| {
        *turn = (*turn + by) % 4;
        Some(Tick { noise: 1.0, envelope: 8.0, sample: turns[*turn] })
    });
    let steps = (11..).zip(high.chain([tick(1.0, 0.0); 5])).flat_map(|(i, t)| step_command(i, &t));
    let begin = begin_command(10, 1.0, &tick(1.0, 0.0), [1.0, 0.0], &[0.0; 7]);
    settings.command().into_iter().chain(begin).chain(steps).collect()
}

/// The settings of M6 to M8 by command 04, with this carry.
pub const fn carrying(carry: u8) -> Settings {
    Settings { carry: Some(carry), ..WORKED }
}

/// Their max_pulses.
pub const MOST: u32 = WORKED.max_pulses;

/// Their settings with another max_pulses.
pub fn opening(max_pulses: u32) -> Vec<u8> {
    Settings { max_pulses, ..WORKED }.command()
}

fn tick(noise: f32, envelope: f32) -> Tick {
    Tick { noise, envelope, sample: [1.0, 0.0] }
}

pub fn begin(index: u64, envelope: f32) -> Vec<u8> {
    begin_command(index, 1.0, &tick(0.0, envelope), [1.0, 0.0], &[0.0; 7])
}

pub fn step(index: u64, envelope: f32) -> Vec<u8> {
    step_command(index, &tick(0.0, envelope))
}

/// Begin at the index, and a step for each further envelope.
pub fn calls(index: u64, envelopes: &[f32]) -> Vec<Vec<u8>> {
    noisy_calls(index, 0.0, envelopes)
}

/// The same with this noise.
pub fn noisy_calls(index: u64, noise: f32, envelopes: &[f32]) -> Vec<Vec<u8>> {
    let steps = (index + 1..).zip(&envelopes[1..]).map(|(i, e)| step_command(i, &tick(noise, *e)));
    std::iter::once(begin(index, envelopes[0])).chain(steps).collect()
}

/// The settings, then the envelopes from index 10 on.
pub fn burst(envelopes: &[f32]) -> Vec<u8> {
    burst_by(WORKED, 0.0, envelopes)
}

/// The same with other settings and noise.
pub fn burst_by(settings: Settings, noise: f32, envelopes: &[f32]) -> Vec<u8> {
    [settings.command(), noisy_calls(10, noise, envelopes).concat()].concat()
}

/// A command for one of sixteen antennas (document 02, R-4): its number comes right after the command byte.
pub fn to_antenna(antenna: u8, command: &[u8]) -> Vec<u8> {
    [&command[..1], &[antenna], &command[1..]].concat()
}
