//! Document 02's R-4 through a program for sixteen antennas: who is let in and who meets refusal 12, what frees a place, the replies
//! of antennas above 15, of unknown commands and of commands cut short. Each lane's lines are also those that a listing program
//! prints of its commands alone, with those that met 12 left out.
//!
//!     antennas PROGRAM LISTING      compare
//!     antennas --write              print some of the calls as one command stream

use std::io::Write;
use std::process::ExitCode;

mod program;
mod random;
#[allow(dead_code)]
mod signal;
mod verdict;
mod worked;

use program::printed;
use signal::{CLOSE, Settings, WORKED};
use worked::{
    CARRIED, HALVES, HELD, M6, M7, M8, MOST, TWO, begin, burst_by, calls, carrying, opening, step, to_antenna, tones,
    two_tones,
};

/// An antenna, a command of its lane, and the lines of the reply as a lane alone would print them.
type Call = (u8, Vec<u8>, String);

/// A name, and calls with their replies.
type Row = (String, Vec<Call>);

const R12: &str = "refused 12\n";

/// The lines of bursts from index 10 on, by the settings of M6 to M8. A bar stands between those of a call and the next.
const M6_LINES: &str = "ook 11 15 0 4 41000000 vector 40800000 00000000 1 4 0\nidle 19\n";
const M7_LINES: &str = "ook 11 19 0 8 41000000 vector 40e00000 00000000 1 8 0\nidle 23\n";
const M8_LINES: &str = "idle 16\n";
const HALVES_LINES: &str = "ook 11 16 0 5 41000000 vector 40800000 00000000 2 2 3 2 0\nidle 21\n";
const CARRY_LINES: &str = "ook 11 16 0 5 41000000 vector 40800000 00000000 2 2 2 2 0\nidle 21\n";
const HELD_LINES: &str = "ook 11 14 0 3 41000000 vector 40400000 00000000 1 3 3\nidle 19\n";
const TONES_LINES: &str = "ook 11 14 0 3 41000000 vector 40400000 00000000 1 3 3\nidle 37\n";
const FRAME_LINES: &str = "fsk 10 14 0 4 41000000 vector 40400000 00000000 1 3 0\n|idle 16\n";
const CARRIER_LINES: &str = "ook 11 14 0 3 41000000 vector 40400000 00000000 1 3 3\ncarrier 23 41000000\n";
const TWO_LINES: &str = "ook 11 20 0 9 41000000 vector 40c00000 00000000 2 3 3 3 0\nidle 21\n";

/// Lines of a burst that starts so much later.
fn later(lines: &str, by: u64) -> String {
    let moved = |line: &str| {
        let mut words: Vec<String> = line.split(' ').map(String::from).collect();
        let indexes = if words.len() > 3 { 1..3 } else { 1..2 };
        for word in &mut words[indexes] {
            *word = (word.parse::<u64>().unwrap() + by).to_string();
        }
        words.join(" ") + "\n"
    };
    lines.lines().map(moved).collect()
}

/// A call with its reply.
fn says(antenna: u8, command: Vec<u8>, lines: &str) -> Call {
    (antenna, command, lines.to_string())
}

/// A call that prints nothing.
fn silent(antenna: u8, command: Vec<u8>) -> Call {
    says(antenna, command, "")
}

/// Commands of an antenna of which the last print these lines, a bar between those of a call and the next, and the others nothing.
fn last_says(antenna: u8, commands: Vec<Vec<u8>>, lines: &str) -> Vec<Call> {
    let mut calls: Vec<Call> = commands.into_iter().map(|c| silent(antenna, c)).collect();
    for (call, lines) in calls.iter_mut().rev().zip(lines.split('|').rev()) {
        call.2 = lines.to_string();
    }
    calls
}

/// A burst of an antenna.
fn burst(antenna: u8, index: u64, envelopes: &[f32], lines: &str) -> Vec<Call> {
    last_says(antenna, calls(index, envelopes), lines)
}

/// M6 of an antenna from this index on; without its begin where that was made before.
fn m6(antenna: u8, index: u64) -> Vec<Call> {
    burst(antenna, index, &M6, &later(M6_LINES, index - 10))
}

fn m6_begun(antenna: u8, index: u64) -> Vec<Call> {
    m6(antenna, index).split_off(1)
}

/// Openings of these antennas by M6's settings, and their begins at index 10.
fn opened(antennas: impl IntoIterator<Item = u8>) -> Vec<Call> {
    antennas.into_iter().map(|a| silent(a, opening(MOST))).collect()
}

fn begun(antennas: impl IntoIterator<Item = u8>) -> Vec<Call> {
    antennas.into_iter().map(|a| silent(a, begin(10, 0.0))).collect()
}

/// Sixteen idle lanes with settings, but for the last; of the others the first four are begun.
fn four() -> Vec<Call> {
    [opened(0..15), begun(0..4)].concat()
}

/// A stream's commands, of 01, 02, 03 and 04.
fn commands(mut bytes: &[u8]) -> Vec<Vec<u8>> {
    let mut commands = Vec::new();
    while let Some(command) = bytes.first() {
        let (front, rest) = bytes.split_at([38, 61, 25, 39][usize::from(*command) - 1]);
        commands.push(front.to_vec());
        bytes = rest;
    }
    commands
}

/// The calls of several antennas in turn, so many of each at a time.
fn in_turn(mut lanes: Vec<Vec<Call>>, run: usize) -> Vec<Call> {
    let mut all = Vec::new();
    while lanes.iter().any(|lane| !lane.is_empty()) {
        for lane in &mut lanes {
            let size = run.min(lane.len());
            all.extend(lane.drain(..size));
        }
    }
    all
}

fn row(name: &str, parts: Vec<Vec<Call>>) -> Row {
    (name.to_string(), parts.concat())
}

/// Bursts of one antenna; and a lane knows only its own settings.
fn single() -> Vec<Row> {
    let each = (0..16).map(|a| row(&format!("M6 on antenna {a}"), vec![opened([a]), m6(a, 10)]));
    let own = row("a neighbour's settings", vec![opened([7]), vec![says(8, begin(10, 0.0), "refused 3\n")], m6(7, 10)]);
    let closed =
        row("a neighbour's close", vec![opened([2, 3]), begun([2]), vec![says(3, CLOSE.into(), "refused 5\n")]]);
    each.chain([own, closed]).collect()
}

/// What a fifth lane is answered while four are out of idle: begin meets 3, 5, 6 and 7 before 12, and 12 before 8; no other call
/// meets 12.
fn fifth() -> Vec<Row> {
    let high = (1 << 40) + 1;
    let with = |max_pulses, command, lines: &str| vec![silent(4, opening(max_pulses)), says(4, command, lines)];
    let fsk = Settings { mode: 1, max_pulses: 65_536, ..WORKED }.command();
    let nan = f32::NAN;
    let begin_12 = || vec![says(4, begin(10, 0.0), R12)];
    let mut rows: Vec<(&str, Vec<Call>)> = vec![
        ("begin", with(MOST, begin(10, 0.0), R12)),
        ("begin at the highest index", with(MOST, begin(1 << 40, 0.0), R12)),
        ("begin with room for 2,048 pairs", with(2048, begin(10, 0.0), R12)),
        ("begin without room for 2,049", with(2049, begin(10, 0.0), R12)),
        ("begin without room for 65,536", with(65_536, begin(10, 0.0), R12)),
        ("begin without room in FSK mode", vec![silent(4, fsk), says(4, begin(10, 0.0), R12)]),
        ("an index above the domain", with(MOST, begin(high, 0.0), "refused 6\n")),
        ("an index above it and no room", with(65_536, begin(high, 0.0), "refused 6\n")),
        ("an index above it and no number", with(MOST, begin(high, nan), "refused 6\n")),
        ("no number", with(MOST, begin(10, nan), "refused 7\n")),
        ("a float above the domain and no room", with(65_536, begin(10, f32::MAX), "refused 7\n")),
        ("a step", with(MOST, step(11, 0.0), "refused 5\n")),
        ("a close", with(MOST, CLOSE.into(), "refused 5\n")),
        ("begin after a refused opening", [with(MOST, opening(0), "refused 3\n"), begin_12()].concat()),
        ("begin after an opening by 04", [with(MOST, carrying(1).command(), ""), begin_12()].concat()),
    ];
    for (name, command) in [
        ("begin without settings", begin(10, 0.0)),
        ("an index above the domain, without settings", begin(high, 0.0)),
        ("no number, without settings", begin(10, nan)),
    ] {
        rows.push((name, vec![says(15, command, "refused 3\n")]));
    }
    let each = (4..15).map(|a| says(a, begin(10, 0.0), R12)).collect();
    rows.push(("eleven lanes", each));
    rows.push(("again and again", (0..20).map(|i| says(4, begin(10 + i, 0.0), R12)).collect()));
    rows.into_iter().map(|(name, calls)| (format!("a fifth: {name}"), [four(), calls].concat())).collect()
}

/// A lane that is one of the four meets 5 and goes on; where three are out, the fourth is let in or meets 8.
fn within_four() -> Vec<Row> {
    let again = |a: u8| {
        [begin(11, 0.0), begin((1 << 40) + 1, 0.0), begin(11, f32::NAN)].map(|c| says(a, c, "refused 5\n")).to_vec()
    };
    let each =
        (0..4).map(|a| row(&format!("begin of antenna {a}, one of the four"), vec![four(), again(a), m6_begun(a, 10)]));
    let three = [opened(0..15), begun(0..3)].concat();
    let room = |most, lines: &str| vec![silent(9, opening(most)), says(9, begin(10, 0.0), lines)];
    let rows = [
        row("a fourth", vec![three.clone(), m6(3, 10), m6(4, 10)]),
        row("a fourth with room for 2,048", vec![three.clone(), room(2048, ""), vec![says(4, begin(10, 0.0), R12)]]),
        row("a fourth without room", vec![three.clone(), room(2049, "refused 8\n"), m6(4, 10)]),
        row("a fourth without room for 65,536", vec![three, room(65_536, "refused 8\n"), m6(4, 10)]),
        row("the same lane again", vec![four(), m6_begun(0, 10), m6(0, 30), vec![says(4, begin(10, 0.0), "")]]),
        row("the same lane, opened anew", vec![four(), opened([2]), m6(2, 10)]),
    ];
    each.chain(rows).collect()
}

/// How a lane leaves: its calls from the opening on, of which the last frees its place and prints these lines.
fn leaving(antenna: u8) -> Vec<(&'static str, Vec<Call>)> {
    let by = |settings: Settings, noise, envelopes: &[f32]| commands(&burst_by(settings, noise, envelopes));
    let then = |mut commands: Vec<Vec<u8>>, last: Vec<u8>| {
        commands.push(last);
        commands
    };
    let held = by(WORKED, 0.0, &HELD);
    let carrier = by(Settings { long_steps: 6, ..WORKED }, 0.0, &CARRIED);
    let fsk = by(Settings { mode: 1, ..WORKED }, 1.0, &HELD[..7]);
    let lead = by(WORKED, 0.0, &HELD[..3]);
    [
        ("an idle with a train", by(WORKED, 0.0, &M6), M6_LINES),
        ("an idle as the lead is full", by(WORKED, 0.0, &M8), M8_LINES),
        ("a carrier", carrier, CARRIER_LINES),
        ("a close in lead", then(lead.clone(), CLOSE.into()), "idle 12\n"),
        ("a close right after begin", then(by(WORKED, 0.0, &HELD[..1]), CLOSE.into()), "idle 10\n"),
        ("a close with a train", then(held.clone(), CLOSE.into()), HELD_LINES),
        ("a close after a frame", then(fsk, CLOSE.into()), FRAME_LINES),
        ("a close in a frame", then(commands(&tones()), CLOSE.into()), TONES_LINES),
        ("an opening in lead", then(lead.clone(), opening(MOST)), ""),
        ("an opening in a burst", then(held.clone(), opening(MOST)), ""),
        ("an opening by 04 in lead", then(lead, carrying(1).command()), ""),
        ("an opening by 04 in a burst", then(held, carrying(0).command()), ""),
    ]
    .map(|(name, commands, lines)| (name, last_says(antenna, commands, lines)))
    .to_vec()
}

/// One of four lanes leaves, and the call right after that is a fifth lane's begin, which was refused right before: it is let in, and
/// no other is, the lane that left neither. The fifth's burst, and those of the three that stayed, are as they are alone.
fn freed() -> Vec<Row> {
    let rows = leaving(6).into_iter().enumerate().map(|(i, (name, mut left))| {
        let others = [[0, 1, 2], [13, 14, 15], [5, 7, 8]][i % 3];
        let (fifth, sixth) = ([4, 12, 9][i % 3], [3, 11, 10][i % 3]);
        let last = left.pop().unwrap();
        let refused = |a: u8, index| vec![says(a, begin(index, 0.0), R12)];
        let parts = vec![
            opened(others.into_iter().chain([fifth, sixth])),
            left,
            begun(others),
            refused(fifth, 10),
            vec![last, silent(fifth, begin(10, 0.0))],
            refused(sixth, 10),
            refused(6, 900),
            in_turn(others.into_iter().chain([fifth]).map(|a| m6_begun(a, 10)).collect(), 1),
            m6(sixth, 10),
            m6(fifth, 30),
            opened([6]),
            m6(6, 10),
        ];
        (format!("{name} frees a place"), parts.concat())
    });
    rows.collect()
}

/// What does not free a place: refused calls of the four, whatever they are, and accepted and refused ones of the others.
fn not_freed() -> Vec<Row> {
    let rows: [(&str, Call); 13] = [
        ("a refused opening", says(0, opening(0), "refused 3\n")),
        ("an opening of mode 3", says(1, Settings { mode: 3, ..WORKED }.command(), "refused 3\n")),
        ("a refused carry", says(2, carrying(2).command(), "refused 3\n")),
        ("a step out of order", says(3, step(12, 0.0), "refused 6\n")),
        ("a step with no number", says(0, step(11, f32::NAN), "refused 7\n")),
        ("a step", silent(1, step(11, 0.0))),
        ("begin of one of the four", says(2, begin(11, 0.0), "refused 5\n")),
        ("an opening of an idle lane", silent(5, opening(MOST))),
        ("a close of an idle lane", says(5, CLOSE.into(), "refused 5\n")),
        ("a step of an idle lane", says(5, step(11, 0.0), "refused 5\n")),
        ("begin of a sixth", says(5, begin(11, 0.0), R12)),
        ("a close of antenna 16", says(16, CLOSE.into(), "refused 6\n")),
        ("an opening of antenna 16", says(16, opening(MOST), "refused 6\n")),
    ];
    let refused = || vec![says(4, begin(10, 0.0), R12)];
    rows.map(|(name, call)| row(&format!("{name} frees none"), vec![four(), refused(), vec![call], refused()])).into()
}

/// A lane that met 12 is as it was: idle, with its settings, and its next burst is the one that it would have been.
fn unchanged() -> Vec<Row> {
    let met = || {
        let idle = [step(501, 0.0), step(20, 0.0), CLOSE.to_vec()].map(|c| says(4, c, "refused 5\n"));
        [vec![says(4, begin(500, 8.0), R12)], idle.to_vec()].concat()
    };
    let others = || in_turn((0..4).map(|a| m6_begun(a, 10)).collect(), 1);
    // Not before the last steps of antennas 1 to 3, since that of antenna 0 comes before them and frees a place.
    let pressed = |call: Call| {
        let freed = call.0 > 0 && !call.2.is_empty();
        [if freed { Vec::new() } else { met() }, vec![call]].concat()
    };
    let carry = || vec![silent(4, carrying(1).command())];
    let halves = |index: u64| burst(4, index, &HALVES, &later(CARRY_LINES, index - 10));
    let closed = || [commands(&burst_by(WORKED, 0.0, &HELD)), vec![CLOSE.to_vec()]].concat();
    vec![
        row("12, then a first burst", vec![four(), met(), others(), m6(4, 10)]),
        row("12 between two bursts", vec![opened([4]), m6(4, 10), four(), met(), others(), m6(4, 30)]),
        row("12 in carry mode", vec![four(), carry(), met(), others(), halves(10)]),
        row(
            "12 between two in carry mode",
            vec![carry(), halves(10), opened(0..4), begun(0..4), met(), others(), halves(30)],
        ),
        row(
            "12 after a close",
            vec![last_says(4, closed(), HELD_LINES), opened(0..4), begun(0..4), met(), others(), m6(4, 30)],
        ),
        row(
            "12 before every step of the others",
            vec![four(), others().into_iter().flat_map(pressed).collect(), m6(4, 10)],
        ),
    ]
}

/// An antenna above 15 is refusal 6, whatever the command's other operands are, and changes no lane.
fn above() -> Vec<Row> {
    let mut rows = Vec::new();
    for antenna in [16, 17, 31, 32, 127, 128, 240, 254, 255] {
        let low = antenna % 16;
        let refused = |command: Vec<u8>| says(antenna, command, "refused 6\n");
        let all = || {
            [
                refused(opening(MOST)),
                refused(opening(0)),
                refused(carrying(1).command()),
                refused(carrying(2).command()),
                refused(begin(10, 0.0)),
                refused(begin(u64::MAX, f32::NAN)),
                refused(step(11, 0.0)),
                refused(CLOSE.into()),
            ]
            .to_vec()
        };
        let none = vec![says(low, begin(10, 0.0), "refused 3\n"), says(low, CLOSE.into(), "refused 5\n")];
        let mut within = opened([low]);
        within.extend(m6(low, 10).into_iter().flat_map(|call| [all(), vec![call]].concat()));
        rows.push(row(&format!("antenna {antenna}"), vec![all(), none, within]));
        rows.push(row(
            &format!("antenna {antenna} beside four"),
            vec![four(), all(), vec![says(4, begin(10, 0.0), R12)]],
        ));
    }
    rows
}

/// Four lanes of every sort in turn, one call or more of each at a time: each burst is as it is alone. Their antennas are neighbours,
/// or far from each other; each antenna is among them.
fn interleaved() -> Vec<Row> {
    let by = |settings: Settings, noise, envelopes: &[f32]| commands(&burst_by(settings, noise, envelopes));
    let then = |commands: Vec<Vec<u8>>, last: &[u8]| [commands, vec![last.to_vec()]].concat();
    let sorts = [
        (by(WORKED, 0.0, &M7), M7_LINES),
        (by(carrying(1), 0.0, &HALVES), CARRY_LINES),
        (then(commands(&tones()), &CLOSE), TONES_LINES),
        (then(by(Settings { mode: 1, ..WORKED }, 1.0, &HELD[..7]), &CLOSE), FRAME_LINES),
        (by(WORKED, 0.0, &HALVES), HALVES_LINES),
        (then(by(WORKED, 0.0, &TWO), &CLOSE), TWO_LINES),
        (by(Settings { long_steps: 6, ..WORKED }, 0.0, &CARRIED), CARRIER_LINES),
    ];
    let sets =
        [[0, 1, 2, 3], [4, 5, 6, 7], [8, 9, 10, 11], [12, 13, 14, 15], [0, 5, 10, 15], [15, 8, 1, 0], [3, 2, 11, 7]];
    let mut rows = Vec::new();
    for (shift, set) in sets.iter().enumerate() {
        for run in [1, 2, 5] {
            let of = |i: usize| sorts[(i + shift + run) % sorts.len()].clone();
            let lanes = set.iter().enumerate().map(|(i, &a)| last_says(a, of(i).0, of(i).1)).collect();
            rows.push(row(&format!("antennas {set:?}, {run} calls at a time"), vec![in_turn(lanes, run)]));
        }
    }
    rows
}

/// Four frames at once, each of runs of its own length, which the lane's own buffer keeps.
fn frames() -> Vec<Row> {
    let frame = |antenna: u8, len: u64| {
        let [end, span, idle] = [11 + 6 * len, 1 + 6 * len, 15 + 6 * len];
        let widths = format!(" {len}").repeat(6);
        let lines = format!("fsk 10 {end} 0 {span} 41000000 angle 00000000 3{widths}\n|||idle {idle}\n");
        last_says(antenna, commands(&two_tones(len as usize)), &lines)
    };
    let mut rows = Vec::new();
    for set in [[0, 1, 2, 3], [4, 5, 6, 7], [11, 10, 9, 8], [12, 13, 14, 15], [0, 4, 8, 12], [7, 15, 3, 11]] {
        for run in [1, 4] {
            let lanes = (3..).zip(set).map(|(len, antenna)| frame(antenna, len)).collect();
            rows.push(row(&format!("frames of antennas {set:?}, {run} calls at a time"), vec![in_turn(lanes, run)]));
        }
    }
    rows
}

/// Places go round: each lane is let in as the fourth before it is closed, and the next after it is refused; then M6 on all, by fours.
fn round() -> Row {
    let mut calls = [opened(0..16), begun(0..4)].concat();
    for a in 4..36u8 {
        let [closed, next, after] = [a - 4, a, a + 1].map(|a| a % 16);
        let index = 10 + 100 * u64::from(a / 16);
        calls.push(says(next, begin(index, 0.0), R12));
        calls.push(says(closed, CLOSE.into(), &format!("idle {}\n", 10 + 100 * u64::from((a - 4) / 16))));
        calls.push(silent(next, begin(index, 0.0)));
        calls.push(says(after, begin(index, 0.0), R12));
    }
    calls.extend(opened(0..4));
    for first in [0, 4, 8, 12] {
        calls.extend(in_turn((first..first + 4).map(|a| m6(a, 1000)).collect(), 1));
    }
    ("places go round".to_string(), calls)
}

/// The bytes of the calls, and the lines that they print.
fn bytes(calls: &[Call]) -> Vec<u8> {
    calls.iter().flat_map(|(antenna, command, _)| to_antenna(*antenna, command)).collect()
}

fn lines(calls: &[Call]) -> String {
    let each = calls.iter().flat_map(|call| call.2.lines().map(|line| format!("{} {line}\n", call.0)));
    each.collect()
}

/// What is printed before, the bytes that end a stream, and the line that they print: unknown commands, also where no antenna follows
/// or one above 15; each command cut at every length, for a lane and for an antenna above 15. What follows the end is not read.
fn ends() -> Vec<(String, Vec<u8>, &'static str)> {
    let mut ends = Vec::new();
    for command in [0, 6, 7, 9, 16, 17, 128, 255] {
        for tail in [&[][..], &[0], &[16], &[255], &[3, 5, 3]] {
            ends.push((format!("command {command}, then {tail:?}"), [&[command], tail].concat(), "refused 1\n"));
        }
    }
    let whole = [opening(MOST), begin(10, 0.0), step(11, 0.0), carrying(1).command(), CLOSE.to_vec()];
    for antenna in [4, 255] {
        for command in &whole {
            let command = to_antenna(antenna, command);
            for size in 1..command.len() {
                let name = format!("the first {size} bytes of {:02x} for antenna {antenna}", command[0]);
                ends.push((name, command[..size].to_vec(), "refused 2\n"));
            }
        }
    }
    ends
}

/// R-4's example of a line, and refusals, in so many letters.
fn examples() -> Vec<(String, Vec<u8>, String)> {
    let three = [opened([3]), m6(3, 10)].concat();
    let refused = [four(), vec![says(4, begin(10, 0.0), R12), says(16, begin(10, 0.0), "refused 6\n")]].concat();
    let ten = [opened([10]), m6(10, 10)].concat();
    [
        ("M6 on antenna 3", bytes(&three), "3 ook 11 15 0 4 41000000 vector 40800000 00000000 1 4 0\n3 idle 19\n"),
        ("M6 on antenna 10", bytes(&ten), "10 ook 11 15 0 4 41000000 vector 40800000 00000000 1 4 0\n10 idle 19\n"),
        ("a fifth, and antenna 16", bytes(&refused), "4 refused 12\n16 refused 6\n"),
        ("no input", Vec::new(), ""),
        ("05 without its antenna", vec![5], "refused 2\n"),
        ("05 for antenna 255", vec![5, 255], "255 refused 6\n"),
        ("another command", vec![9], "refused 1\n"),
        ("05 for antenna 9", vec![5, 9, 5, 9, 6, 9, 5, 9], "9 refused 5\n9 refused 5\nrefused 1\n"),
    ]
    .map(|(name, input, lines)| (name.to_string(), input, lines.to_string()))
    .into()
}

fn rows() -> Vec<Row> {
    let parts = [single(), fifth(), within_four(), freed(), not_freed(), unchanged(), above(), interleaved(), frames()];
    parts.into_iter().flatten().chain([round()]).collect()
}

fn prints(program: &str, name: &str, input: &[u8], expected: &str) -> Result<(), String> {
    let got = printed(program, input).map_err(|e| format!("{name}: {e}"))?;
    if got == expected.as_bytes() {
        return Ok(());
    }
    let got = String::from_utf8_lossy(&got);
    Err(format!("{name}: {program} prints\n{got}expected\n{expected}"))
}

/// Each lane alone: its commands through a listing program, without those that met 12. How many lanes that were.
fn alone(listing: &str, (name, calls): &Row) -> Result<usize, String> {
    let mut lanes = 0;
    for antenna in 0..16 {
        let own = || calls.iter().filter(|call| call.0 == antenna && call.2 != R12);
        let input: Vec<u8> = own().flat_map(|call| call.1.clone()).collect();
        let expected: String = own().map(|call| &call.2[..]).collect();
        if !input.is_empty() {
            prints(listing, &format!("{name}: antenna {antenna} alone"), &input, &expected)?;
            lanes += 1;
        }
    }
    Ok(lanes)
}

fn run(program: &str, listing: &str) -> Result<String, String> {
    let (rows, ends, examples) = (rows(), ends(), examples());
    for (name, input, lines) in &examples {
        prints(program, name, input, lines)?;
    }
    let mut lanes = 0;
    for row in &rows {
        prints(program, &row.0, &bytes(&row.1), &lines(&row.1))?;
        lanes += alone(listing, row)?;
    }
    let before = [four(), vec![says(4, begin(10, 0.0), R12)]].concat();
    for (name, end, line) in &ends {
        prints(program, name, end, line)?;
        let (after, lines) = ([bytes(&before), end.clone()].concat(), lines(&before) + line);
        prints(program, &format!("{name}, after four begins"), &after, &lines)?;
    }
    let calls: usize = rows.iter().map(|row| row.1.len()).sum();
    let inputs = examples.len() + rows.len();
    Ok(format!(
        "{inputs} inputs of {calls} calls print R-4's lines, {lanes} lanes theirs alone; {} ends of streams",
        ends.len()
    ))
}

/// Some of the rows, one after another: places freed by a carrier, a close and an opening, what a fifth is answered, and antenna 16,
/// and four lanes in turn, of trains and of frames. After each every lane is closed. Every antenna has a train.
fn written() -> Vec<u8> {
    let rows = rows();
    let named =
        |name: &str| rows.iter().find(|row| row.0 == name).map(|row| bytes(&row.1)).expect("a row of this name");
    let closed: Vec<u8> = (0..16).flat_map(|antenna| to_antenna(antenna, &CLOSE)).collect();
    let names = [
        "a carrier frees a place",
        "a close in lead frees a place",
        "an opening by 04 in lead frees a place",
        "a fifth: begin without room for 65,536",
        "a fifth: an index above it and no room",
        "a fifth: no number",
        "a refused opening frees none",
        "begin of one of the four frees none",
        "antenna 16 beside four",
        "antennas [0, 1, 2, 3], 1 calls at a time",
        "frames of antennas [11, 10, 9, 8], 1 calls at a time",
    ];
    names.iter().flat_map(|name| [named(name), closed.clone()].concat()).collect()
}

fn main() -> ExitCode {
    let mut args = std::env::args().skip(1);
    match [args.next(), args.next()] {
        [Some(first), None] if first == "--write" => {
            let done = std::io::stdout().write_all(&written());
            if done.is_ok() { ExitCode::SUCCESS } else { ExitCode::FAILURE }
        }
        [Some(program), Some(listing)] => verdict::told(run(&program, &listing)),
        _ => verdict::told(Err("antennas PROGRAM LISTING".to_string())),
    }
}
