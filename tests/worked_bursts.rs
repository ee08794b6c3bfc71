//! Document 01's worked bursts M6 to M8, M10 and the replies that it names, R-1's carry, R-2's spans and R-13's closes, through a
//! listing program.
//!
//!     worked_bursts PROGRAM             compare
//!     worked_bursts --write             print M6, M7, M8 and bursts of R-1 as one command stream
//!     worked_bursts --write-closed      print bursts of R-13 as one command stream

use std::io::Write;
use std::process::ExitCode;

mod program;
mod random;
#[allow(dead_code)]
mod signal;
mod verdict;
mod worked;

use program::printed;
use signal::{CLOSE, Settings, WORKED};
use worked::{
    BACK, BACKWARD, CARRIED, HALVES, HALVES_HELD, HELD, M6, M7, M8, MOST, PRESENT, TIE, TWO, UNFINISHED, begin, burst,
    burst_by, calls, carrying, noisy_calls, opening, step, three_hundred, tones,
};

/// A name, its commands, and what the program must print.
type Row = (&'static str, Vec<u8>, String);

/// What R-1's burst of two pulses prints, by its widths.
fn halves(widths: &str) -> String {
    format!("ook 11 16 0 5 41000000 vector 40800000 00000000 2 {widths}\nidle 21\n")
}

const PLAIN: &str = "2 3 2 0";
const CARRY: &str = "2 2 2 0";

/// the widths without carry and with it. From the first pulse to the last the 300 pulses add up to 1,497 and to 1,198, of which
/// the latter is their true length, 1,197.5 steps, with the tie up.
fn widths() -> Vec<Row> {
    let by = |carry| Settings { carry, ..WORKED };
    let long = |carry| burst_by(Settings { max_pulses: 300, ..by(carry) }, 0.0, &three_hundred());
    let line = |pair: &str| {
        let widths = pair.repeat(299);
        format!("ook 11 1208 0 1197 41000000 vector 44160000 00000000 300{widths} 2 0\nidle 1213\n")
    };
    let back = |carry| burst_by(Settings { min_steps: 4, ..by(carry) }, 0.0, &BACK);
    let tie = |widths: &str| format!("ook 11 14 0 3 437e0000 vector 40000000 00000000 1 {widths}\nidle 18\n");
    let held = |widths: &str| format!("ook 11 23 0 12 41fe7965 vector 41000000 00000000 2 {widths}\nidle 27\n");
    vec![
        ("half steps by 01", burst(&HALVES), halves(PLAIN)),
        ("half steps by 04, carry 0", burst_by(by(Some(0)), 0.0, &HALVES), halves(PLAIN)),
        ("half steps by 04, carry 1", burst_by(by(Some(1)), 0.0, &HALVES), halves(CARRY)),
        ("300 pulses by 01", long(None), line(" 2 3")),
        ("300 pulses by 04, carry 1", long(Some(1)), line(" 2 2")),
        // The fall's boundary is the rise's, 0, and not -64: the gap after it has 3 steps and not 4.
        ("an edge before the one before, by 01", back(None), held("0 4 6 0")),
        ("an edge before the one before, by 04, carry 1", back(Some(1)), held("0 3 6 0")),
        // 159.5 64ths are 160, and these 3 steps.
        ("a tie of 64ths by 01", burst(&TIE), tie("2 0")),
        ("a tie of 64ths by 04, carry 1", burst_by(by(Some(1)), 0.0, &TIE), tie("3 0")),
    ]
}

/// where every width is whole, carry changes none; and each burst has boundaries of its own.
fn same() -> Vec<Row> {
    let on = carrying(1);
    let again = halves(CARRY).replace("11 16", "31 36").replace("idle 21", "idle 41");
    let mut rows = vec![(
        "two bursts by 04, carry 1",
        [burst_by(on, 0.0, &HALVES), calls(30, &HALVES).concat()].concat(),
        halves(CARRY) + &again,
    )];
    let bursts: [(&str, &[f32]); 3] =
        [("M6 by 04, carry 1", &M6), ("M7 by 04, carry 1", &M7), ("M8 by 04, carry 1", &M8)];
    rows.extend(bursts.iter().zip(table()).map(|(b, row)| (b.0, burst_by(on, 0.0, b.1), row.2)));
    rows
}

/// with noise 0.25 each pulse has a little less than 1.5 steps, of which 96 whole 64ths are made first. Carry holds in Auto mode
/// too, and the longest pulse, by which a gap ends the burst, has the width that the mode gives.
fn modes() -> Vec<Row> {
    let auto = |carry| burst_by(Settings { mode: 2, carry, ..WORKED }, 0.25, &HALVES);
    let ratio = Settings { gap_steps: 8, pre_timeout: 8, floats: [0.5, 2.0, 0.0, 0.0], ..WORKED };
    let short = halves("1 3 1 0");
    vec![
        ("Auto mode by 01", auto(None), short.clone()),
        ("Auto mode by 04, carry 1", auto(Some(1)), halves(CARRY)),
        ("the gap ratio by 01", burst_by(ratio, 0.25, &HALVES[..10]), short.replace("idle 21", "idle 19")),
        ("the gap ratio by 04", burst_by(Settings { carry: Some(1), ..ratio }, 0.25, &HALVES), halves(CARRY)),
    ]
}

/// a carry above 1 meets refusal 3, and settings and lane stay; 01 leaves carry off; without its last byte 04 meets refusal 2.
fn openings() -> Vec<Row> {
    let [plain, on, two, last] = [opening(MOST), carrying(1).command(), carrying(2).command(), carrying(255).command()];
    let other = Settings { max_pulses: 1, ..carrying(2) }.command();
    let calls = calls(10, &HALVES);
    let within = |at: usize| [&on[..], &calls[..at].concat(), &two, &calls[at..].concat()].concat();
    let all = calls.concat();
    let refused = |lines: String| format!("refused 3\n{lines}");
    vec![
        ("carry 2 after carry 1", [&on[..], &other, &all].concat(), refused(halves(CARRY))),
        ("carry 255 after 01", [&plain[..], &last, &all].concat(), refused(halves(PLAIN))),
        ("carry 2 in the lead", within(3), refused(halves(CARRY))),
        ("carry 2 in the burst", within(9), refused(halves(CARRY))),
        ("carry 2 before any settings", [two, begin(10, 0.0)].concat(), refused("refused 3\n".to_string())),
        ("01 after 04", [&on[..], &plain, &all].concat(), halves(PLAIN)),
        ("04 after 01", [&plain[..], &on, &all].concat(), halves(CARRY)),
        ("04 in a burst", [&on[..], &calls[..9].concat(), &on, &calls[9]].concat(), "refused 5\n".to_string()),
        ("04 without its carry", on[..38].to_vec(), "refused 2\n".to_string()),
        ("mode 3 by 04", Settings { mode: 3, ..carrying(1) }.command(), "refused 3\n".to_string()),
    ]
}

/// span is end minus index, or 0 if end is smaller, whatever the widths add up to. A cut train ends with the pulse that did
/// not fit.
fn spans() -> Vec<Row> {
    let carried = burst_by(Settings { long_steps: 6, ..WORKED }, 0.0, &CARRIED);
    let cut = burst_by(Settings { max_pulses: 1, ..WORKED }, 0.0, &TWO);
    let backward = burst_by(Settings { mode: 1, ..WORKED }, 1.0, &BACKWARD);
    rows([
        ("a carrier", carried, "ook 11 14 0 3 41000000 vector 40400000 00000000 1 3 3\ncarrier 23 41000000\n"),
        ("a cut train", cut, "ook 11 20 1 9 41000000 vector 40400000 00000000 1 3 3\nidle 21\n"),
        ("an end before the index", backward, "fsk 11 10 0 0 41000000 vector 00000000 00000000 0\nidle 16\n"),
    ])
}

/// R-13's close after these commands.
fn then_close(commands: &[u8]) -> Vec<u8> {
    [commands, &CLOSE].concat()
}

fn closed(envelopes: &[f32]) -> Vec<u8> {
    then_close(&burst(envelopes))
}

fn closed_by(settings: Settings, noise: f32, envelopes: &[f32]) -> Vec<u8> {
    then_close(&burst_by(settings, noise, envelopes))
}

/// What a close prints that finds the first pulse of `HELD`, by the gap behind it and the last index.
fn held(gap: u32, index: u64) -> String {
    format!("ook 11 14 0 3 41000000 vector 40400000 00000000 1 3 {gap}\nidle {index}\n")
}

/// where a close meets refusal 5, and what it prints in lead and in a burst that holds no pulse: the last accepted index and
/// nothing else. No close of a list meets refusal 8, since begin meets it for the same settings and buffers.
fn closes() -> Vec<Row> {
    let quiet = Settings { gap_steps: 20, pre_timeout: 20, ..WORKED };
    let refused = [burst(&[0.0]), step(12, 0.0), step(11, f32::NAN), begin(11, 0.0)].concat();
    let dropped = [burst(&HELD), opening(MOST)].concat();
    let no_room = [opening(2049), begin(0, 0.0)].concat();
    let m6 = "ook 11 15 0 4 41000000 vector 40800000 00000000 1 4 0\nidle 19\nrefused 5\n";
    rows([
        ("05 before settings", CLOSE.to_vec(), "refused 5\n"),
        ("05 after an opening", then_close(&opening(MOST)), "refused 5\n"),
        ("05 after an opening in a burst", then_close(&dropped), "refused 5\n"),
        ("05 after a refused begin", then_close(&no_room), "refused 8\nrefused 5\n"),
        ("05 after M6", closed(&M6), m6),
        ("05 after begin", closed(&HELD[..1]), "idle 10\n"),
        ("05 at the highest index", then_close(&[opening(MOST), begin(1 << 40, 0.0)].concat()), "idle 1099511627776\n"),
        ("05 in lead after a pulse", closed(&HELD[..6]), "idle 15\n"),
        ("05 in lead after refused calls", then_close(&refused), "refused 6\nrefused 7\nrefused 5\nidle 10\n"),
        ("05 after low samples", closed_by(quiet, 0.0, &[0.0; 8]), "idle 17\n"),
        ("05 in the first pulse", closed(&UNFINISHED[..7]), "idle 16\n"),
        ("05 after a low sample behind it", closed(&UNFINISHED), "idle 17\n"),
        ("05 and another command", [closed(&HELD[..1]), vec![9]].concat(), "idle 10\nrefused 1\n"),
        ("05 and a cut command", [closed(&HELD[..1]), vec![1, 0]].concat(), "idle 10\nrefused 2\n"),
    ])
}

/// closes of a burst that holds a train. A pulse is held from the second low sample behind it on, and the second sample of the
/// next pulse closes its gap.
fn closed_trains() -> Vec<Row> {
    let full = Settings { max_pulses: 1, ..WORKED };
    let two = "ook 11 20 0 9 41000000 vector 40c00000 00000000 2 3 3 3 0\nidle 21\n";
    let refused = [burst(&HELD[..7]), step(16, 0.0), step(17, f32::NAN), begin(17, 0.0)].concat();
    vec![
        ("05 in a gap", closed(&HELD[..7]), held(0, 16)),
        (
            "05 in a gap after refused calls",
            then_close(&refused),
            "refused 6\nrefused 7\nrefused 5\n".to_string() + &held(0, 16),
        ),
        ("05 after a high sample", closed(&HELD[..8]), held(0, 17)),
        ("05 in the next pulse", closed(&HELD), held(3, 19)),
        ("05 after a low sample behind the next pulse", closed(&TWO[..11]), held(3, 20)),
        ("05 after two low samples behind it", closed(&TWO), two.to_string()),
        ("05 with a full train", closed_by(full, 0.0, &HELD), held(3, 19)),
        ("05 twice", then_close(&closed(&HELD)), held(3, 19) + "refused 5\n"),
    ]
}

/// an unfinished frame is dropped, and a train held is decided all the same; a frame that the step before gave is not given
/// again. A train has the widths of the carry mode.
fn closed_modes() -> Vec<Row> {
    let by = |mode| Settings { mode, ..WORKED };
    let carry = |carry, envelopes: &[f32]| closed_by(Settings { carry, ..WORKED }, 0.0, envelopes);
    let at = |index: u64, widths: &str| halves(widths).replace("idle 21", &format!("idle {index}"));
    let frame = "fsk 10 14 0 4 41000000 vector 40400000 00000000 1 3 0\nidle 16\n";
    vec![
        ("FSK mode, 05 in lead", closed_by(by(1), 1.0, &HELD[..6]), "idle 15\n".to_string()),
        ("FSK mode, 05 in a frame", closed_by(by(1), 1.0, &UNFINISHED), "idle 17\n".to_string()),
        ("FSK mode, 05 after a frame", closed_by(by(1), 1.0, &HELD[..7]), frame.to_string()),
        ("Auto mode, 05 in lead", closed_by(by(2), 1.0, &HELD[..6]), "idle 15\n".to_string()),
        ("Auto mode, 05 in a gap", closed_by(by(2), 1.0, &HELD[..7]), held(0, 16)),
        ("Auto mode, 05 in a presence", closed_by(by(2), 1.0, &PRESENT), held(3, 19)),
        ("Auto mode, 05 in a frame", then_close(&tones()), held(3, 37)),
        ("half steps by 01, 05 in a gap", carry(None, &HALVES[..9]), at(18, PLAIN)),
        ("half steps by 04, 05 in a gap", carry(Some(1), &HALVES[..9]), at(18, CARRY)),
        ("half steps by 01, 05 in the next pulse", carry(None, &HALVES_HELD), at(20, "2 3 2 3")),
        ("half steps by 04, 05 in the next pulse", carry(Some(1), &HALVES_HELD), at(20, "2 2 2 2")),
    ]
}

/// after a close a step meets refusal 5, and the next burst is as after any other end.
fn after_closes() -> Vec<Row> {
    let then = |noise, commands| [then_close(commands), step(20, 0.0), noisy_calls(40, noise, &M6).concat()].concat();
    let then_m6 = |lines: &str| {
        let m6 = "ook 41 45 0 4 41000000 vector 40800000 00000000 1 4 0\nidle 49\n";
        format!("{lines}refused 5\n{m6}")
    };
    vec![
        ("M6 after a close in lead", then(0.0, &burst(&HELD[..6])), then_m6("idle 15\n")),
        ("M6 after a close in a pulse", then(0.0, &burst(&UNFINISHED)), then_m6("idle 17\n")),
        ("M6 after a close with a train", then(0.0, &burst(&HELD)), then_m6(&held(3, 19))),
        ("M6 after a close in a frame", then(1.0, &tones()), then_m6(&held(3, 37))),
    ]
}

fn rows<const N: usize>(rows: [(&'static str, Vec<u8>, &str); N]) -> Vec<Row> {
    rows.map(|(name, input, lines)| (name, input, lines.to_string())).into()
}

fn table() -> Vec<Row> {
    let twice = [burst(&M6), begin(30, 0.0), step(31, 0.0)].concat();
    rows([
        ("M6", burst(&M6), "ook 11 15 0 4 41000000 vector 40800000 00000000 1 4 0\nidle 19\n"),
        ("M7", burst(&M7), "ook 11 19 0 8 41000000 vector 40e00000 00000000 1 8 0\nidle 23\n"),
        ("M8", burst(&M8), "idle 16\n"),
        ("M8 and a minus zero", burst(&[-0.0; 7]), "idle 16\n"),
        ("M10, 0", opening(0), "refused 3\n"),
        ("M10, 1", opening(1), ""),
        ("M10, 65,536", opening(65_536), ""),
        ("M10, 65,537", opening(65_537), "refused 3\n"),
        ("no input", Vec::new(), ""),
        ("another command", vec![9, 1], "refused 1\n"),
        ("a cut command", opening(MOST)[..37].to_vec(), "refused 2\n"),
        ("begin before settings", begin(0, 0.0), "refused 3\n"),
        ("step before settings", step(0, 0.0), "refused 5\n"),
        ("begin in a burst", [burst(&[0.0]), begin(11, 0.0)].concat(), "refused 5\n"),
        ("step out of order", [burst(&[0.0]), step(12, 0.0)].concat(), "refused 6\n"),
        ("an index above the domain", [opening(MOST), begin((1 << 40) + 1, 0.0)].concat(), "refused 6\n"),
        ("no number", [burst(&[0.0]), step(11, f32::NAN)].concat(), "refused 7\n"),
        ("no room for the pulses", [opening(2049), begin(0, 0.0)].concat(), "refused 8\n"),
        ("M6, then a burst under way", twice, "ook 11 15 0 4 41000000 vector 40800000 00000000 1 4 0\nidle 19\n"),
    ])
}

fn run(program: &str) -> Result<String, String> {
    let rows = [table(), spans(), widths(), same(), modes(), openings()].concat();
    let closing = [closes(), closed_trains(), closed_modes(), after_closes()].concat();
    let rows = [rows, closing].concat();
    for (name, input, expected) in &rows {
        let got = printed(program, input).map_err(|e| format!("{name}: {e}"))?;
        if got != expected.as_bytes() {
            let got = String::from_utf8_lossy(&got);
            return Err(format!("{name}: {program} prints\n{got}expected\n{expected}"));
        }
    }
    Ok(format!("{} inputs print the documents' lines", rows.len()))
}

/// M6 to M8; R-1's two pulses, and again after a refused carry; its train with an edge before the one before; the two pulses by 01;
/// its 300 pulses.
fn written() -> Vec<u8> {
    let halves = calls(30, &HALVES).concat();
    let back = burst_by(Settings { min_steps: 4, ..carrying(1) }, 0.0, &BACK);
    let carried = [burst_by(carrying(1), 0.0, &HALVES), carrying(2).command(), halves, back].concat();
    let long = burst_by(Settings { max_pulses: 300, ..carrying(1) }, 0.0, &three_hundred());
    [burst(&M6), burst(&M7), burst(&M8), carried, burst(&HALVES), long].concat()
}

/// R-13's closes of an idle lane; in lead; in the first pulse; in a gap; in the next pulse, and once more; in carry mode; in a frame, and
/// after one, in FSK mode; in a frame in Auto mode.
fn written_closed() -> Vec<u8> {
    let fsk = |envelopes: &[f32]| closed_by(Settings { mode: 1, ..WORKED }, 1.0, envelopes);
    let plain = [closed(&HELD[..6]), closed(&UNFINISHED), closed(&HELD[..7]), then_close(&closed(&HELD))].concat();
    let carry = closed_by(carrying(1), 0.0, &HALVES_HELD);
    [CLOSE.to_vec(), plain, carry, fsk(&UNFINISHED), fsk(&HELD[..7]), then_close(&tones())].concat()
}

fn main() -> ExitCode {
    let program = std::env::args().nth(1).expect("worked_bursts PROGRAM");
    let stream = match program.as_str() {
        "--write" => written(),
        "--write-closed" => written_closed(),
        _ => return verdict::told(run(&program)),
    };
    if std::io::stdout().write_all(&stream).is_ok() { ExitCode::SUCCESS } else { ExitCode::FAILURE }
}
