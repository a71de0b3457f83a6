//! The sequences that are compared on streams: the listed cases, all short ones, random ones, and ones that need much room; and states
//! of another length than a stream's.

use crate::library::{self, STATE};
use crate::random::Random;
use crate::report::{NOT_THE_RULES, Report, listed_cases, shrunk};
use crate::said::Said;
use crate::stream_calls::library_does;
use crate::streams::{Outcome, Sequence, Sides};
use crate::wrong::Wrong;
use answers::BETWEEN_LINES;
use line::{Start, StreamLine, stream_line, words};

/// The smallest sequence of each listed class of departures on streams.
pub fn listed_sequences(list: &str, wrong: Option<Wrong>, report: &mut Report) {
    for case in listed_cases(list) {
        let lines: Vec<String> = case.split(BETWEEN_LINES).map(str::to_string).collect();
        let Some(StreamLine::New(Start { start, room, byte })) =
            words(lines[0].as_bytes()).and_then(|head| stream_line(&head))
        else {
            continue;
        };
        let sequence = Sequence { start: start as u32, room, byte, as_list: false, lines: lines[1..].to_vec() };
        let outcome = Sides::of(&sequence, wrong);
        add(sequence, outcome, wrong, report);
    }
}

/// The calls and the rooms of which all short sequences are made.
const FEW_CALLS: &[&str] = &[
    "begin 0",
    "begin 1",
    "begin 2",
    "unbounded",
    "empty",
    "put8 128",
    "bytes 61*54",
    "raw 05c0 2",
    "raw c105 1",
    "checked 05 1 3",
    "finalize",
    "clear",
];
const FEW_ROOMS: &[usize] = &[0, 1, 2, 3, 4, 6, 58, 59, 120];

/// All sequences of so many of these calls in each of these rooms. Shorter ones are their beginnings.
pub fn all_sequences(calls: usize, wrong: Option<Wrong>, report: &mut Report) {
    report.begin_part(&format!(
        "Streams, all sequences of {calls} of {} calls in {} rooms",
        FEW_CALLS.len(),
        FEW_ROOMS.len()
    ));
    for number in 0..FEW_CALLS.len().pow(calls as u32) {
        let call = |place: usize| FEW_CALLS[number / FEW_CALLS.len().pow(place as u32) % FEW_CALLS.len()].to_string();
        let lines: Vec<String> = (0..calls).map(call).collect();
        for room in FEW_ROOMS {
            let sequence = Sequence { start: 0, room: *room, byte: 0xa5, as_list: false, lines: lines.clone() };
            let outcome = Sides::of(&sequence, wrong);
            add(sequence, outcome, wrong, report);
        }
    }
    report.end_part();
}

/// Random sequences.
pub fn sequences(number: usize, random: &mut Random, wrong: Option<Wrong>, report: &mut Report) {
    report.begin_part("Streams, random sequences");
    for _ in 0..number {
        let Sides { sequence, outcome, .. } = random.sequence(wrong);
        add(sequence, outcome, wrong, report);
    }
    report.end_part();
}

/// What one sequence showed.
fn add(sequence: Sequence, outcome: Outcome, wrong: Option<Wrong>, report: &mut Report) {
    report.input();
    report.results(outcome.results, outcome.with_r);
    outcome.refusals.iter().for_each(|number| report.refusal(Said::No(*number)));
    if let Some((class, answered)) = outcome.departure {
        report.departure(class, &answered);
    }
    if let Some((sort, text)) = outcome.unlisted {
        let size = sequence.lines.len();
        report.unlisted(sort.clone(), size, || smallest(sequence, &sort, text, wrong));
    }
}

fn smallest(sequence: Sequence, sort: &str, text: String, wrong: Option<Wrong>) -> (usize, String) {
    let found = |sequence: &Sequence| Sides::of(sequence, wrong).unlisted.filter(|(other, _)| other == sort);
    let sequence = shrunk(sequence, Sequence::smaller, |sequence| found(sequence).is_some());
    let text = found(&sequence).map_or(text, |(_, text)| text);
    (sequence.lines.len(), text)
}

/// Rare sequences that need much room: buffers and values at the limit of bytes and above it, and lists on the far bounds.
pub fn large_sequences(wrong: Option<Wrong>, report: &mut Report) {
    report.begin_part("Streams, at the limit of bytes and on the far bounds");
    for room in [1_048_576, 1_048_577] {
        for length in [1_048_571, 1_048_572, 1_048_573, 1_048_576, 1_048_577] {
            large(room, &["begin 1".to_string(), format!("bytes 61*{length}")], wrong, report);
            large(room, &[format!("bytes 61*{length}"), "len".to_string()], wrong, report);
            large(room, &[format!("raw 01*{length} {length}")], wrong, report);
        }
    }
    for length in [254, 255, 256, 257, 65_531, 65_532, 65_533, 65_534, 65_535, 65_536] {
        let inner = ["begin 2".to_string(), "unbounded".to_string(), format!("bytes 61*{length}")];
        let outer = ["finalize", "empty", "out"].map(str::to_string);
        large(70_000, &[&inner[..], &outer[..]].concat(), wrong, report);
    }
    report.end_part();
}

fn large(room: usize, lines: &[String], wrong: Option<Wrong>, report: &mut Report) {
    let sequence = Sequence { start: 0, room, byte: 0xa5, as_list: false, lines: lines.to_vec() };
    let outcome = Sides::of(&sequence, wrong);
    add(sequence, outcome, wrong, report);
}

/// The longest slice of bytes.
const LIMIT: usize = rules::MOST_BYTES as usize;

/// One line of each call, and some over the limit of bytes.
const EVERY_CALL: &[&str] = &[
    "begin 0",
    "begin 1",
    "unbounded",
    "empty",
    "bytes 61",
    "bytes 61*1048577",
    "put8 5",
    "put16 5",
    "put32 5",
    "put64 5",
    "putbool 1",
    "raw 05 1",
    "raw 05*1048577 1",
    "checked 05 1 9",
    "checked 05*1048577 1 9",
    "finalize",
    "clear",
    "len",
    "estimate 1",
    "estimate 1048577",
    "finished",
    "isempty",
    "out",
    "raws",
];

/// States that have not 51 numbers: "another length [..] is 20", after 12. R has no state to hand in.
pub fn other_lengths(report: &mut Report) {
    report.begin_part("Streams, states of another length");
    for numbers in (0..STATE).chain([STATE + 1, 2 * STATE]) {
        of_other_length(numbers, 8, report);
    }
    of_other_length(STATE - 1, LIMIT + 1, report);
    of_other_length(STATE + 1, LIMIT + 1, report);
    report.end_part();
}

fn of_other_length(numbers: usize, room: usize, report: &mut Report) {
    EVERY_CALL.iter().for_each(|line| other_length(numbers, room, line, report));
    let mut stream = library::Stream { state: vec![0; numbers], buffer: vec![0; room] };
    let told = Said::No(if room > LIMIT { 12 } else { 20 });
    judge(stream.new_list(0, 1), told, "new_list", numbers, report);
    judge(stream.start(0), Said::No(20), "new", numbers, report);
}

fn other_length(numbers: usize, room: usize, line: &str, report: &mut Report) {
    let words = words(line.as_bytes()).expect("a line of a stream");
    let Some(StreamLine::Of(work)) = stream_line(&words) else { panic!("a line of a stream: {line}") };
    let mut stream = library::Stream { state: vec![0; numbers], buffer: vec![0; room] };
    let before = stream.clone();
    let told = Said::No(if room > LIMIT || line.contains("1048577") { 12 } else { 20 });
    let ours = library_does(&mut stream, &work);
    let ours = if stream == before { ours } else { Said::Odd(0) };
    judge(ours, told, line, numbers, report);
}

fn judge(ours: Said, told: Said, line: &str, numbers: usize, report: &mut Report) {
    report.input();
    report.results(1, 0);
    report.refusal(ours);
    if ours != told {
        let text = format!("{line} with a state of {numbers} numbers | rules: {told:?} | library: {ours:?}");
        report.unlisted(format!("{NOT_THE_RULES}: a state of another length"), numbers, || (numbers, text));
    }
}
