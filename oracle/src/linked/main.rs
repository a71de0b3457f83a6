//! The library and R in one program: `linked DEPARTURES all|quick|wrong SEED`. It asks both, and a model of the rules, the same
//! questions and compares result by result. DEPARTURES is the list of departures; `wrong` tries whether wrong answers are found.
//! Ends with status 0 if the library answered as the rules everywhere and as R but for listed differences, else with 1.

mod amendings;
mod caught;
mod encodings;
mod inputs;
mod library;
mod r_reading;
mod random;
mod reading;
mod report;
mod said;
mod sequences;
mod stream_calls;
mod stream_parts;
mod streams;
mod wrong;

use random::Random;
use report::Report;
use std::process::exit;
use wrong::{Part, TRIALS, Trial};

/// How much is compared: the numbers of random inputs of each part.
struct Amount {
    /// The length up to which all inputs are read.
    longest: usize,
    inputs: usize,
    /// The calls of the sequences of which all are done.
    calls: usize,
    sequences: usize,
    amendings: usize,
    encodings: usize,
}

const ALL: Amount =
    Amount { longest: 3, inputs: 3_000_000, calls: 4, sequences: 200_000, amendings: 400_000, encodings: 200_000 };
const QUICK: Amount =
    Amount { longest: 2, inputs: 150_000, calls: 2, sequences: 10_000, amendings: 20_000, encodings: 10_000 };

/// How much is compared to find a wrong answer: all inputs of so many bytes, and so many random ones.
const TRIED_LENGTH: usize = 2;
const TRIED: usize = 300;

fn main() {
    let arguments: Vec<String> = std::env::args().skip(1).collect();
    let [departures, how, seed] = &arguments[..] else { panic!("usage: linked DEPARTURES all|quick|wrong SEED") };
    let list = std::fs::read_to_string(departures).expect("the list of departures can be read");
    let seed: u64 = seed.parse().expect("SEED is a number");
    caught::keep_silent();
    let right = match how.as_str() {
        "all" => compared(&ALL, seed, &list),
        "quick" => compared(&QUICK, seed, &list),
        "wrong" => every_wrong_is_found(seed),
        _ => panic!("the second word is all, quick or wrong"),
    };
    exit(if right { 0 } else { 1 });
}

fn compared(amount: &Amount, seed: u64, list: &str) -> bool {
    let mut report = Report::new(false);
    let random = &mut Random(seed);
    report.begin_part("The listed case of each class of departures");
    reading::listed_inputs(list, None, &mut report);
    stream_parts::listed_sequences(list, None, &mut report);
    report.end_part();
    reading::all_inputs(amount.longest, None, &mut report);
    reading::random_inputs(amount.inputs, random, None, &mut report);
    reading::large_inputs(None, &mut report);
    reading::totals(amount.inputs, random, &mut report);
    encodings::encodings(amount.encodings, random, None, &mut report);
    stream_parts::all_sequences(amount.calls, None, &mut report);
    stream_parts::sequences(amount.sequences, random, None, &mut report);
    stream_parts::large_sequences(None, &mut report);
    stream_parts::other_lengths(&mut report);
    amendings::amendings(amount.amendings, random, None, &mut report);
    amendings::large_amendings(None, &mut report);
    report.hold_against(list);
    report.conclude()
}

/// Puts one wrong answer after the other in the place of right ones, and sees whether each is reported, and nothing else.
fn every_wrong_is_found(seed: u64) -> bool {
    let missed = TRIALS.iter().filter(|trial| !is_found(trial, seed)).count();
    println!("Wrong answers tried: {}, found: {}.", TRIALS.len(), TRIALS.len() - missed);
    missed == 0
}

fn is_found(trial: &Trial, seed: u64) -> bool {
    let mut report = Report::new(true);
    let random = &mut Random(seed);
    let wrong = Some(trial.wrong);
    match trial.part {
        Part::Reading => reading::all_inputs(TRIED_LENGTH, wrong, &mut report),
        Part::Encodings => encodings::encodings(TRIED, random, wrong, &mut report),
        Part::Streams => stream_parts::sequences(TRIED, random, wrong, &mut report),
        Part::Amendings => amendings::amendings(TRIED, random, wrong, &mut report),
    }
    let sorts: Vec<String> = report.unlisted_sorts().collect();
    let found = !sorts.is_empty() && sorts.iter().all(|sort| sort.contains(trial.shows_in));
    println!("  {:?}: {} {}", trial.wrong, if found { "found:" } else { "NOT FOUND, but:" }, sorts.join("; "));
    found
}
