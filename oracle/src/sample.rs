//! Writes the sample: `sample STDIN STDOUT READING -- AMENDING [-- STREAM_LINES STREAMS]`, where the last of each part is
//! `PICKED CASES DEBUG RELEASE MODEL`: files with the picked lines, the cases and the answers to them. STDIN gets the cases that
//! the case maker picked and some of every class of departures, STDOUT the answers that they must get: R's, or the model's where
//! R departs from the rules or cannot be asked. The last part is for streams, of which whole sequences are taken, at most
//! STREAM_LINES lines of them.

mod stream_sample;

use answers::{Answered, Answers};
use departures::{Case, classes, classes_of};
use std::collections::HashSet;
use std::fs;
use std::io;

const HEAD: &str =
    "# A sample of the cases of the oracle. `oracle/run --sample` makes this file and the answers in `stdout`.\n";

/// A longer departure than this is left out of the sample, unless the case maker picked it.
const LONGEST_DEPARTURE: usize = 200;

fn main() -> io::Result<()> {
    let arguments: Vec<String> = std::env::args().skip(1).collect();
    let parts: Vec<&[String]> = arguments.split(|argument| argument == "--").collect();
    let [[stdin, stdout, reading @ ..], amending, streams @ ..] = &parts[..] else { panic!("usage: see above") };
    let mut lines = HEAD.to_string();
    let mut answers = String::new();
    for part in [reading, amending] {
        let [picked, files @ ..] = part else { panic!("files are missing: {part:?}") };
        let mut picked = picked_numbers(picked)?;
        picked.extend(picked_departures(&mut Answers::open(files)?)?);
        lines += &picked_lines(&files[0], &picked)?;
        answers += &expected_answers(&mut Answers::open(files)?, &picked)?;
    }
    if let [[most_lines, picked, files @ ..]] = streams {
        let most_lines = most_lines.parse().expect("a number of lines");
        let sample = stream_sample::sample(&mut Answers::open(files)?, &picked_numbers(picked)?, most_lines)?;
        lines += &sample.lines;
        answers += &sample.answers;
    }
    fs::write(stdin, lines)?;
    fs::write(stdout, answers)
}

/// The numbers of the lines that the case maker picked.
fn picked_numbers(path: &str) -> io::Result<HashSet<usize>> {
    let numbers = fs::read_to_string(path)?;
    Ok(numbers.lines().map(|number| number.parse().expect("a line number")).collect())
}

/// The numbers of lines of each class of departures: the first, the second, the fourth, and so on, so that they come from
/// every part of the set.
fn picked_departures(answers: &mut Answers) -> io::Result<Vec<usize>> {
    let mut picked = Vec::new();
    let mut departures = Departures::new();
    let mut answered = Answered::default();
    while answers.next(&mut answered)? {
        if answered.departs() && answered.case.len() <= LONGEST_DEPARTURE && departures.takes(&answered) {
            picked.push(answered.number);
        }
    }
    Ok(picked)
}

/// How many departures of each class there were.
struct Departures(Vec<usize>);

impl Departures {
    fn new() -> Departures {
        Departures(vec![0; classes().count()])
    }

    /// Whether a departure is the first of its class, the second, the fourth, and so on.
    fn takes(&mut self, answered: &Answered) -> bool {
        let mut takes = false;
        for class in classes_of(&Case::of(answered).expect("a departure is no malformed line")) {
            self.0[class] += 1;
            takes |= self.0[class].is_power_of_two();
        }
        takes
    }
}

fn picked_lines(cases: &str, picked: &HashSet<usize>) -> io::Result<String> {
    let cases = fs::read_to_string(cases)?;
    let lines = cases.lines().enumerate().filter(|(index, _)| picked.contains(&(index + 1)));
    Ok(lines.map(|(_, line)| line.to_string() + "\n").collect())
}

/// What the picked lines must be answered.
fn expected_answers(answers: &mut Answers, picked: &HashSet<usize>) -> io::Result<String> {
    let mut expected = String::new();
    let mut answered = Answered::default();
    while answers.next(&mut answered)? {
        if picked.contains(&answered.number) {
            expected += expected_answer(&answered);
            expected += "\n";
        }
    }
    Ok(expected)
}

fn expected_answer(answered: &Answered) -> &str {
    if answered.departs() || answered.without_r() { &answered.model } else { &answered.release }
}
