//! The part of the sample that is about streams: whole sequences, short ones.

use crate::{Departures, expected_answer};
use answers::{Answered, Answers};
use std::collections::HashSet;
use std::io;

const HEADING: &str = "# Streams.\n";

/// A sequence with more characters than this, answers included, is left out.
const LONGEST_SEQUENCE: usize = 3_000;

/// Lines, and the answers that they must get.
#[derive(Default)]
pub struct Lines {
    pub lines: String,
    pub answers: String,
}

/// A sequence while it is read: from its line `stream` to the next.
#[derive(Default)]
struct Sequence {
    lines: Lines,
    is_picked: bool,
}

/// Sequences with answers written by hand first, then those that the case maker picked and some of every class of departures; at
/// most so many lines.
pub fn sample(answers: &mut Answers, picked: &HashSet<usize>, most_lines: usize) -> io::Result<Lines> {
    let by_hand: HashSet<String> = by_hand::streams().iter().map(text).collect();
    let sequences = picked_sequences(answers, picked)?;
    let (by_hand, others) = sequences.into_iter().partition(|sequence| by_hand.contains(&sequence.lines));
    let mut sample = thinned(by_hand, most_lines);
    let others = thinned(others, most_lines - sample.count());
    sample.lines = HEADING.to_string() + &sample.lines + &others.lines;
    sample.answers += &others.answers;
    Ok(sample)
}

fn text(sequence: &by_hand::Sequence) -> String {
    sequence.iter().map(|(line, _)| line.clone() + "\n").collect()
}

/// All sequences, or every second, every third and so on, so that there are at most so many lines.
fn thinned(sequences: Vec<Lines>, most_lines: usize) -> Lines {
    let lines = |step: usize| sequences.iter().step_by(step).map(Lines::count).sum::<usize>();
    let mut thinned = Lines::default();
    let Some(step) = (1..=sequences.len()).find(|step| lines(*step) <= most_lines) else { return thinned };
    for sequence in sequences.iter().step_by(step) {
        thinned.lines += &sequence.lines;
        thinned.answers += &sequence.answers;
    }
    thinned
}

fn picked_sequences(answers: &mut Answers, picked: &HashSet<usize>) -> io::Result<Vec<Lines>> {
    let mut sequences = Vec::new();
    let mut departures = Departures::new();
    let mut sequence = Sequence::default();
    let mut answered = Answered::default();
    while answers.next(&mut answered)? {
        if answered.call() == "stream" {
            sequences.extend(std::mem::take(&mut sequence).taken());
        }
        sequence.is_picked |= picked.contains(&answered.number);
        if answered.departs() && sequence.is_short(&answered) {
            sequence.is_picked |= departures.takes(&answered);
        }
        sequence.add(&answered);
    }
    sequences.extend(sequence.taken());
    Ok(sequences)
}

impl Sequence {
    /// Whether it stays short with this line.
    fn is_short(&self, answered: &Answered) -> bool {
        self.lines.length() + answered.case.len() + expected_answer(answered).len() <= LONGEST_SEQUENCE
    }

    fn add(&mut self, answered: &Answered) {
        self.lines.lines += &(answered.case.clone() + "\n");
        self.lines.answers += &(expected_answer(answered).to_string() + "\n");
    }

    fn taken(self) -> Option<Lines> {
        Some(self.lines).filter(|lines| self.is_picked && lines.length() <= LONGEST_SEQUENCE)
    }
}

impl Lines {
    fn count(&self) -> usize {
        self.lines.lines().count()
    }

    /// How many characters there are.
    fn length(&self) -> usize {
        self.lines.len() + self.answers.len()
    }
}
