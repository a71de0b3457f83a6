//! Compares the answers of every side: `compare DEPARTURES HOW CASES DEBUG RELEASE MODEL [LIBRARY] [-- ..]`, where the last are
//! files or pipes with the cases and the answers to them; after `--` another set of them may follow.
//! R's two builds must answer as the model does, save on the classes of departures, and the library must answer as the model
//! does everywhere. HOW says how the departures are held against the list in the file DEPARTURES: `smallest`, `numbers`
//! (the smallest cases and the numbers of cases), `part` (nothing smaller than listed) or `write` (the list is made anew).
//! Ends with status 0 if there was no difference, else with 1.

use answers::{Answered, Answers, BETWEEN_LINES};
use departures::Case;
use line::{AMEND, StreamLine, Work};
use rules::Place;
use std::collections::{BTreeMap, HashMap, HashSet};
use std::fs;
use std::io;
use std::process::exit;
use tally::{Against, Tally};

/// How many files a set has without the library's answers.
const WITHOUT_LIBRARY: usize = 4;

/// How many differences of a kind are written out.
const WRITTEN_OUT: usize = 20;

/// How many characters of a long difference are written out, at its start and at its end.
const SHOWN: usize = 250;

fn main() -> io::Result<()> {
    let arguments: Vec<String> = std::env::args().skip(1).collect();
    let [departures, how, files @ ..] = &arguments[..] else { panic!("usage: compare DEPARTURES HOW FILES..") };
    let sets: Vec<&[String]> = files.split(|file| file == "--").collect();
    let comparison = compared(&sets, departures, how)?;
    comparison.report();
    if !comparison.found.is_empty() {
        exit(1);
    }
    let sides = match sets.iter().filter(|set| set.len() > WITHOUT_LIBRARY).count() {
        0 => "R and the rules (the library was not run)",
        number if number == sets.len() => "R, the rules and the library",
        _ => "R, the rules and the library (which was not run on every set)",
    };
    println!("No difference between {sides}, save the listed departures.");
    Ok(())
}

fn compared(sets: &[&[String]], departures: &str, how: &str) -> io::Result<Comparison> {
    let mut comparison = Comparison::new();
    for set in sets {
        comparison.add_set(&mut Answers::open(set)?)?;
    }
    match how {
        "smallest" => comparison.hold_against(departures, &Against::Smallest)?,
        "numbers" => comparison.hold_against(departures, &Against::SmallestAndNumbers)?,
        "part" => comparison.hold_against(departures, &Against::NothingSmaller)?,
        "write" => comparison.write_list(departures)?,
        _ => panic!("HOW is smallest, numbers, part or write"),
    }
    Ok(comparison)
}

#[derive(Default)]
struct Counts {
    cases: usize,
    departures: usize,
    without_r: usize,
}

/// The differences of one kind: how many, and the first of them.
#[derive(Default)]
struct Found {
    number: usize,
    first: Vec<String>,
}

struct Comparison {
    tally: Tally,
    /// The answers that are written by hand, by the line, on a stream with the lines before it.
    by_hand: HashMap<String, &'static str>,
    /// Those of them that the model was held against.
    held_by_hand: HashSet<String>,
    /// For each call, what there was.
    counts: BTreeMap<String, Counts>,
    /// The differences by kind.
    found: BTreeMap<&'static str, Found>,
}

impl Comparison {
    fn new() -> Comparison {
        let by_hand = by_hand::lines().into_iter().filter_map(|(line, answer)| Some((line, answer?)));
        let by_hand = by_hand.chain(by_hand::streams().iter().flat_map(by_sequence)).collect();
        let (held_by_hand, counts, found) = (HashSet::new(), BTreeMap::new(), BTreeMap::new());
        Comparison { tally: Tally::new(), by_hand, held_by_hand, counts, found }
    }

    fn add_set(&mut self, answers: &mut Answers) -> io::Result<()> {
        let mut answered = Answered::default();
        while answers.next(&mut answered)? {
            self.add(&answered);
        }
        if answers.surplus()? {
            self.difference("The answers do not fit the cases", || "there are more answers than cases".to_string());
        }
        Ok(())
    }

    fn add(&mut self, answered: &Answered) {
        self.count(answered);
        if answered.lacks_answer() {
            self.difference("A side gave no answer", || answered.written());
        }
        if answered.departs() && !self.tally.add(answered) {
            self.difference("R departs from the rules, and not in one class of departures", || answered.written());
        }
        if answered.without_r() && !cannot_be_asked(answered) {
            self.difference("R can be asked this and has no answer", || answered.written());
        }
        self.hold_by_hand(answered);
        if let Some(library) = answered.library.as_ref().filter(|library| **library != answered.model) {
            let text = || format!("{} | library: {library} | rules: {}", answered.sequence(), answered.model);
            self.difference("The library departs from the rules", text);
        }
    }

    fn hold_by_hand(&mut self, answered: &Answered) {
        let sequence = answered.sequence();
        let Some(by_hand) = self.by_hand.get(&*sequence).copied() else { return };
        if by_hand != answered.model {
            let text = || format!("{sequence} | by hand: {by_hand} | rules: {}", answered.model);
            self.difference("The model answers otherwise than written by hand", text);
        }
        self.held_by_hand.insert(sequence.into_owned());
    }

    fn count(&mut self, answered: &Answered) {
        let call = answered.call();
        if !self.counts.contains_key(call) {
            self.counts.insert(call.to_string(), Counts::default());
        }
        let counts = self.counts.get_mut(call).expect("it is there now");
        counts.cases += 1;
        counts.departures += usize::from(answered.departs());
        counts.without_r += usize::from(answered.without_r());
    }

    fn difference(&mut self, kind: &'static str, text: impl Fn() -> String) {
        let found = self.found.entry(kind).or_default();
        found.number += 1;
        if found.first.len() < WRITTEN_OUT {
            found.first.push(text());
        }
    }

    fn hold_against(&mut self, path: &str, against: &Against) -> io::Result<()> {
        for difference in self.tally.differences(&fs::read_to_string(path)?, against) {
            self.difference("The departures are other than listed", || difference.clone());
        }
        if *against != Against::NothingSmaller {
            self.everything_shows();
        }
        Ok(())
    }

    /// Every class of departures, and every answer that is written by hand.
    fn everything_shows(&mut self) {
        for class in self.tally.without_case() {
            self.difference("A class of departures shows in no case", || class.clone());
        }
        let lines: Vec<String> =
            self.by_hand.keys().filter(|line| !self.held_by_hand.contains(*line)).cloned().collect();
        for line in lines {
            self.difference("A line with an answer written by hand is no case", || line.clone());
        }
    }

    /// Makes the list anew, if nothing but departures is different.
    fn write_list(&mut self, path: &str) -> io::Result<()> {
        self.everything_shows();
        if self.found.is_empty() { fs::write(path, self.tally.list()) } else { Ok(()) }
    }

    fn report(&self) {
        println!("{:<12} {:>10} {:>12} {:>12}", "call", "cases", "departures", "without R");
        let row = |call: &str, counts: &Counts| {
            println!("{call:<12} {:>10} {:>12} {:>12}", counts.cases, counts.departures, counts.without_r);
        };
        let mut all = Counts::default();
        for (call, counts) in &self.counts {
            row(call, counts);
            all.cases += counts.cases;
            all.departures += counts.departures;
            all.without_r += counts.without_r;
        }
        row("in all", &all);
        println!("Without R are the strict checks, for R has none, the cases with a place that R cannot be given, the");
        println!("amendings that the rules refuse, and `show`, `state` and all that follows a `state` or a departure");
        println!("on the same stream.");
        println!("The model was held against {} answers written by hand.", self.held_by_hand.len());
        println!("\n{:>12} class of departures", "cases");
        self.tally.numbers().iter().for_each(|(cases, class)| println!("{cases:>12} {class}"));
        for (kind, found) in &self.found {
            println!("\n{kind}: {}", found.number);
            found.first.iter().for_each(|text| println!("  {}", shortened(text)));
        }
        println!();
    }
}

/// The answers to a stream's lines, each beside its line and those before it, as `Answered` writes them.
fn by_sequence(lines: &by_hand::Sequence) -> Vec<(String, &'static str)> {
    let texts: Vec<&str> = lines.iter().map(|(line, _)| line.as_str()).collect();
    let answers = lines.iter().map(|(_, answer)| *answer).enumerate();
    answers.map(|(index, answer)| (texts[..=index].join(BETWEEN_LINES), answer)).collect()
}

/// Whether R cannot be asked a case: it is a strict check, or the place is none that a fresh `at` gives, which R and the rules
/// answer alike; or it is an amending that the rules refuse; or a line of a stream that cannot be told to R.
fn cannot_be_asked(answered: &Answered) -> bool {
    if answered.of_stream() {
        return cannot_be_told(answered);
    }
    if answered.call() == AMEND {
        return answered.is_refused_amending();
    }
    let Some(case) = Case::of(answered) else { return false };
    if case.call == "strict" {
        return true;
    }
    let [_, known, offset] = case.numbers[..] else { return false };
    let place = Place { index: known.into(), offset: offset.into() };
    rules::at(&case.bytes, place.index, None).map(|(start, _)| start) != Ok(place.offset)
}

/// Whether a line of a stream cannot be told to R: R has lost the stream, or it is to show or to set a state, or to start past
/// the buffer's end.
fn cannot_be_told(answered: &Answered) -> bool {
    let line = line::words(answered.case.as_bytes()).and_then(|words| line::stream_line(&words));
    let by_itself = match line {
        Some(StreamLine::New(start)) => start.start > start.room as u64,
        Some(StreamLine::Of(work)) => matches!(work, Work::Show | Work::State(_)),
        None => false,
    };
    answered.lost || by_itself
}

/// A text without its middle, if it is long.
fn shortened(text: &str) -> String {
    let characters: Vec<char> = text.chars().collect();
    if characters.len() <= 2 * SHOWN {
        return text.to_string();
    }
    let (start, end) = (&characters[..SHOWN], &characters[characters.len() - SHOWN..]);
    format!("{} ... {}", start.iter().collect::<String>(), end.iter().collect::<String>())
}
