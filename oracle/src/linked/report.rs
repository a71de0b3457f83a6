//! What a run finds: how much each part compared, the listed differences from R by their class with the smallest input of each,
//! and every other difference, with its smallest input too.

use crate::said::Said;
use answers::Answered;
use departures::{Case, Size, classes, classes_of};
use std::collections::BTreeMap;
use std::io::{Write, stdout};
use std::time::Instant;
use tally::{listed_size, title};

/// How many characters of a long case are written, at its start and at its end.
const SHOWN: usize = 300;

/// The answers to one question.
#[derive(Clone, Copy)]
pub struct Three {
    pub ours: Said,
    pub rules: Said,
    /// `None`: R cannot be asked this.
    pub r: Option<Said>,
}

impl Three {
    pub fn agree(&self) -> bool {
        self.ours == self.rules && self.r.is_none_or(|r| r == self.rules)
    }

    /// The case with its answers, as the classes of departures take them.
    pub fn answered(&self, call: &str, case: String, before: Vec<String>) -> Answered {
        let release = self.r.map_or("none".to_string(), |r| r.text(call));
        let (debug, library) = (release.clone(), Some(self.ours.text(call)));
        Answered { case, before, debug, release, model: self.rules.text(call), library, ..Answered::default() }
    }

    /// What makes this a difference that is in no list, given the class of R's departure.
    pub fn unlisted(&self, class: Option<usize>) -> Option<&'static str> {
        if self.ours != self.rules {
            return Some(NOT_THE_RULES);
        }
        let r_departs = self.r.is_some_and(|r| r != self.rules);
        (r_departs && class.is_none()).then_some(IN_NO_CLASS)
    }
}

pub const NOT_THE_RULES: &str = "the library departs from the rules";
pub const IN_NO_CLASS: &str = "the library differs from R, in no listed class";

/// The class that R's departure is in. A class says what R answers in both its builds. The one with overflow checks is not in this
/// program: it answers the same, or panics.
pub fn class_of(answered: &mut Answered) -> Option<(usize, Size)> {
    for debug in [answered.release.clone(), "panic".to_string()] {
        answered.debug = debug;
        let case = Case::of(answered)?;
        if let [class] = classes_of(&case)[..] {
            return Some((class, case.size()));
        }
    }
    None
}

/// What was seen of each class, in the order of `classes`.
struct Seen(Vec<OfClass>);

#[derive(Default)]
struct OfClass {
    cases: u64,
    smallest: Option<(Size, String)>,
}

impl Seen {
    fn new() -> Seen {
        Seen(classes().map(|_| OfClass::default()).collect())
    }

    fn add(&mut self, class: usize, size: Size, answered: &Answered) {
        let seen = &mut self.0[class];
        seen.cases += 1;
        if seen.smallest.as_ref().is_none_or(|(smallest, _)| size < *smallest) {
            seen.smallest = Some((size, written(answered)));
        }
    }

    fn cases(&self) -> u64 {
        self.0.iter().map(|seen| seen.cases).sum()
    }

    fn print(&self, before_title: &str) {
        for (class, seen) in classes().zip(&self.0) {
            if let Some((_, smallest)) = &seen.smallest {
                println!("  {:>9}  {before_title}{}\n             smallest: {smallest}", seen.cases, title(class));
            }
        }
    }
}

/// A case with the answers of the sides that are in this program.
pub fn written(answered: &Answered) -> String {
    let library = answered.library.as_deref().unwrap_or_default();
    let sequence = answered.sequence();
    format!("{} | R: {} | rules: {} | library: {library}", cut(&sequence), answered.release, answered.model)
}

/// A text, without its middle if it is long.
pub fn cut(text: &str) -> String {
    if text.len() <= 2 * SHOWN {
        return text.to_string();
    }
    format!("{} .. {}", &text[..SHOWN], &text[text.len() - SHOWN..])
}

/// The differences of one sort that is no class.
#[derive(Default)]
struct Sort {
    cases: u64,
    /// The length of the smallest case, and its text.
    smallest: Option<(usize, String)>,
}

impl Sort {
    fn smallest_text(&self) -> &str {
        self.smallest.as_ref().map_or("", |(_, text)| text)
    }
}

/// How many refusals the rules number.
const REFUSALS: usize = 20;

pub struct Report {
    seen: Seen,
    seen_after_refusal: Seen,
    /// Differences of a listed kind, in calls that the list of departures does not have.
    listed: BTreeMap<&'static str, Sort>,
    unlisted: BTreeMap<String, Sort>,
    /// How often the library gave each refusal; the first number is of any other.
    refusals: [u64; REFUSALS + 1],
    counts: Counts,
    all: Counts,
    since: Instant,
    quiet: bool,
}

#[derive(Default, Clone, Copy)]
pub struct Counts {
    pub inputs: u64,
    /// Results compared between the library and the rules, and those of them that R gave too.
    pub results: u64,
    pub with_r: u64,
}

impl Report {
    /// A quiet one writes nothing of its parts.
    pub fn new(quiet: bool) -> Report {
        Report {
            seen: Seen::new(),
            seen_after_refusal: Seen::new(),
            listed: BTreeMap::new(),
            unlisted: BTreeMap::new(),
            refusals: [0; REFUSALS + 1],
            counts: Counts::default(),
            all: Counts::default(),
            since: Instant::now(),
            quiet,
        }
    }

    pub fn begin_part(&mut self, name: &str) {
        self.counts = Counts::default();
        self.since = Instant::now();
        self.show(&format!("{name}: "));
    }

    /// Shows that a long part goes on.
    pub fn dot(&self) {
        self.show(".");
    }

    fn show(&self, text: &str) {
        if !self.quiet {
            print!("{text}");
            let _ = stdout().flush();
        }
    }

    pub fn end_part(&mut self) {
        let Counts { inputs, results, with_r } = self.counts;
        self.all.inputs += inputs;
        self.all.results += results;
        self.all.with_r += with_r;
        let seconds = self.since.elapsed().as_secs();
        self.show(&format!("{inputs} inputs, {results} results compared, {with_r} of them with R's, {seconds} s\n"));
    }

    pub fn input(&mut self) {
        self.counts.inputs += 1;
    }

    pub fn results(&mut self, results: u64, with_r: u64) {
        self.counts.results += results;
        self.counts.with_r += with_r;
    }

    /// Counts the library's answer, if it is a refusal.
    pub fn refusal(&mut self, ours: Said) {
        if let Said::No(number) = ours {
            let place = if number as usize > REFUSALS { 0 } else { number as usize };
            self.refusals[place] += 1;
        }
    }

    /// A departure of R that is in a class.
    pub fn departure(&mut self, (class, size): (usize, Size), answered: &Answered) {
        self.seen.add(class, size, answered);
    }

    /// The same in an item asked for again after a refusal.
    pub fn departure_after_refusal(&mut self, (class, size): (usize, Size), answered: &Answered) {
        self.seen_after_refusal.add(class, size, answered);
    }

    /// A difference of a listed kind, in a call that the list of departures does not have. The first case is kept.
    pub fn listed(&mut self, what: &'static str, case: impl FnOnce() -> (usize, String)) {
        let listed = self.listed.entry(what).or_default();
        listed.cases += 1;
        listed.smallest.get_or_insert_with(case);
    }

    /// Any other difference, of a case of this length. `smallest` makes the case as small as it gets: its length, and its text.
    pub fn unlisted(&mut self, sort: String, length: usize, smallest: impl FnOnce() -> (usize, String)) {
        let unlisted = self.unlisted.entry(sort).or_default();
        unlisted.cases += 1;
        if unlisted.smallest.as_ref().is_none_or(|(smallest, _)| length < *smallest) {
            unlisted.smallest = Some(smallest());
        }
    }

    /// The sorts of differences that are in no list, each with its smallest case.
    pub fn unlisted_sorts(&self) -> impl Iterator<Item = String> {
        self.unlisted.iter().map(|(sort, unlisted)| format!("{sort}, smallest: {}", unlisted.smallest_text()))
    }

    /// Every class must be seen, and its smallest case must be the one that the list of departures names.
    pub fn hold_against(&mut self, list: &str) {
        for (class, seen) in classes().zip(&self.seen.0) {
            let (size, written) = seen.smallest.as_ref().map_or((None, "none"), |(size, text)| (Some(size), text));
            if listed_size(list, class).as_ref() != size {
                let unlisted = self.unlisted.entry(format!("another smallest case of {}", title(class))).or_default();
                *unlisted = Sort { cases: seen.cases, smallest: Some((0, written.to_string())) };
            }
        }
    }

    /// Writes what was found, and whether there is nothing in it but listed differences.
    pub fn conclude(&self) -> bool {
        let Counts { inputs, results, with_r } = self.all;
        println!("All parts: {inputs} inputs, {results} results compared, {with_r} of them with R's.");
        let refusals: Vec<String> =
            (1..=REFUSALS).map(|number| format!("{number}: {}", self.refusals[number])).collect();
        println!("The library's refusals, by number: {}; others: {}.", refusals.join(", "), self.refusals[0]);
        println!("Listed differences from R, in the classes of oracle/departures.txt:");
        self.seen.print("");
        println!("In items asked for again after a refusal, which docs/DIFFERENCES.md lists:");
        self.seen_after_refusal.print("asked again: ");
        println!("Of the same kind, in calls that oracle/run does not ask:");
        for (what, listed) in &self.listed {
            println!("  {:>9}  {what}\n             first: {}", listed.cases, listed.smallest_text());
        }
        for (sort, unlisted) in &self.unlisted {
            println!("DIFFERENCE: {sort}, {} times\n  smallest: {}", unlisted.cases, unlisted.smallest_text());
        }
        if self.unlisted.is_empty() {
            let others: u64 = self.listed.values().map(|listed| listed.cases).sum();
            let listed = self.seen.cases() + self.seen_after_refusal.cases() + others;
            println!("The library answers as the rules on all {results} results.");
            println!("It differs from R on {listed} of {with_r}, each in a listed class.");
        }
        self.unlisted.is_empty()
    }
}

/// The smallest case of each class in the list of departures.
pub fn listed_cases(list: &str) -> impl Iterator<Item = &str> {
    list.lines().filter_map(|line| line.strip_prefix("smallest: ")?.split(" | ").next())
}

/// The case made smaller as long as it stays such a one: the first smaller case that is one is taken, again and again.
pub fn shrunk<C>(mut case: C, smaller: impl Fn(&C) -> Vec<C>, is_one: impl Fn(&C) -> bool) -> C {
    while let Some(next) = smaller(&case).into_iter().find(|next| is_one(next)) {
        case = next;
    }
    case
}

/// Some bytes with a part cut off or out: large parts first.
pub fn cuts(bytes: &[u8]) -> Vec<Vec<u8>> {
    let mut cuts = Vec::new();
    let mut part = bytes.len();
    while part > 0 {
        for start in (0..=bytes.len() - part).step_by(part) {
            cuts.push([&bytes[..start], &bytes[start + part..]].concat());
        }
        part /= 2;
    }
    cuts
}
