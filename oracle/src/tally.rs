//! What a run shows of each class of departures: how many cases, and the smallest. It is written to `departures.txt`, and
//! every run is held against that list.

use answers::{Answered, BETWEEN_LINES};
use departures::{Case, Class, Size, classes, classes_of};

const HEAD: &str = "\
# The classes of cases on which the crate rlp 0.6.1 (\"R\") answers otherwise than the rules, docs/RULES.md.
# Made by `oracle/run --departures R_SOURCE`; what a class is and why R departs in it stands in `oracle/src/departures.rs`.
# Smallest is the case with the fewest bytes, and the first in byte order among those; on a stream, the one with the fewest lines,
# which are all given, then with the shortest text. The number of cases is that of a run with the default seed. `oracle/run` fails
# on a difference that is in no class, and where it shows other than this list says.
";

/// The words before a class's smallest case, and before its number of cases.
const SMALLEST: &str = "smallest: ";
const CASES: &str = "cases: ";

/// How a run is held against the list.
#[derive(PartialEq)]
pub enum Against {
    /// Every class with its smallest case.
    Smallest,
    /// Every class with its smallest case and its number of cases.
    SmallestAndNumbers,
    /// The run shows a part of the cases: a class may be without one, but no case may be smaller than the listed one.
    NothingSmaller,
}

/// What was seen of each class, in the order of `classes`.
pub struct Tally(Vec<Seen>);

#[derive(Default)]
struct Seen {
    cases: usize,
    /// The smallest case, written with its answers.
    smallest: Option<(Size, String)>,
}

impl Tally {
    pub fn new() -> Tally {
        Tally(classes().map(|_| Seen::default()).collect())
    }

    /// Adds a case on which R departs. `false`: it is not in one class and one alone.
    pub fn add(&mut self, answered: &Answered) -> bool {
        let Some(case) = Case::of(answered) else { return false };
        let [class] = classes_of(&case)[..] else { return false };
        self.0[class].add(case.size(), answered);
        true
    }

    fn seen(&self) -> impl Iterator<Item = (&'static Class, &Seen)> {
        classes().zip(&self.0)
    }

    /// The list of departures that this run makes.
    pub fn list(&self) -> String {
        self.seen().fold(HEAD.to_string(), |list, (class, seen)| list + "\n" + &seen.entry(class))
    }

    /// What the run shows otherwise than the list says.
    pub fn differences(&self, list: &str, against: &Against) -> Vec<String> {
        if *against == Against::NothingSmaller {
            return self.smaller_than(list);
        }
        let with_numbers = *against == Against::SmallestAndNumbers;
        let (made, listed) = (entries(&self.list(), with_numbers), entries(list, with_numbers));
        let not_made = listed.iter().filter(|entry| !made.contains(entry)).map(|entry| format!("the list: {entry}"));
        let not_listed = made.iter().filter(|entry| !listed.contains(entry)).map(|entry| format!("the run: {entry}"));
        not_made.chain(not_listed).collect()
    }

    /// The smallest cases of this run that are smaller than the listed ones.
    fn smaller_than(&self, list: &str) -> Vec<String> {
        let smaller = |(class, seen): (&Class, &Seen)| {
            let (size, written) = seen.smallest.as_ref()?;
            let is_smaller = listed_size(list, class).is_none_or(|listed| *size < listed);
            is_smaller.then(|| format!("{}: {written}", title(class)))
        };
        self.seen().filter_map(smaller).collect()
    }

    /// The classes that no case showed.
    pub fn without_case(&self) -> Vec<String> {
        self.seen().filter(|(_, seen)| seen.cases == 0).map(|(class, _)| title(class)).collect()
    }

    /// The number of cases of each class, beside its title.
    pub fn numbers(&self) -> Vec<(usize, String)> {
        self.seen().map(|(class, seen)| (seen.cases, title(class))).collect()
    }
}

impl Seen {
    fn add(&mut self, size: Size, answered: &Answered) {
        self.cases += 1;
        if self.smallest.as_ref().is_none_or(|(smallest, _)| size < *smallest) {
            self.smallest = Some((size, answered.written()));
        }
    }

    fn entry(&self, class: &Class) -> String {
        let smallest = self.smallest.as_ref().map_or("none", |(_, written)| written);
        format!("{}\n{}\n{SMALLEST}{smallest}\n{CASES}{}\n", title(class), class.why, self.cases)
    }
}

pub fn title(class: &Class) -> String {
    let calls: Vec<String> = class.calls.iter().map(|call| format!("`{call}`")).collect();
    format!("{} {}", calls.join(", "), class.what)
}

/// The entries of a list, each in one line, with or without their numbers of cases.
fn entries(list: &str, with_numbers: bool) -> Vec<String> {
    let kept = |line: &&str| with_numbers || !line.starts_with(CASES);
    list.split("\n\n").map(|entry| entry.lines().filter(kept).collect::<Vec<&str>>().join(" / ")).collect()
}

/// The size of the smallest case that the list names for a class.
pub fn listed_size(list: &str, class: &Class) -> Option<Size> {
    let entry = list.split("\n\n").find(|entry| entry.lines().next() == Some(&title(class)))?;
    let smallest = entry.lines().find_map(|line| line.strip_prefix(SMALLEST))?;
    let mut before: Vec<String> = smallest.split(" | ").next()?.split(BETWEEN_LINES).map(str::to_string).collect();
    let case = before.pop()?;
    Case::of(&Answered { case, before, ..Answered::default() }).map(|case| case.size())
}
