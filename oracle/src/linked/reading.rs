//! The reading calls and the strict check: what the three sides answer to each over the same bytes.

use crate::library::{self, NO_PLACE, Place};
use crate::r_reading::{self as r, View};
use crate::random::Random;
use crate::report::{NOT_THE_RULES, Report, Three, class_of, cuts, listed_cases, shrunk, written};
use crate::said::{DATA, LIST, NULL, Said};
use crate::wrong::{self, Wrong};
use answers::Answered;
use line::written as hex;
use rules::{Prototype, payload_info};

type Over = fn(&[u8]) -> Said;

/// A call that takes bytes and nothing else, by its word in docs/CASES.md. R has no strict check.
pub struct Call {
    name: &'static str,
    ours: Over,
    rules: Over,
    r: Option<Over>,
}

const fn call(name: &'static str, ours: Over, rules: Over, r: Over) -> Call {
    Call { name, ours, rules, r: Some(r) }
}

const CALLS: &[Call] = &[
    call("length", library::length, |b| rules::length(b).into(), r::length),
    call("from", library::from, |b| rules::from(b).into(), r::from),
    call("total", library::total, |b| rules::total(b).into(), r::total),
    call("info", library::info, |b| payload_info(b).into(), r::info),
    call("data", library::data, |b| rules::data(b).into(), r::data),
    call("value", library::value, |b| rules::value(b).into(), r::value),
    call("u8", library::read_u8, |b| rules::integer(b, 1).into(), r::read_u8),
    call("u16", library::read_u16, |b| rules::integer(b, 2).into(), r::read_u16),
    call("u32", library::read_u32, |b| rules::integer(b, 4).into(), r::read_u32),
    call("u64", library::read_u64, |b| rules::integer(b, 8).into(), r::read_u64),
    call("bool", library::read_bool, |b| rules::boolean(b).into(), r::read_bool),
    call("flags", library::flags, rules_flags, r::flags),
    call("size", library::size, |b| Said::one(rules::data_size(b) as u64), r::size),
    call("count", library::count, |b| rules::count(b).into(), r::count),
    call("prototype", library::prototype, rules_prototype, r::prototype),
    Call { name: "payload", ours: library::payload, rules: rules_payload, r: None },
    Call { name: "strict", ours: library::strict, rules: |b| rules::strict(b).into(), r: None },
    Call { name: "items", ours: library::items, rules: rules_items, r: None },
];

fn rules_flags(bytes: &[u8]) -> Said {
    Said::one(rules::flags(bytes).iter().fold(0, |digits, flag| 2 * digits + u64::from(*flag)))
}

fn rules_prototype(bytes: &[u8]) -> Said {
    match rules::prototype(bytes) {
        Ok(Prototype::Null) => Said::Ok(NULL, 0),
        Ok(Prototype::Data(size)) => Said::Ok(DATA, size as u64),
        Ok(Prototype::List(count)) => Said::Ok(LIST, count as u64),
        Err(number) => Said::No(number.into()),
    }
}

/// Where a list's payload lies: "not a list 8; the list's header refusal".
fn rules_payload(bytes: &[u8]) -> Said {
    match bytes.first() {
        Some(0xc0..) => rules::data(bytes).into(),
        _ => Said::No(8),
    }
}

/// "`payload_info` over the rest of the list's own payload": the item from one offset on, bounded by another. Outside is 1.
fn rules_within(bytes: &[u8], from: usize, end: usize) -> Said {
    let Some(rest) = bytes.get(from..end) else { return Said::No(1) };
    payload_info(rest).map(|(header, value)| (from as u128, header + value)).into()
}

/// Bytes read as a list's payload, which is no level: how many items, and how deep.
fn rules_items(bytes: &[u8]) -> Said {
    if bytes.len() as u128 > rules::MOST_BYTES {
        return Said::No(12);
    }
    rules::strict_row(bytes, 1).map(|row| (row.count, row.deepest)).into()
}

/// A question over some bytes.
#[derive(Clone, Copy)]
pub enum Ask {
    Call(&'static Call),
    /// An item of a fresh view.
    At(usize),
    /// One item of a view and then another: the second answer.
    Twice(usize, usize),
    /// An item from any place, which R cannot be brought to.
    From(Place, usize),
    /// An item of a fresh view, by a walk of steps.
    Steps(usize),
    /// One such step, from any offset and to any bound.
    Within(usize, usize),
}

/// The largest index that is asked for over every input.
const LAST: usize = 3;

/// What is asked over every input, and over every one that starts as a list.
pub struct Asks {
    of_all: Vec<Ask>,
    of_lists: Vec<Ask>,
}

impl Asks {
    pub fn new() -> Asks {
        let mut of_all: Vec<Ask> = CALLS.iter().map(Ask::Call).collect();
        of_all.extend((0..=LAST).map(Ask::At));
        of_all.push(Ask::Twice(0, 1));
        let mut of_lists = Vec::new();
        for first in 0..=LAST {
            of_lists.extend((0..=LAST).map(|second| Ask::Twice(first, second)));
        }
        for offset in 0..=LAST + 1 {
            of_lists.extend([Ask::From((0, offset), 0), Ask::From((0, offset), 1), Ask::From((1, offset), 0)]);
            of_lists.extend((0..=LAST + 1).map(|end| Ask::Within(offset, end)));
        }
        of_lists.extend((0..=LAST).map(Ask::Steps));
        Asks { of_all, of_lists }
    }

    /// Compares the answers to all these questions over the bytes.
    pub fn compare(&self, bytes: &[u8], wrong: Option<Wrong>, report: &mut Report) {
        report.input();
        compare_all(&self.of_all, bytes, wrong, report);
        if bytes.first().is_some_and(|first| *first >= 0xc0) {
            compare_all(&self.of_lists, bytes, wrong, report);
        }
    }
}

fn compare_all(asks: &[Ask], bytes: &[u8], wrong: Option<Wrong>, report: &mut Report) {
    let mut with_r = 0;
    for ask in asks {
        let three = ask.three(bytes, wrong);
        with_r += u64::from(three.r.is_some());
        report.refusal(three.ours);
        if !three.agree() {
            differ(*ask, bytes, three, wrong, report);
        }
    }
    report.results(asks.len() as u64, with_r);
}

impl Ask {
    fn call(self) -> &'static str {
        match self {
            Ask::Call(call) => call.name,
            Ask::Steps(_) => "steps",
            Ask::Within(..) => "within",
            _ => "at",
        }
    }

    fn three(self, bytes: &[u8], wrong: Option<Wrong>) -> Three {
        let three = match self {
            Ask::Call(Call { ours, rules, r, .. }) => {
                Three { ours: ours(bytes), rules: rules(bytes), r: r.map(|r| r(bytes)) }
            }
            Ask::At(index) => {
                let rules = rules::at(bytes, index as u128, None).into();
                Three { ours: library::at(bytes, index), rules, r: Some(View::new(bytes).at(index)) }
            }
            Ask::Twice(first, second) => twice(bytes, first, second),
            Ask::From(place, index) => {
                let rules = rules::at(bytes, index as u128, Some(rules_place(place))).into();
                Three { ours: library::at_with_cache(bytes, place, index).0, rules, r: None }
            }
            Ask::Steps(index) => {
                let rules = rules::at(bytes, index as u128, None).into();
                Three { ours: library::by_steps(bytes, index), rules, r: Some(View::new(bytes).at(index)) }
            }
            Ask::Within(from, end) => {
                Three { ours: library::item_within(bytes, from, end), rules: rules_within(bytes, from, end), r: None }
            }
        };
        wrong::reading(wrong, self.call(), three)
    }

    /// The question in the case format, and whether it is one for an item after a refused one. R keeps the place of a refused
    /// item too, so that place stands in the text.
    fn text(self, bytes: &[u8]) -> (String, bool) {
        let (call, hex) = (self.call(), hex(bytes));
        match self {
            Ask::Call(_) => (format!("{call} {hex}"), false),
            Ask::At(index) => (format!("at {hex} {index}"), false),
            Ask::From((known, offset), index) => (format!("at {hex} {index} {known} {offset}"), false),
            Ask::Steps(index) => (format!("steps {hex} {index}"), false),
            Ask::Within(from, end) => (format!("within {hex} {from} {end}"), false),
            Ask::Twice(first, second) => {
                let refused = rules::at(bytes, first as u128, None).is_err();
                let offset = start_of(bytes, first).unwrap_or_default();
                (format!("at {hex} {second} {first} {offset}"), refused)
            }
        }
    }

    /// The case, and its class if R's departure is in one.
    fn answered(self, bytes: &[u8], three: &Three) -> Judged {
        let (text, after_refusal) = self.text(bytes);
        let mut answered = three.answered(self.call(), text, vec![]);
        let class = class_of(&mut answered);
        Judged { answered, class, after_refusal }
    }

    /// What makes the answers over these bytes a difference that is in no list.
    fn unlisted(self, bytes: &[u8], wrong: Option<Wrong>) -> Option<&'static str> {
        let three = self.three(bytes, wrong);
        three.unlisted(self.answered(bytes, &three).class.map(|(class, _)| class))
    }
}

struct Judged {
    answered: Answered,
    class: Option<(usize, departures::Size)>,
    after_refusal: bool,
}

/// The second of two askings of one view; if the library's first is wrong, that one. Here the view's place is handed on, and a
/// refusal hands it back as it was.
fn twice(bytes: &[u8], first: usize, second: usize) -> Three {
    let view = View::new(bytes);
    let r = Some(view.at(first));
    let (ours, place) = library::at_with_cache(bytes, NO_PLACE, first);
    let found = rules::at(bytes, first as u128, None);
    if ours != found.into() {
        return Three { ours, rules: found.into(), r };
    }
    let rules_place = found.ok().map(|(offset, _)| rules::Place { index: first as u128, offset });
    Three {
        ours: library::at_with_cache(bytes, place, second).0,
        rules: rules::at(bytes, second as u128, rules_place).into(),
        r: Some(view.at(second)),
    }
}

fn rules_place((index, offset): Place) -> rules::Place {
    rules::Place { index: index as u128, offset: offset as u128 }
}

/// Where an item of a list starts, whether it is whole or not; the items before it are.
fn start_of(bytes: &[u8], index: usize) -> Option<usize> {
    let (header, value) = payload_info(bytes).ok()?;
    let list = &bytes[..(header + value) as usize];
    let mut start = header as usize;
    for _ in 0..index {
        let (header, value) = payload_info(&list[start..]).ok()?;
        start += (header + value) as usize;
    }
    Some(start)
}

/// Puts a difference where it belongs.
fn differ(ask: Ask, bytes: &[u8], three: Three, wrong: Option<Wrong>, report: &mut Report) {
    let Judged { answered, class, after_refusal } = ask.answered(bytes, &three);
    if let Some(sort) = three.unlisted(class.as_ref().map(|(class, _)| *class)) {
        report.unlisted(format!("{sort}: `{}`", ask.call()), bytes.len(), || smallest(ask, bytes, sort, wrong));
    } else if let Some(class) = class {
        match after_refusal {
            true => report.departure_after_refusal(class, &answered),
            false => report.departure(class, &answered),
        }
    }
}

fn smallest(ask: Ask, bytes: &[u8], sort: &str, wrong: Option<Wrong>) -> (usize, String) {
    let bytes = shrunk(bytes.to_vec(), |b| cuts(b), |b| ask.unlisted(b, wrong) == Some(sort));
    let three = ask.three(&bytes, wrong);
    (bytes.len(), written(&ask.answered(&bytes, &three).answered))
}

/// The smallest input of each listed class of departures in the reading calls.
pub fn listed_inputs(list: &str, wrong: Option<Wrong>, report: &mut Report) {
    let asks = Asks::new();
    for case in listed_cases(list) {
        if let Some(bytes) = case.split(' ').nth(1).and_then(line::bytes).filter(|_| !case.starts_with("stream ")) {
            asks.compare(&bytes, wrong, report);
        }
    }
}

/// A dot is written after so many inputs.
const INPUTS_OF_A_DOT: u32 = 1 << 20;

/// All inputs of at most so many bytes.
pub fn all_inputs(longest: usize, wrong: Option<Wrong>, report: &mut Report) {
    let asks = Asks::new();
    report.begin_part(&format!("Reading, all inputs of 0 to {longest} bytes"));
    for length in 0..=longest {
        for number in 0..1u32 << (8 * length) {
            if number % INPUTS_OF_A_DOT == INPUTS_OF_A_DOT - 1 {
                report.dot();
            }
            asks.compare(&number.to_be_bytes()[4 - length..], wrong, report);
        }
    }
    report.end_part();
}

/// Random inputs, over which farther items and other places are asked for too.
pub fn random_inputs(number: usize, random: &mut Random, wrong: Option<Wrong>, report: &mut Report) {
    let asks = Asks::new();
    report.begin_part("Reading, random and damaged inputs");
    for _ in 0..number {
        let bytes = random.input();
        asks.compare(&bytes, wrong, report);
        compare_all(&farther(random, bytes.len()), &bytes, wrong, report);
    }
    report.end_part();
}

fn farther(random: &mut Random, length: usize) -> [Ask; 7] {
    let mut index = || random.below(9);
    let (first, second, known) = (index(), index(), index());
    let (offset, end) = (random.below(length + 3), random.below(length + 3));
    let far = random.of(&[1 << 20, 1 << 32, usize::MAX - 1, usize::MAX]);
    [
        Ask::At(second),
        Ask::Twice(first, second),
        Ask::From((known, offset), second),
        Ask::From((known, far), second),
        Ask::Steps(second),
        Ask::Within(offset, end),
        Ask::Within(offset, far),
    ]
}

/// Bytes at the limit of 1,048,576 and one above it, as one string, one list and many items.
pub fn large_inputs(wrong: Option<Wrong>, report: &mut Report) {
    let asks = Asks::new();
    report.begin_part("Reading, inputs at the limit of bytes");
    for length in [1_048_576, 1_048_577] {
        for first in [[0x01; 4], [0xba, 0x0f, 0xff, 0xfc], [0xfa, 0x0f, 0xff, 0xfc], [0xfa, 0x10, 0x00, 0x00]] {
            let mut bytes = vec![0x01; length];
            bytes[..4].copy_from_slice(&first);
            asks.compare(&bytes, wrong, report);
        }
    }
    report.end_part();
}

/// `total` of any two numbers.
pub fn totals(number: usize, random: &mut Random, report: &mut Report) {
    report.begin_part("`total` of two numbers");
    for _ in 0..number {
        let mut number = || if random.one_in(2) { random.number_of(8) } else { u64::MAX - random.number_of(2) };
        compare_total(number() as usize, number() as usize, report);
    }
    report.end_part();
}

/// R wraps where the rules refuse.
fn compare_total(header: usize, value: usize, report: &mut Report) {
    let wrapped = Said::one(header.wrapping_add(value) as u64);
    let rules = header.checked_add(value).map_or(Said::No(1), |_| wrapped);
    let (ours, r) = (library::total_of(header, value), r::total_of(header, value));
    let text = || (0, format!("{header} and {value} | R: {r:?} | rules: {rules:?} | library: {ours:?}"));
    report.input();
    report.results(1, 1);
    report.refusal(ours);
    if ours != rules || r != wrapped {
        report.unlisted(format!("{NOT_THE_RULES}: `total` of two numbers"), 0, text);
    } else if rules == Said::No(1) {
        report.listed("`total` of two numbers that pass 64 bits together: R wraps. The rule: 1.", text);
    }
}
