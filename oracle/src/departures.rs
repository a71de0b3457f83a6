//! The classes of cases on which R answers otherwise than the rules, docs/RULES.md.
//! A class says of a case just what R answers and what the rules answer, by `payload_info`, in which R and the rules never
//! differ, and on a stream by what it holds before the call. A case on which they differ is to be in one class, and in one alone.

mod stream_departures;

use answers::Answered;
use rules::payload_info;
use stream_departures::Step;

/// As many items as there are.
const ALL: usize = usize::MAX;

/// A sort of cases in one call or in a few, and why R departs from the rules in it.
pub struct Class {
    pub calls: &'static [&'static str],
    pub what: &'static str,
    pub why: &'static str,
    holds: fn(&Case) -> bool,
}

const REFUSED_LIST: &str = "of a list whose header is refused";
const REFUSED_LIST_WHY: &str =
    "R's count ends at the first refusal, here before any item, with 0. The rule: the header's refusal.";

const DAMAGED_ITEM: &str = "of a list with an item that is refused, where R's count ends";
const DAMAGED_ITEM_WHY: &str = "R answers how many items stand before that one. The rule: that item's refusal.";

const CUT_ITEM: &str = "of a list with an item that passes the list's end, over which R counts on";
const CUT_ITEM_WHY: &str = "\
    R bounds the first item by the list and the others by the bytes, so the item is whole to R with the bytes after the list. \
    The rule: 1.";

const COUNTED_ON: &str = "of a list of whole items that is followed by other bytes, over which R counts on";
const COUNTED_ON_WHY: &str = "\
    R bounds the first item by the list and the others by the bytes, so it counts the items after the list too. \
    The rule: the list's own items.";

const OF_READING: &[Class] = &[
    Class {
        calls: &["length"],
        what: "of no bytes",
        why: "R reads the first byte and panics. The rule: 1.",
        holds: |case| case.bytes.is_empty() && case.r_answers("panic") && case.rules_answer("no 1"),
    },
    Class {
        calls: &["total"],
        what: "of a header and a value that pass 64 bits together",
        why: "R panics (debug) or wraps (release). The rule: 1.",
        holds: total_overflows,
    },
    Class {
        calls: &["flags"],
        what: "of one byte, 81 to b7",
        why: "R's `is_int` reads the second byte and panics. The rule: it is data, and no integer.",
        holds: |case| {
            matches!(case.bytes[..], [0x81..=0xb7]) && case.r_answers("panic") && case.rules_answer("ok 00010")
        },
    },
    Class { calls: &["count"], what: REFUSED_LIST, why: REFUSED_LIST_WHY, holds: refused_list },
    Class { calls: &["count"], what: DAMAGED_ITEM, why: DAMAGED_ITEM_WHY, holds: damaged_item },
    Class { calls: &["count"], what: CUT_ITEM, why: CUT_ITEM_WHY, holds: cut_item },
    Class { calls: &["count"], what: COUNTED_ON, why: COUNTED_ON_WHY, holds: counted_on },
    Class { calls: &["prototype"], what: REFUSED_LIST, why: REFUSED_LIST_WHY, holds: refused_list },
    Class { calls: &["prototype"], what: DAMAGED_ITEM, why: DAMAGED_ITEM_WHY, holds: damaged_item },
    Class { calls: &["prototype"], what: CUT_ITEM, why: CUT_ITEM_WHY, holds: cut_item },
    Class { calls: &["prototype"], what: COUNTED_ON, why: COUNTED_ON_WHY, holds: counted_on },
    Class {
        calls: &["at"],
        what: "from a place that R gave, where R gives an item that starts after the list",
        why: "From a place on, R's walk is bounded by the bytes and not by the list. The rule: 1.",
        holds: |case| case.from_place().is_some_and(|walk| walk.gives_item(|start, _| start >= walk.end)),
    },
    Class {
        calls: &["at"],
        what: "from a place that R gave, where R gives an item that starts in the list and passes its end",
        why: "From a place on, R's walk is bounded by the bytes and not by the list. The rule: 1.",
        holds: |case| {
            case.from_place().is_some_and(|walk| walk.gives_item(|start, after| start < walk.end && after > walk.end))
        },
    },
    Class {
        calls: &["at"],
        what: "from a place that R gave, where R refuses an item for bytes after the list",
        why: "From a place on, R's walk is bounded by the bytes and not by the list, and meets 2 or 3 there. The rule: 1.",
        holds: |case| case.from_place().is_some_and(|walk| walk.refuses_item()),
    },
];

/// All classes, in their order.
pub fn classes() -> impl Iterator<Item = &'static Class> {
    OF_READING.iter().chain(stream_departures::OF_STREAMS)
}

/// The classes that a case is in, as their numbers in that order.
pub fn classes_of(case: &Case) -> Vec<usize> {
    let is_in = |class: &Class| class.calls.contains(&case.call) && (class.holds)(case);
    classes().enumerate().filter(|(_, class)| is_in(class)).map(|(number, _)| number).collect()
}

/// What makes one case smaller than another of the same class: fewer bytes, then their order, then that of the numbers. On a
/// stream: fewer lines, then a shorter text of them, then its order.
#[derive(PartialEq, Eq, PartialOrd, Ord)]
pub struct Size {
    lines: usize,
    length: usize,
    bytes: Vec<u8>,
    numbers: Vec<u64>,
}

/// A case taken apart, with its answers.
pub struct Case<'a> {
    pub call: &'a str,
    pub bytes: Vec<u8>,
    pub numbers: Vec<u64>,
    /// On a stream, the step that the line is; then there are no bytes and no numbers here.
    step: Option<Step>,
    answered: &'a Answered,
}

impl Case<'_> {
    /// `None`: the line is malformed.
    pub fn of(answered: &Answered) -> Option<Case<'_>> {
        let words = line::words(answered.case.as_bytes())?;
        if answered.of_stream() {
            let (bytes, numbers) = (vec![], vec![]);
            return Some(Case { call: words[0], bytes, numbers, step: Some(Step::of(answered)?), answered });
        }
        let [call, bytes, numbers @ ..] = &words[..] else { return None };
        let numbers = numbers.iter().map(|word| line::number(word)).collect::<Option<Vec<u64>>>()?;
        Some(Case { call, bytes: line::bytes(bytes)?, numbers, step: None, answered })
    }

    pub fn size(&self) -> Size {
        if self.step.is_some() {
            let text = self.answered.sequence();
            let lines = self.answered.before.len() + 1;
            return Size { lines, length: text.len(), bytes: text.as_bytes().to_vec(), numbers: vec![] };
        }
        Size { lines: 1, length: self.bytes.len(), bytes: self.bytes.clone(), numbers: self.numbers.clone() }
    }

    /// Whether both builds of R answer so.
    fn r_answers(&self, answer: &str) -> bool {
        self.answered.debug == answer && self.answered.release == answer
    }

    fn rules_answer(&self, answer: &str) -> bool {
        self.answered.model == answer
    }

    /// What `count` or `prototype` answers where there are so many items.
    fn counted(&self, items: usize) -> String {
        if self.call == "count" { format!("ok {items}") } else { format!("ok list {items}") }
    }

    /// The header and the end of the list that the bytes start with, if it is one that is not refused.
    fn list(&self) -> Option<(usize, usize)> {
        let (header, value) = payload_info(&self.bytes).ok().filter(|_| self.starts_as_list())?;
        Some((header as usize, (header + value) as usize))
    }

    fn starts_as_list(&self) -> bool {
        matches!(self.bytes.first(), Some(0xc0..))
    }

    /// How many items R counts: it bounds the first item by the list, and the others by the bytes.
    fn counted_by_r(&self, header: usize, end: usize) -> usize {
        match payload_info(&self.bytes[header..end]) {
            Ok(_) => whole_items(&self.bytes[header..], ALL).count,
            Err(_) => 0,
        }
    }

    /// R's walk from a place, if this is one: it starts at the place and goes on over all the bytes.
    fn from_place(&self) -> Option<WalkOfR<'_>> {
        let [index, known, offset] = self.numbers[..] else { return None };
        let (_, end) = self.list()?;
        let steps = index.checked_sub(known)?;
        let start = usize::try_from(offset).ok().filter(|start| *start <= self.bytes.len())?;
        let passed = whole_items(&self.bytes[start..], usize::try_from(steps).ok()?);
        Some(WalkOfR { case: self, end, item: start + passed.length })
    }
}

fn total_overflows(case: &Case) -> bool {
    let Ok((header, value)) = rules::from(&case.bytes) else { return false };
    let wrapped = (header + value).checked_sub(1 << 64);
    let Answered { debug, release, .. } = case.answered;
    wrapped.is_some_and(|wrapped| debug == "panic" && *release == format!("ok {wrapped}")) && case.rules_answer("no 1")
}

fn refused_list(case: &Case) -> bool {
    let Err(refusal) = payload_info(&case.bytes) else { return false };
    case.starts_as_list() && case.r_answers(&case.counted(0)) && case.rules_answer(&format!("no {refusal}"))
}

fn damaged_item(case: &Case) -> bool {
    let Some((header, end)) = case.list() else { return false };
    let before = whole_items(&case.bytes[header..end], ALL);
    let Some(refusal) = before.refusal else { return false };
    case.r_answers(&case.counted(before.count)) && case.rules_answer(&format!("no {refusal}"))
}

fn cut_item(case: &Case) -> bool {
    let Some((header, end)) = case.list() else { return false };
    let before = whole_items(&case.bytes[header..end], ALL);
    let counted = case.counted_by_r(header, end);
    before.refusal == Some(1)
        && counted > before.count
        && case.r_answers(&case.counted(counted))
        && case.rules_answer("no 1")
}

fn counted_on(case: &Case) -> bool {
    let Some((header, end)) = case.list() else { return false };
    let items = whole_items(&case.bytes[header..end], ALL);
    let counted = case.counted_by_r(header, end);
    items.refusal.is_none()
        && counted > items.count
        && case.r_answers(&case.counted(counted))
        && case.rules_answer(&case.counted(items.count))
}

/// Whole items from the start of some bytes: how many, their length together, and the refusal after them, if the bytes do
/// not end there.
struct WholeItems {
    count: usize,
    length: usize,
    refusal: Option<u8>,
}

/// The whole items that the bytes start with, at most so many.
fn whole_items(bytes: &[u8], most: usize) -> WholeItems {
    let mut items = WholeItems { count: 0, length: 0, refusal: None };
    while items.length < bytes.len() && items.count < most {
        match payload_info(&bytes[items.length..]) {
            Ok((header, value)) => items.length += (header + value) as usize,
            Err(refusal) => return WholeItems { refusal: Some(refusal), ..items },
        }
        items.count += 1;
    }
    items
}

/// Where R's walk from a place ends: at the item that is asked for, or at the one that is refused on the way.
struct WalkOfR<'a> {
    case: &'a Case<'a>,
    /// The end of the list.
    end: usize,
    item: usize,
}

impl WalkOfR<'_> {
    /// Whether R gives the item at the walk's end, with such a start and end, where the rules refuse.
    fn gives_item(&self, such: impl Fn(usize, usize) -> bool) -> bool {
        let Ok((header, value)) = payload_info(&self.case.bytes[self.item..]) else { return false };
        let length = (header + value) as usize;
        such(self.item, self.item + length)
            && self.case.r_answers(&format!("ok {} {length}", self.item))
            && self.case.rules_answer("no 1")
    }

    /// Whether R refuses the item at the walk's end, with another number than the rules, which look at the list alone.
    fn refuses_item(&self) -> bool {
        let Err(refusal) = payload_info(&self.case.bytes[self.item..]) else { return false };
        let in_list = payload_info(self.case.bytes[..self.end].get(self.item..).unwrap_or_default());
        refusal != 1
            && in_list == Err(1)
            && self.case.r_answers(&format!("no {refusal}"))
            && self.case.rules_answer("no 1")
    }
}
