//! The classes of cases on a stream in which R answers otherwise than the rules. R's stream is there the rules' one before the
//! call: after a departure, R is asked no more until the next stream.

use crate::{Case, Class};
use answers::Answered;
use line::{StreamLine, Work, hex, stream_line, words};
use rules::{MOST_BYTES, strict_row};
use stream_model::Streams;
use stream_rules::{Held, Stream};

const ALL: &[&str] = &[
    "begin",
    "unbounded",
    "empty",
    "bytes",
    "put8",
    "put16",
    "put32",
    "put64",
    "putbool",
    "raw",
    "checked",
    "finalize",
    "clear",
    "len",
    "estimate",
    "finished",
    "isempty",
    "out",
    "raws",
];
const WRITING: &[&str] = &[
    "begin",
    "unbounded",
    "empty",
    "bytes",
    "put8",
    "put16",
    "put32",
    "put64",
    "putbool",
    "raw",
    "checked",
    "finalize",
];
const RAW: &[&str] = &["raw", "checked"];

pub const OF_STREAMS: &[Class] = &[
    Class {
        calls: WRITING,
        what: "of what the buffer has no room for",
        why: "R's buffer grows. The rule: 13.",
        holds: |case| refused(case, "no 13", |step| step.r_goes_on()),
    },
    Class {
        calls: &["begin", "unbounded"],
        what: "of a 17th level",
        why: "R has no limit of levels. The rule: 11.",
        holds: |case| refused(case, "no 11", |step| step.held.lists.len() == 16),
    },
    Class {
        calls: RAW,
        what: "of items that bring a 17th level",
        why: "R does not read the bytes and has no limit of levels. The rule: 11.",
        holds: |case| refused(case, "no 11", |step| step.refusal_of_bytes().is_none()),
    },
    Class {
        calls: RAW,
        what: "of bytes that the strict check refuses",
        why: "R takes the bytes as they are. The rule: their strict refusal.",
        holds: |case| refused_for_bytes(case, |step| step.r_goes_on()),
    },
    Class {
        calls: RAW,
        what: "with a false count that the innermost list has room for",
        why: "R believes the count. The rule: 18.",
        holds: |case| refused(case, "no 18", |step| step.r_goes_on()),
    },
    Class {
        calls: RAW,
        what: "with a false count that passes the innermost list's maximum",
        why: "R believes the count and panics. The rule: the bytes' strict refusal, or 18.",
        holds: |case| refused_for_bytes_or_count(case, |step| step.r_panics()),
    },
    Class {
        calls: RAW,
        what: "with a false count that passes 64 bits with the innermost list's items",
        why: "R panics (debug), or wraps and counts on (release). The rule: the bytes' strict refusal, or 18.",
        holds: |case| refused_for_bytes_or_count(case, |step| step.r_wraps()),
    },
    Class {
        calls: RAW,
        what: "of more items than the innermost list takes",
        why: "R panics. The rule: 14.",
        holds: |case| refused(case, "no 14", |step| step.r_panics()),
    },
    Class {
        calls: &["finalize"],
        what: "without an open list",
        why: "R panics. The rule: 15.",
        holds: |case| refused(case, "no 15", |step| step.held.lists.is_empty()),
    },
    Class {
        calls: &["finalize"],
        what: "of a counted list",
        why: "R panics. The rule: 16.",
        holds: |case| refused(case, "no 16", |step| step.r_panics() && !step.held.lists.is_empty()),
    },
    Class {
        calls: &["out"],
        what: "of a stream with an open list",
        why: "R panics. The rule: 17.",
        holds: |case| refused(case, "no 17", |step| !step.held.lists.is_empty()),
    },
    Class {
        calls: &["bytes", "raw", "checked"],
        what: "of more than 1,048,576 bytes",
        why: "R has no limit of bytes. The rule: 12.",
        holds: |case| refused(case, "no 12", |step| step.lent() > MOST_BYTES && !step.buffer_is_too_large()),
    },
    Class {
        calls: ALL,
        what: "in a buffer of more than 1,048,576 bytes",
        why: "R has no limit of bytes. The rule: 12.",
        holds: |case| refused(case, "no 12", |step| step.buffer_is_too_large()),
    },
    Class {
        calls: &["estimate"],
        what: "of more than 1,048,576 bytes to come",
        why: "R has no limit of bytes. The rule: 12.",
        holds: |case| refused(case, "no 12", |step| step.r_goes_on() && !step.buffer_is_too_large()),
    },
    Class {
        calls: &["estimate"],
        what: "of so many bytes to come that the size passes 64 bits",
        why: "R panics (debug) or wraps (release). The rule: 12.",
        holds: |case| refused(case, "no 12", |step| step.r_wraps() && !step.buffer_is_too_large()),
    },
];

/// Whether the rules refuse a case so, the step is such, and R answers what it then does.
fn refused(case: &Case, refusal: &str, such: impl Fn(&Step) -> bool) -> bool {
    let Some(step) = &case.step else { return false };
    let [debug, release] = step.r_answers();
    let Answered { debug: r_debug, release: r_release, .. } = case.answered;
    case.rules_answer(refusal) && such(step) && *r_debug == debug && *r_release == release
}

fn refused_for_bytes(case: &Case, such: impl Fn(&Step) -> bool) -> bool {
    let refusal = case.step.as_ref().and_then(Step::refusal_of_bytes);
    refusal.is_some_and(|number| refused(case, &format!("no {number}"), such))
}

fn refused_for_bytes_or_count(case: &Case, such: impl Fn(&Step) -> bool) -> bool {
    refused(case, "no 18", &such) || refused_for_bytes(case, such)
}

/// A line on a stream, and what the stream is before it.
pub struct Step {
    stream: Stream,
    held: Held,
    work: Work,
}

impl Step {
    /// `None`: the line is malformed, or makes a stream.
    pub fn of(answered: &Answered) -> Option<Step> {
        let StreamLine::Of(work) = stream_line(&words(answered.case.as_bytes())?)? else { return None };
        let mut streams = Streams::default();
        for line in &answered.before {
            words(line.as_bytes()).and_then(|words| streams.answer(&words));
        }
        let stream = streams.0?;
        Some(Step { held: stream.without_limits(), stream, work })
    }

    fn r_goes_on(&self) -> bool {
        self.r_answers().iter().all(|answer| answer != PANIC)
    }

    fn r_panics(&self) -> bool {
        self.r_answers().iter().all(|answer| answer == PANIC)
    }

    fn r_wraps(&self) -> bool {
        let [debug, release] = self.r_answers();
        debug == PANIC && release != PANIC
    }

    /// How many bytes are lent beside the buffer.
    fn lent(&self) -> u128 {
        match &self.work {
            Work::Bytes(b) | Work::Raw(b, _) | Work::Checked(b, _, _) => b.len() as u128,
            _ => 0,
        }
    }

    fn buffer_is_too_large(&self) -> bool {
        self.stream.buffer.len() as u128 > MOST_BYTES
    }

    /// What the strict check says of raw bytes.
    fn refusal_of_bytes(&self) -> Option<u8> {
        match &self.work {
            Work::Raw(b, _) | Work::Checked(b, _, _) => strict_row(b, 1).err(),
            _ => None,
        }
    }

    /// What R answers, in the debug and in the release build.
    fn r_answers(&self) -> [String; 2] {
        let held = &self.held;
        match &self.work {
            Work::Raw(_, count) => self.r_counts(*count, "ok"),
            Work::Checked(b, _, most) if held.size_with(b.len() as u128) > u128::from(*most) => both("ok no"),
            Work::Checked(_, count, _) => self.r_counts(*count, "ok yes"),
            Work::Finalize if held.lists.last().is_none_or(|list| list.most.is_some()) => both(PANIC),
            Work::Out if !held.lists.is_empty() => both(PANIC),
            Work::Out | Work::Raws => both(&format!("ok {}", hex(&self.stream.buffer[..self.stream.end as usize]))),
            Work::Len => both(&format!("ok {}", held.size_with(0))),
            Work::Estimate(added) => self.r_estimates(*added),
            Work::Finished => both(if held.lists.is_empty() { "ok 1" } else { "ok 0" }),
            Work::IsEmpty => both(if held.size_with(0) == 0 { "ok 1" } else { "ok 0" }),
            _ => both("ok"),
        }
    }

    /// R adds the stated count to the innermost list's items, and panics where they pass its maximum or 64 bits; instead of
    /// the latter the release build wraps.
    fn r_counts(&self, count: u64, accepted: &str) -> [String; 2] {
        let Some(list) = self.held.lists.last() else { return both(accepted) };
        let items = list.current + u128::from(count);
        let takes = |items: u128| list.most.is_none_or(|most| items <= most);
        match items.checked_sub(1 << 64) {
            Some(wrapped) if takes(wrapped) => [PANIC.to_string(), accepted.to_string()],
            None if takes(items) => both(accepted),
            _ => both(PANIC),
        }
    }

    /// R's sum, of which the release build wraps each number that passes 64 bits, and the debug build panics at it.
    fn r_estimates(&self, added: u64) -> [String; 2] {
        let total = self.held.written.len() as u64;
        let with_added = total.wrapping_add(added);
        let length_bytes = |length: u64| if length > 55 { 8 - u64::from(length.leading_zeros()) / 8 } else { 0 };
        let lists = self.held.lists.iter().map(|list| length_bytes(with_added.wrapping_sub(list.position as u64)));
        let headers: u64 = lists.sum();
        let release = format!("ok {}", with_added.wrapping_add(headers));
        let debug = total.checked_add(added).and_then(|with_added| with_added.checked_add(headers));
        [debug.map_or(PANIC.to_string(), |_| release.clone()), release]
    }
}

const PANIC: &str = "panic";

fn both(answer: &str) -> [String; 2] {
    [answer.to_string(), answer.to_string()]
}
