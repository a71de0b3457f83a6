//! What a call answers, on any side: numbers, a refusal, or a panic; and how the case format, docs/CASES.md, writes it.

/// A call's answer. A call that answers one number has 0 for the second.
#[derive(Clone, Copy, PartialEq, Eq, Debug)]
pub enum Said {
    Ok(u64, u64),
    No(u32),
    Panic,
    /// The library's answer breaks what `loughcable.h` says of its fields, as a refusal does that has another field than 0.
    Odd(u32),
}

/// R's error has no number in the rules.
pub const UNNUMBERED: u32 = u32::MAX;

impl Said {
    /// A call on a stream that was done; the library answers yes to it, which is 1.
    pub const DONE: Said = Said::Ok(1, 0);

    pub fn one(number: u64) -> Said {
        Said::Ok(number, 0)
    }

    pub fn yes_or_no(truth: bool) -> Said {
        Said::one(truth.into())
    }

    /// The text of this answer to such a call.
    pub fn text(self, call: &str) -> String {
        match self {
            Said::Ok(first, second) => accepted(call, first, second),
            Said::No(number) => format!("no {number}"),
            Said::Panic => "panic".to_string(),
            Said::Odd(number) => format!("odd fields with refusal {number}"),
        }
    }
}

impl From<rules::Answer<(u128, u128)>> for Said {
    fn from(answer: rules::Answer<(u128, u128)>) -> Said {
        match answer {
            Ok((first, second)) => Said::Ok(first as u64, second as u64),
            Err(number) => Said::No(number.into()),
        }
    }
}

impl From<rules::Answer<u128>> for Said {
    fn from(answer: rules::Answer<u128>) -> Said {
        answer.map(|number| (number, 0)).into()
    }
}

/// The kinds of a prototype, as `loughcable.h` numbers them.
pub const NULL: u64 = 0;
pub const DATA: u64 = 1;
pub const LIST: u64 = 2;

fn accepted(call: &str, first: u64, second: u64) -> String {
    match call {
        "flags" => format!("ok {first:05b}"),
        "prototype" => match first {
            NULL => "ok null".to_string(),
            DATA => format!("ok data {second}"),
            LIST => format!("ok list {second}"),
            kind => format!("ok kind {kind} of {second}"),
        },
        "from" | "info" | "data" | "value" | "strict" | "items" | "at" | "payload" | "steps" | "within" => format!("ok {first} {second}"),
        "checked" => format!("ok {}", if first == 1 { "yes" } else { "no" }),
        "begin" | "unbounded" | "empty" | "bytes" | "put8" | "put16" | "put32" | "put64" | "putbool" | "raw"
        | "finalize" | "clear" | "state" => "ok".to_string(),
        _ => format!("ok {first}"),
    }
}
