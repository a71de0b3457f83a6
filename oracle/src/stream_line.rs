//! The lines of a stream, docs/CASES.md "A stream", taken apart. R's driver and the model read them by this.

use crate::{MOST_BYTES, bytes, number};

/// The most open lists that a state can give.
pub const LISTS: usize = 16;

/// The first words of these lines.
pub const STREAM_WORDS: &[&str] = &[
    "stream",
    "state",
    "show",
    "begin",
    "unbounded",
    "empty",
    "bytes",
    "put8",
    "put16",
    "put32",
    "put64",
    "putbool",
    "raw",
    "checked",
    "finalize",
    "clear",
    "len",
    "estimate",
    "finished",
    "isempty",
    "out",
    "raws",
];

pub enum StreamLine {
    /// A new stream at START in a buffer of ROOM bytes, each BYTE.
    New(Start),
    /// A line that works on the stream.
    Of(Work),
}

pub struct Start {
    pub start: u64,
    pub room: usize,
    pub byte: u8,
}

pub enum Work {
    Begin(u32),
    Unbounded,
    Empty,
    Bytes(Vec<u8>),
    Put8(u8),
    Put16(u16),
    Put32(u32),
    Put64(u64),
    PutBool(bool),
    /// The bytes and the stated count.
    Raw(Vec<u8>, u64),
    /// The bytes, the stated count and the largest size.
    Checked(Vec<u8>, u64, u64),
    Finalize,
    Clear,
    Len,
    Estimate(u64),
    Finished,
    IsEmpty,
    Out,
    Raws,
    Show,
    State(State),
}

/// A state as a line gives it. A list without a maximum has 0.
pub struct State {
    pub start: u64,
    pub end: u64,
    pub opened: u64,
    pub positions: [u32; LISTS],
    pub currents: [u32; LISTS],
    pub maxima: [u32; LISTS],
}

/// `None`: the line is malformed, or is none of a stream.
pub fn stream_line(words: &[&str]) -> Option<StreamLine> {
    match words {
        ["stream", start, room, byte] => Some(StreamLine::New(new(start, room, byte)?)),
        _ => Some(StreamLine::Of(work(words)?)),
    }
}

fn new(start: &str, room: &str, byte: &str) -> Option<Start> {
    let room = usize::try_from(number(room)?).ok().filter(|room| *room <= MOST_BYTES)?;
    let [byte] = bytes(byte).filter(|_| byte.len() == 2)?[..] else { return None };
    Some(Start { start: number(start)?, room, byte })
}

fn work(words: &[&str]) -> Option<Work> {
    Some(match words {
        ["begin", most] => Work::Begin(narrow(most)?),
        ["unbounded"] => Work::Unbounded,
        ["empty"] => Work::Empty,
        ["bytes", b] => Work::Bytes(bytes(b)?),
        ["put8", n] => Work::Put8(narrow(n)?),
        ["put16", n] => Work::Put16(narrow(n)?),
        ["put32", n] => Work::Put32(narrow(n)?),
        ["put64", n] => Work::Put64(number(n)?),
        ["putbool", n] => Work::PutBool(truth(n)?),
        ["raw", b, count] => Work::Raw(bytes(b)?, number(count)?),
        ["checked", b, count, most] => Work::Checked(bytes(b)?, number(count)?, number(most)?),
        ["finalize"] => Work::Finalize,
        ["clear"] => Work::Clear,
        ["len"] => Work::Len,
        ["estimate", n] => Work::Estimate(number(n)?),
        ["finished"] => Work::Finished,
        ["isempty"] => Work::IsEmpty,
        ["out"] => Work::Out,
        ["raws"] => Work::Raws,
        ["show"] => Work::Show,
        ["state", start, end, opened, lists @ ..] => Work::State(state([start, end, opened], lists)?),
        _ => return None,
    })
}

/// A number that the type has room for.
fn narrow<N: TryFrom<u64>>(word: &str) -> Option<N> {
    N::try_from(number(word)?).ok()
}

fn truth(word: &str) -> Option<bool> {
    match number(word)? {
        0 => Some(false),
        1 => Some(true),
        _ => None,
    }
}

fn state([start, end, opened]: [&str; 3], lists: &[&str]) -> Option<State> {
    if lists.len() > LISTS {
        return None;
    }
    let zeros = [0; LISTS];
    let (positions, currents, maxima) = (zeros, zeros, zeros);
    let mut state =
        State { start: number(start)?, end: number(end)?, opened: number(opened)?, positions, currents, maxima };
    for (index, list) in lists.iter().enumerate() {
        let [position, current, most] = list.split(':').collect::<Vec<&str>>()[..] else { return None };
        state.positions[index] = narrow(position)?;
        state.currents[index] = narrow(current)?;
        state.maxima[index] = if most == "-" { 0 } else { narrow(most)? };
    }
    Some(state)
}
