//! Wrong answers, put in the place of right ones, to see that the comparison finds each: `--try-wrong`.

use crate::library::Stream;
use crate::report::Three;
use crate::said::Said;
use std::borrow::Cow;

/// One thing that is wrong.
#[derive(Clone, Copy, PartialEq, Debug)]
pub enum Wrong {
    // In the library's reading calls.
    ValueOffByOne,
    RefusalWithAnotherNumber,
    CountOneLess,
    ItemMoved,
    FlagTurned,
    DamageAccepted,
    FieldBesideARefusal,
    // In the library's encoder and stream.
    EncodingByteChanged,
    ByteBehindTheEnd,
    ByteBeforeTheStart,
    LenOneMore,
    RefusalThatWrites,
    RoomNotChecked,
    CountNotKept,
    FinishedTooEarly,
    // In the library's amender.
    LengthOneLess,
    OldByteKept,
    ByteBehindTheSheet,
    WrongRefusalOfAPath,
    // In R's answers. A count like that of a listed class is in none, if the input is not of that class.
    ValueOfROffByOne,
    CountOfROneMore,
    ByteOfREncoding,
    ByteOfRStream,
    ByteOfRSheet,
}

/// The parts of the comparison.
#[derive(Clone, Copy)]
pub enum Part {
    Reading,
    Encodings,
    Streams,
    Amendings,
}

/// Something wrong, the part that must find it, and words of the difference that this part must report.
pub struct Trial {
    pub wrong: Wrong,
    pub part: Part,
    pub shows_in: &'static str,
}

const fn trial(wrong: Wrong, part: Part, shows_in: &'static str) -> Trial {
    Trial { wrong, part, shows_in }
}

pub const TRIALS: &[Trial] = &[
    trial(Wrong::ValueOffByOne, Part::Reading, "the rules: `u16`"),
    trial(Wrong::RefusalWithAnotherNumber, Part::Reading, "the rules: `value`"),
    trial(Wrong::CountOneLess, Part::Reading, "the rules: `count`"),
    trial(Wrong::ItemMoved, Part::Reading, "the rules: `at`"),
    trial(Wrong::FlagTurned, Part::Reading, "the rules: `flags`"),
    trial(Wrong::DamageAccepted, Part::Reading, "the rules: `strict`"),
    trial(Wrong::FieldBesideARefusal, Part::Reading, "the rules: `info`"),
    trial(Wrong::EncodingByteChanged, Part::Encodings, "the rules: an encoding"),
    trial(Wrong::ByteBehindTheEnd, Part::Streams, "the buffer of a stream"),
    trial(Wrong::ByteBeforeTheStart, Part::Streams, "the buffer of a stream"),
    trial(Wrong::LenOneMore, Part::Streams, "`len` of a stream"),
    trial(Wrong::RefusalThatWrites, Part::Streams, "the buffer of a stream"),
    trial(Wrong::RoomNotChecked, Part::Streams, "`bytes` of a stream"),
    trial(Wrong::CountNotKept, Part::Streams, "the state of a stream"),
    trial(Wrong::FinishedTooEarly, Part::Streams, "`finished` of a stream"),
    trial(Wrong::LengthOneLess, Part::Amendings, "the rules: `amend`"),
    trial(Wrong::OldByteKept, Part::Amendings, "the buffer of `amend`"),
    trial(Wrong::ByteBehindTheSheet, Part::Amendings, "the buffer of `amend`"),
    trial(Wrong::WrongRefusalOfAPath, Part::Amendings, "the rules: `amend`"),
    trial(Wrong::ValueOfROffByOne, Part::Reading, "in no listed class: `u8`"),
    trial(Wrong::CountOfROneMore, Part::Reading, "in no listed class: `count`"),
    trial(Wrong::ByteOfREncoding, Part::Encodings, "in no listed class: an encoding"),
    trial(Wrong::ByteOfRStream, Part::Streams, "in no listed class: the bytes of a stream"),
    trial(Wrong::ByteOfRSheet, Part::Amendings, "in no listed class: `amend`"),
];

/// The answers to a reading call, one of them spoilt on some inputs.
pub fn reading(wrong: Option<Wrong>, call: &str, mut three: Three) -> Three {
    let Some(wrong) = wrong else { return three };
    let Three { ours, r, .. } = &mut three;
    match (wrong, call, *ours) {
        (Wrong::ValueOffByOne, "u16", Said::Ok(0x90, 0)) => *ours = Said::one(0x91),
        (Wrong::RefusalWithAnotherNumber, "value", Said::No(5)) => *ours = Said::No(1),
        (Wrong::CountOneLess, "count", Said::Ok(1, 0)) => *ours = Said::one(0),
        (Wrong::ItemMoved, "at", Said::Ok(1, length)) => *ours = Said::Ok(2, length),
        (Wrong::FlagTurned, "flags", Said::Ok(0b00010, 0)) => *ours = Said::one(0b00011),
        (Wrong::DamageAccepted, "strict", Said::No(3)) => *ours = Said::Ok(1, 0),
        (Wrong::FieldBesideARefusal, "info", Said::No(1)) => *ours = Said::Odd(1),
        (Wrong::ValueOfROffByOne, "u8", Said::Ok(0x90, 0)) => *r = Some(Said::one(0x91)),
        (Wrong::CountOfROneMore, "count", Said::Ok(1, 0)) => *r = Some(Said::one(2)),
        _ => (),
    }
    three
}

/// The length and the bytes of an encoding, spoilt.
pub fn encoding(wrong: Option<Wrong>, ours: Said, buffer: &mut [u8]) -> Said {
    if wrong == Some(Wrong::EncodingByteChanged) && matches!(ours, Said::Ok(3, _)) {
        buffer[1] ^= 1;
    }
    ours
}

/// A stream after a step, and the answer to the step, spoilt.
pub fn step(wrong: Option<Wrong>, call: &str, ours: Said, stream: &mut Stream) -> Said {
    let (start, end) = (stream.state[0] as usize, stream.state[1] as usize);
    match (wrong, ours) {
        (Some(Wrong::ByteBehindTheEnd), Said::Ok(..)) => change(stream.buffer.get_mut(end)),
        (Some(Wrong::ByteBeforeTheStart), Said::Ok(..)) if start > 0 => change(stream.buffer.get_mut(start - 1)),
        (Some(Wrong::RefusalThatWrites), Said::No(13)) => change(stream.buffer.last_mut()),
        (Some(Wrong::RoomNotChecked), Said::No(13)) if call == "bytes" => return Said::DONE,
        (Some(Wrong::CountNotKept), Said::Ok(..)) if stream.state[2] > 0 && stream.state[19] > 0 => {
            stream.state[19] -= 1
        }
        _ => (),
    }
    ours
}

fn change(byte: Option<&mut u8>) {
    byte.into_iter().for_each(|byte| *byte ^= 1);
}

/// What is asked of a stream after a step, spoilt.
pub fn look(wrong: Option<Wrong>, call: &str, ours: Said) -> Said {
    match (wrong, call, ours) {
        (Some(Wrong::LenOneMore), "len", Said::Ok(length @ 60.., _)) => Said::one(length + 1),
        (Some(Wrong::FinishedTooEarly), "finished", Said::Ok(0, _)) => Said::one(1),
        _ => ours,
    }
}

/// The answer of the amender and the buffer after it, where the sheet had `n` bytes, spoilt.
pub fn amending(wrong: Option<Wrong>, n: usize, ours: Said, buffer: &mut [u8]) -> Said {
    match (wrong, ours) {
        (Some(Wrong::LengthOneLess), Said::Ok(m, _)) => return Said::one(m - 1),
        (Some(Wrong::OldByteKept), Said::Ok(m, _)) if (m as usize) < n => buffer[n - 1] = 1,
        (Some(Wrong::ByteBehindTheSheet), Said::Ok(m, _)) => change(buffer.get_mut(n.max(m as usize))),
        (Some(Wrong::WrongRefusalOfAPath), Said::No(19)) => return Said::No(1),
        _ => (),
    }
    ours
}

/// What R wrote, spoilt if this is the thing that is wrong.
pub fn bytes_of_r(wrong: Option<Wrong>, this: Wrong, bytes: &[u8]) -> Cow<'_, [u8]> {
    let mut bytes = Cow::Borrowed(bytes);
    if wrong == Some(this) && bytes.len() == 3 {
        change(bytes.to_mut().last_mut());
    }
    bytes
}
