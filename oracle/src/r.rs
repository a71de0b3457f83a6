//! R's answers: reads cases from standard input, calls the crate rlp 0.6.1 and writes what it answered:
//! `ok ..`, `no N` with the number that the rules give R's error, `panic`, or `none` where R cannot be asked, as it never can
//! for the strict check, which it has not.
//! `rlp` is R unchanged; `rlp_open` is R with one line more, which shows its private `decode_usize`.

mod r_amend;
mod r_stream;

use line::{answer_all, bytes, number};
use r_stream::Streams;
use rlp::{DecoderError, PayloadInfo, Prototype, Rlp};
use rlp_open::decode_usize;
use std::fmt::Debug;
use std::panic::{AssertUnwindSafe, catch_unwind, set_hook};

/// What a call of R gives: the text of its answer, or its error.
type Answer = Result<String, DecoderError>;

fn main() -> std::io::Result<()> {
    set_hook(Box::new(|_| ()));
    let mut streams = Streams::None;
    answer_all(|words| answer(words).or_else(|| r_amend::answer(words)).or_else(|| streams.answer(words)))
}

/// The reading calls, one arm for each.
fn answer(words: &[&str]) -> Option<String> {
    Some(match words {
        ["length", b] => over(&bytes(b)?, |b| decode_usize(b).map(|length| length.to_string())),
        ["from", b] => over(&bytes(b)?, |b| PayloadInfo::from(b).map(header_and_value)),
        ["total", b] => over(&bytes(b)?, |b| PayloadInfo::from(b).map(|info| info.total().to_string())),
        ["info", b] => over(&bytes(b)?, |b| Rlp::new(b).payload_info().map(header_and_value)),
        ["data", b] => over(&bytes(b)?, |b| Rlp::new(b).data().map(|part| place_in(b, part))),
        ["value", b] => over(&bytes(b)?, value),
        ["u8", b] => over(&bytes(b)?, |b| Rlp::new(b).as_val::<u8>().map(|number| number.to_string())),
        ["u16", b] => over(&bytes(b)?, |b| Rlp::new(b).as_val::<u16>().map(|number| number.to_string())),
        ["u32", b] => over(&bytes(b)?, |b| Rlp::new(b).as_val::<u32>().map(|number| number.to_string())),
        ["u64", b] => over(&bytes(b)?, |b| Rlp::new(b).as_val::<u64>().map(|number| number.to_string())),
        ["bool", b] => over(&bytes(b)?, |b| Rlp::new(b).as_val::<bool>().map(|truth| u8::from(truth).to_string())),
        ["flags", b] => over(&bytes(b)?, flags),
        ["size", b] => over(&bytes(b)?, |b| Answer::Ok(Rlp::new(b).size().to_string())),
        ["count", b] => over(&bytes(b)?, |b| Rlp::new(b).item_count().map(|count| count.to_string())),
        ["prototype", b] => over(&bytes(b)?, |b| Rlp::new(b).prototype().map(prototype)),
        ["strict", b] => bytes(b).map(|_| "none".to_string())?,
        ["at", b, index] => at(&bytes(b)?, native(index)?),
        ["at", b, index, known, offset] => at_from_place(&bytes(b)?, native(index)?, native(known)?, native(offset)?),
        _ => return None,
    })
}

fn header_and_value(info: PayloadInfo) -> String {
    format!("{} {}", info.header_len, info.value_len)
}

/// Where a part of the bytes lies in them, by its address.
fn place_in(bytes: &[u8], part: &[u8]) -> String {
    format!("{} {}", part.as_ptr() as usize - bytes.as_ptr() as usize, part.len())
}

/// Of a first byte up to 7f, R hands out a copy: its place is that of the byte.
fn value(bytes: &[u8]) -> Answer {
    Rlp::new(bytes).decoder().decode_value(|part| match bytes {
        [first @ 0x00..=0x7f, ..] if part == [*first] => Ok(place_in(bytes, &bytes[..1])),
        _ => Ok(place_in(bytes, part)),
    })
}

fn flags(bytes: &[u8]) -> Answer {
    let view = Rlp::new(bytes);
    let flags = [view.is_null(), view.is_empty(), view.is_list(), view.is_data(), view.is_int()];
    Ok(flags.map(|flag| if flag { '1' } else { '0' }).iter().collect())
}

fn prototype(prototype: Prototype) -> String {
    match prototype {
        Prototype::Null => "null".to_string(),
        Prototype::Data(size) => format!("data {size}"),
        Prototype::List(count) => format!("list {count}"),
    }
}

/// An item's offset, and its whole length.
fn offset_and_length((item, offset): (Rlp, usize)) -> String {
    format!("{offset} {}", item.as_raw().len())
}

fn native(word: &str) -> Option<usize> {
    number(word).map(|number| usize::try_from(number).expect("R is built for 64 bits"))
}

fn at(bytes: &[u8], index: usize) -> String {
    over(bytes, |b| Rlp::new(b).at_with_offset(index).map(offset_and_length))
}

/// R takes no place from its caller, but it keeps the place of the item that it gave last. So a place is made by asking the
/// same view for that item first; where this does not give just that place, R cannot be asked.
fn at_from_place(bytes: &[u8], index: usize, known: usize, offset: usize) -> String {
    let view = Rlp::new(bytes);
    match view.at_with_offset(known) {
        Ok((_, given)) if given == offset => over(bytes, |_| view.at_with_offset(index).map(offset_and_length)),
        _ => "none".to_string(),
    }
}

/// What a call of R gives over these bytes.
fn over<E: Debug>(bytes: &[u8], call: impl Fn(&[u8]) -> Result<String, E>) -> String {
    match catch_unwind(AssertUnwindSafe(|| call(bytes))) {
        Ok(Ok(answer)) => format!("ok {answer}"),
        Ok(Err(error)) => format!("no {}", refusal_number(&format!("{error:?}"))),
        Err(_) => "panic".to_string(),
    }
}

/// The number of R's error in the table "Refusal numbers"; an error without a number keeps its name.
fn refusal_number(error: &str) -> &str {
    match error {
        "RlpIsTooShort" => "1",
        "RlpDataLenWithZeroPrefix" => "2",
        "RlpInvalidIndirection" => "3",
        "RlpIsTooBig" => "4",
        "RlpInconsistentLengthAndData" => "5",
        "RlpInvalidLength" => "6",
        "RlpExpectedToBeData" => "7",
        "RlpExpectedToBeList" => "8",
        "Custom(\"invalid boolean value\")" => "9",
        error => error,
    }
}
