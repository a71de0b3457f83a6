//! The model's answers: reads cases from standard input and writes what the rules answer.

use amend_rules::amend;
use line::{amend_line, answer_all, bytes, hex, number};
use rules::{Answer, Place, Prototype};
use stream_model::Streams;

fn main() -> std::io::Result<()> {
    let mut streams = Streams::default();
    answer_all(|words| answer(words).or_else(|| amending(words)).or_else(|| streams.answer(words)))
}

/// The reading calls, one arm for each.
fn answer(words: &[&str]) -> Option<String> {
    Some(match words {
        ["length", b] => said(rules::length(&bytes(b)?), one),
        ["from", b] => said(rules::from(&bytes(b)?), two),
        ["total", b] => said(rules::total(&bytes(b)?), one),
        ["info", b] => said(rules::payload_info(&bytes(b)?), two),
        ["data", b] => said(rules::data(&bytes(b)?), two),
        ["value", b] => said(rules::value(&bytes(b)?), two),
        ["u8", b] => said(rules::integer(&bytes(b)?, 1), one),
        ["u16", b] => said(rules::integer(&bytes(b)?, 2), one),
        ["u32", b] => said(rules::integer(&bytes(b)?, 4), one),
        ["u64", b] => said(rules::integer(&bytes(b)?, 8), one),
        ["bool", b] => said(rules::boolean(&bytes(b)?), one),
        ["flags", b] => said(Ok(rules::flags(&bytes(b)?)), digits),
        ["size", b] => said(Ok(rules::data_size(&bytes(b)?)), one),
        ["count", b] => said(rules::count(&bytes(b)?), one),
        ["prototype", b] => said(rules::prototype(&bytes(b)?), prototype),
        ["strict", b] => said(rules::strict(&bytes(b)?), two),
        ["at", b, index] => said(rules::at(&bytes(b)?, wide(index)?, None), two),
        ["at", b, index, known, offset] => {
            let place = Place { index: wide(known)?, offset: wide(offset)? };
            said(rules::at(&bytes(b)?, wide(index)?, Some(place)), two)
        }
        _ => return None,
    })
}

/// The line of the amender.
fn amending(words: &[&str]) -> Option<String> {
    let line = amend_line(words)?;
    let amended = amend(&line.buffer, line.n, &line.path, &line.replacement);
    Some(said(amended, |(length, buffer)| format!("{length} {}", hex(&buffer))))
}

fn said<T>(answer: Answer<T>, accepted: impl Fn(T) -> String) -> String {
    match answer {
        Ok(value) => format!("ok {}", accepted(value)),
        Err(number) => format!("no {number}"),
    }
}

fn one(number: u128) -> String {
    number.to_string()
}

fn two((first, second): (u128, u128)) -> String {
    format!("{first} {second}")
}

fn digits(flags: [bool; 5]) -> String {
    flags.map(|flag| if flag { '1' } else { '0' }).iter().collect()
}

fn prototype(prototype: Prototype) -> String {
    match prototype {
        Prototype::Null => "null".to_string(),
        Prototype::Data(size) => format!("data {size}"),
        Prototype::List(count) => format!("list {count}"),
    }
}

fn wide(word: &str) -> Option<u128> {
    number(word).map(u128::from)
}
