//! Numbers: each boundary number in as few bytes as it takes and in more, in every form, cut, whole and followed by more.

use crate::case_set::{CaseSet, NO_CALLS};
use crate::encode::big_endian;
use std::io;

/// Numbers on both sides of the bounds of one byte and of each width, and the first that no width takes.
const NUMBERS: &[u128] = &[
    0,
    1,
    2,
    127,
    128,
    255,
    256,
    (1 << 16) - 1,
    1 << 16,
    (1 << 24) - 1,
    1 << 24,
    (1 << 32) - 1,
    1 << 32,
    (1 << 63) - 1,
    1 << 63,
    (1 << 64) - 1,
    1 << 64,
];

/// The most bytes that a number is written in, leading zeros and all.
const WIDEST: usize = 10;

/// The bytes that follow a number.
const AFTER: &[&[u8]] = &[&[0x00], &[0x01], &[0xc0, 0x80, 0x05, 0xff, 0x00]];

/// The calls that the sample gets of a number, and of one that is followed by more.
const NUMBER_CALLS: &[&str] = &["value", "u8", "u16", "u32", "u64", "bool"];
const WIDE_NUMBER_CALLS: &[&str] = &["u32", "u64"];

pub fn numbers(set: &mut CaseSet) -> io::Result<()> {
    set.heading("Numbers.")?;
    for number in NUMBERS {
        let narrowest = (0..).find(|width| big_endian(*number, *width).is_some()).expect("it fits into 16 bytes");
        for width in narrowest..=WIDEST {
            let payload = big_endian(*number, width).expect("it fits");
            let in_sample = width <= narrowest + 1 || [2, 4, 8, 9].contains(&width);
            for form in forms(&payload) {
                written_number(set, &form, in_sample)?;
            }
        }
    }
    Ok(())
}

/// A payload as itself, if it is one byte below 80; in the short form; and in long forms of one and two length bytes.
fn forms(payload: &[u8]) -> Vec<Vec<u8>> {
    let length = payload.len() as u8;
    let behind = |header: &[u8]| [header, payload].concat();
    let mut forms = vec![behind(&[0x80 + length]), behind(&[0xb8, length]), behind(&[0xb9, 0x00, length])];
    if matches!(payload, [0x00..=0x7f]) {
        forms.push(payload.to_vec());
    }
    forms
}

/// A number alone, cut by a byte, without its payload, and followed by more. The sample gets the short form alone and
/// followed by one byte, and the shorter long form.
fn written_number(set: &mut CaseSet, bytes: &[u8], in_sample: bool) -> io::Result<()> {
    let picked = if in_sample && bytes[0] != 0xb9 { NUMBER_CALLS } else { NO_CALLS };
    set.every_call(bytes, picked)?;
    set.every_call(&bytes[..bytes.len() - 1], NO_CALLS)?;
    set.every_call(&bytes[..1], NO_CALLS)?;
    set.at(bytes, 0, false)?;
    for after in AFTER {
        let picked = if in_sample && bytes[0] < 0xb8 && after == &[0x01] { WIDE_NUMBER_CALLS } else { NO_CALLS };
        set.every_call(&[bytes, after].concat(), picked)?;
    }
    Ok(())
}
