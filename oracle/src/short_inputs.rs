//! Short inputs: all of 0 to 2 bytes, those of 3 to 5 boundary bytes, and all of 3 bytes, which make a set of their own.

use crate::case_set::{CALLS, CaseSet, NO_CALLS};
use std::io::{self, Write};

/// Bytes on both sides of every bound of the rules.
pub const BOUNDARY: &[u8] = &[
    0x00, 0x01, 0x37, 0x38, 0x7f, 0x80, 0x81, 0xb6, 0xb7, 0xb8, 0xb9, 0xbe, 0xbf, 0xc0, 0xc1, 0xf6, 0xf7, 0xf8, 0xf9,
    0xfe, 0xff,
];

/// First bytes of inputs of 3 to 5 bytes: the boundary bytes, and the lists and long forms that are that long.
const FIRST: &[u8] = &[
    0x00, 0x01, 0x37, 0x38, 0x7f, 0x80, 0x81, 0x82, 0xb6, 0xb7, 0xb8, 0xb9, 0xba, 0xbb, 0xbe, 0xbf, 0xc0, 0xc1, 0xc2,
    0xc3, 0xc4, 0xf6, 0xf7, 0xf8, 0xf9, 0xfa, 0xfb, 0xfe, 0xff,
];

/// The bytes after the first in inputs of 4 bytes, and of 5 bytes.
const SOME: &[u8] = &[0x00, 0x01, 0x37, 0x38, 0x7f, 0x80, 0x81, 0xb8, 0xc0, 0xc1, 0xf8, 0xff];
const FEW: &[u8] = &[0x00, 0x38, 0x81, 0xb8, 0xc1, 0xff];

/// The second bytes of the inputs of 2 bytes that go into the sample.
const SECOND_IN_SAMPLE: &[u8] = &[0x00, 0x37, 0x80, 0xff];

/// The calls that the sample gets of every input of 1 byte.
const FIRST_BYTE_CALLS: &[&str] = &["info", "flags"];

/// One in so many of the inputs of boundary bytes goes into the sample.
const INPUTS_FOR_ONE_PICKED: usize = 3_301;

/// The numbers after the bytes in each `at` of an input that starts as a list: items of a fresh view, and from places.
const AT: &[&str] = &["0", "1", "2", "0 0 2", "1 0 1", "2 0 1", "2 1 2"];

pub fn shortest(set: &mut CaseSet) -> io::Result<()> {
    set.heading("Inputs of 0, 1 and 2 bytes.")?;
    input(set, &[], true)?;
    for first in 0..=255 {
        set.every_call(&[first], FIRST_BYTE_CALLS)?;
        input(set, &[first], BOUNDARY.contains(&first))?;
    }
    for first in 0..=255 {
        for second in 0..=255 {
            let pick = BOUNDARY.contains(&first) && SECOND_IN_SAMPLE.contains(&second);
            input(set, &[first, second], pick)?;
        }
    }
    Ok(())
}

/// Every call of an input, and its first two items if it starts as a list.
fn input(set: &mut CaseSet, bytes: &[u8], pick: bool) -> io::Result<()> {
    set.every_call(bytes, if pick { CALLS } else { NO_CALLS })?;
    let indexes = if matches!(bytes, [0xc0..=0xff, ..]) { 0..2 } else { 0..u64::from(pick) };
    indexes.into_iter().try_for_each(|index| set.at(bytes, index, pick))
}

pub fn of_boundary_bytes(set: &mut CaseSet) -> io::Result<()> {
    set.heading("Inputs of 3, 4 and 5 boundary bytes.")?;
    for (length, later) in [(3, BOUNDARY), (4, SOME), (5, FEW)] {
        for (number, bytes) in inputs(length, FIRST, later).enumerate() {
            input(set, &bytes, number % INPUTS_FOR_ONE_PICKED == 0)?;
        }
    }
    Ok(())
}

/// All inputs of a length that start with a byte of `first` and go on with bytes of `later`.
pub fn inputs(length: u32, first: &[u8], later: &[u8]) -> impl Iterator<Item = Vec<u8>> {
    (0..first.len() * later.len().pow(length - 1)).map(move |number| {
        let mut bytes = vec![first[number % first.len()]];
        let mut rest = number / first.len();
        for _ in 1..length {
            bytes.push(later[rest % later.len()]);
            rest /= later.len();
        }
        bytes
    })
}

/// Writes every call of all inputs of 3 bytes.
pub fn write_three(output: &mut impl Write) -> io::Result<()> {
    for number in 0..1_u32 << 24 {
        let input = format!("{number:06x}");
        for call in CALLS {
            write_words(output, &[call, &input])?;
        }
        if number >= 0xc0_0000 {
            AT.iter().try_for_each(|numbers| write_words(output, &["at", &input, numbers]))?;
        }
    }
    Ok(())
}

fn write_words(output: &mut impl Write, words: &[&str]) -> io::Result<()> {
    for (number, word) in words.iter().enumerate() {
        output.write_all(if number == 0 { b"" } else { b" " })?;
        output.write_all(word.as_bytes())?;
    }
    output.write_all(b"\n")
}
