//! The rules, docs/RULES.md, as short as they can be said, each beside its sentence.
//! Written from the sentences, not from R's code; numbers are u128, so that nothing in here can overflow.

/// A refusal is its number.
pub type Answer<T> = Result<T, u8>;

/// The lengths of an item's header and of its value.
pub type Lengths = (u128, u128);

/// Where a part of the bytes lies: its start and its length.
pub type Part = (u128, u128);

/// "built for 64 bits": what passes this overflows.
const LARGEST: u128 = u64::MAX as u128;

/// "Over 8 bytes: 4. First byte 0: 3. Empty: R panics, the port gives 1."
pub fn length(bytes: &[u8]) -> Answer<u128> {
    match bytes {
        [_, _, _, _, _, _, _, _, _, ..] => Err(4),
        [0, ..] => Err(3),
        [] => Err(1),
        _ => Ok(big_endian(bytes)),
    }
}

/// "n in k big-endian bytes"
fn big_endian(bytes: &[u8]) -> u128 {
    bytes.iter().fold(0, |number, byte| 256 * number + u128::from(*byte))
}

/// "The first byte falls in one of five ranges: up to 7f, up to b7, up to bf, up to f7, the rest. They give header and
/// value lengths (0, 1), (1, l-128), long data, (1, l-192), long list."
/// A long form has "183+k, then n in k big-endian bytes", a list "247+k".
/// No sentence speaks of no bytes at all: there "R decides the lenient calls", and gives 1.
pub fn from(bytes: &[u8]) -> Answer<Lengths> {
    let first = u128::from(*bytes.first().ok_or(1)?);
    match first {
        0..=0x7f => Ok((0, 1)),
        0x80..=0xb7 => Ok((1, first - 128)),
        0xb8..=0xbf => long_form(bytes, first - 183),
        0xc0..=0xf7 => Ok((1, first - 192)),
        _ => long_form(bytes, first - 247),
    }
}

/// "Long form, in order: second byte 0 is 2; absent is 1; length bytes cut is 1; a length of 55 or less is 3."
fn long_form(bytes: &[u8], count: u128) -> Answer<Lengths> {
    if bytes.get(1) == Some(&0) {
        return Err(2);
    }
    match length(length_bytes(bytes, count).ok_or(1)?)? {
        0..=55 => Err(3),
        value => Ok((1 + count, value)),
    }
}

/// So many bytes after the first, or `None` if they are cut.
fn length_bytes(bytes: &[u8], count: u128) -> Option<&[u8]> {
    bytes.get(1..1 + count as usize)
}

/// "`payload_info` then gives 1 where header plus value overflows or passes the slice."
pub fn payload_info(bytes: &[u8]) -> Answer<Lengths> {
    let (header, value) = from(bytes)?;
    if header + value > LARGEST || header + value > size(bytes) { Err(1) } else { Ok((header, value)) }
}

/// How many bytes there are.
fn size(bytes: &[u8]) -> u128 {
    bytes.len() as u128
}

/// "`total` refuses overflow with 1."
pub fn total(bytes: &[u8]) -> Answer<u128> {
    let (header, value) = from(bytes)?;
    if header + value > LARGEST { Err(1) } else { Ok(header + value) }
}

/// "R's `data` uses `payload_info` instead and also hands back a list's payload."
pub fn data(bytes: &[u8]) -> Answer<Part> {
    payload_info(bytes)
}

/// "Order: empty 1; short data [..]; long form: [..]; a list 7." "Bytes after the value are ignored."
/// "a one-byte string below 128 is itself"
pub fn value(bytes: &[u8]) -> Answer<Part> {
    let first = u128::from(*bytes.first().ok_or(1)?);
    match first {
        0..=0x7f => Ok((0, 1)),
        0x80..=0xb7 => short_value(bytes, first - 128),
        0xb8..=0xbf => long_value(bytes, first - 183),
        _ => Err(7),
    }
}

/// "short data cut 5; 81 with a byte below 80 gives 3"
fn short_value(bytes: &[u8], length: u128) -> Answer<Part> {
    if 1 + length > size(bytes) {
        return Err(5);
    }
    if bytes[0] == 0x81 && bytes[1] < 0x80 { Err(3) } else { Ok((1, length)) }
}

/// "long form: length bytes cut 5, then their refusal, end overflows 6, value cut 5"
/// "It doesn't refuse a long form of 55 or less."
fn long_value(bytes: &[u8], count: u128) -> Answer<Part> {
    let length = length(length_bytes(bytes, count).ok_or(5)?)?;
    let end = 1 + count + length;
    if end > LARGEST {
        return Err(6);
    }
    if end > size(bytes) { Err(5) } else { Ok((1 + count, length)) }
}

/// "Value's refusals, then by payload: empty is 0; one byte 00 is 3; 2 up to the width with first byte 0 is 3; longer is 4."
pub fn integer(bytes: &[u8], width: usize) -> Answer<u128> {
    let (start, length) = value(bytes)?;
    match &bytes[start as usize..(start + length) as usize] {
        [] => Ok(0),
        [0] => Err(3),
        payload if payload.len() > width => Err(4),
        [0, ..] => Err(3),
        payload => Ok(big_endian(payload)),
    }
}

/// "bool takes 0 and 1, else 9." It is read as a u8.
pub fn boolean(bytes: &[u8]) -> Answer<u128> {
    match integer(bytes, 1)? {
        truth @ (0 | 1) => Ok(truth),
        _ => Err(9),
    }
}

/// Is_null, is_empty, is_list, is_data and is_int. Their sentences are R's: the first byte says it all, but for `is_int`.
pub fn flags(bytes: &[u8]) -> [bool; 5] {
    let first = bytes.first();
    let is_empty = matches!(first, Some(0x80 | 0xc0));
    [first.is_none(), is_empty, is_list(bytes), is_data(bytes), is_int(bytes)]
}

fn is_list(bytes: &[u8]) -> bool {
    matches!(bytes.first(), Some(0xc0..=0xff))
}

fn is_data(bytes: &[u8]) -> bool {
    matches!(bytes.first(), Some(0x00..=0xbf))
}

/// In R, data whose first payload byte is there and not 0, and 00 to 80 too.
/// "`is_int` on 81 to b7 with no second byte panics in R; here no."
fn is_int(bytes: &[u8]) -> bool {
    let header = match bytes.first() {
        Some(0x00..=0x80) => return true,
        Some(0x81..=0xb7) => 1,
        Some(first @ 0xb8..=0xbf) => 1 + usize::from(first - 183),
        _ => return false,
    };
    bytes.get(header).is_some_and(|byte| *byte != 0)
}

/// The size of data's value, as in R: 0 for damaged data, and for what is no data.
pub fn data_size(bytes: &[u8]) -> u128 {
    match payload_info(bytes) {
        Ok((_, value)) if is_data(bytes) => value,
        _ => 0,
    }
}

/// A list's header and where its payload ends: "not a list 8; the list's header refusal (from `payload_info`)"
fn list(bytes: &[u8]) -> Answer<(u128, u128)> {
    if !is_list(bytes) {
        return Err(8);
    }
    let (header, value) = payload_info(bytes)?;
    Ok((header, header + value))
}

/// "`item_count`: 8 if no list, the list's header refusal, else the first refusal met in the payload, else the count."
pub fn count(bytes: &[u8]) -> Answer<u128> {
    let (mut offset, end) = list(bytes)?;
    let mut count = 0;
    while offset < end {
        let (header, value) = payload_info(&bytes[offset as usize..end as usize])?;
        offset += header + value;
        count += 1;
    }
    Ok(count)
}

pub enum Prototype {
    Null,
    Data(u128),
    List(u128),
}

/// As in R: data with its size, a list with its count, else null. A refusal of the count is passed on.
pub fn prototype(bytes: &[u8]) -> Answer<Prototype> {
    if is_data(bytes) {
        Ok(Prototype::Data(data_size(bytes)))
    } else if is_list(bytes) {
        count(bytes).map(Prototype::List)
    } else {
        Ok(Prototype::Null)
    }
}

/// "A cached place is an index and an offset."
#[derive(Clone, Copy)]
pub struct Place {
    pub index: u128,
    pub offset: u128,
}

/// "Item i of a fresh view: not a list 8; the list's header refusal (from `payload_info`); then `payload_info` over the
/// rest of the list's own payload, item after item"
/// "A cached place [..]. If its index is at most i the walk starts there, still bounded by the payload; after the list's
/// header refusal, an offset outside the payload is 1."
pub fn at(bytes: &[u8], index: u128, place: Option<Place>) -> Answer<Part> {
    let (header, end) = list(bytes)?;
    let up_to_end = &bytes[..end as usize];
    match place {
        Some(place) if place.index <= index => {
            if place.offset < header || place.offset > end {
                return Err(1);
            }
            walk(up_to_end, place.offset, index - place.index)
        }
        _ => walk(up_to_end, header, index),
    }
}

/// "leaving the walk at the i-th with its offset in the whole bytes. Past the end is 1."
fn walk(bytes: &[u8], start: u128, index: u128) -> Answer<Part> {
    let mut offset = start;
    let mut left = index;
    loop {
        let (header, value) = payload_info(&bytes[offset as usize..])?;
        if left == 0 {
            return Ok((offset, header + value));
        }
        offset += header + value;
        left -= 1;
    }
}

/// "the number of items, itself included, and the depth"
pub type Tree = (u128, u128);

/// The most bytes of a lent slice, and the most levels: "over 1,048,576 bytes", "11 at a 17th level".
pub const MOST_BYTES: u128 = 1_048_576;
pub const MOST_LEVELS: u128 = 16;

/// "Top level: 12 first; empty input is 1; 10 last." On no bytes `payload_info` gives that 1.
pub fn strict(bytes: &[u8]) -> Answer<Tree> {
    if size(bytes) > MOST_BYTES {
        return Err(12);
    }
    let (tree, length) = strict_item(bytes, 1)?;
    if length < size(bytes) { Err(10) } else { Ok(tree) }
}

/// The item that the bytes start with, which may be a list of this level, counted from 1: its tree and its whole length.
/// "At each: `payload_info`'s refusals, 3 for 81 with a byte below 80, 11 at a 17th level, then the contents."
/// "Data has depth 0, an empty list 1, other lists one more than their deepest item."
fn strict_item(bytes: &[u8], level: u128) -> Answer<(Tree, u128)> {
    let (header, value) = payload_info(bytes)?;
    if bytes[0] == 0x81 && bytes[1] < 0x80 {
        return Err(3);
    }
    if is_data(bytes) {
        return Ok(((1, 0), header + value));
    }
    if level > MOST_LEVELS {
        return Err(11);
    }
    let row = strict_row(&bytes[header as usize..(header + value) as usize], level + 1)?;
    Ok(((row.items + 1, row.deepest + 1), header + value))
}

/// The items that stand side by side in a payload: how many, how many with all the items in them, and the depth of the deepest.
pub struct Row {
    pub count: u128,
    items: u128,
    pub deepest: u128,
}

/// "Items are read depth first, left to right, each bounded by its list's payload." They may be lists of this level.
pub fn strict_row(payload: &[u8], level: u128) -> Answer<Row> {
    let mut row = Row { count: 0, items: 0, deepest: 0 };
    let mut rest = payload;
    while !rest.is_empty() {
        let ((items, depth), length) = strict_item(rest, level)?;
        row = Row { count: row.count + 1, items: row.items + items, deepest: depth.max(row.deepest) };
        rest = &rest[length as usize..];
    }
    Ok(row)
}
