//! Items by their headers: length bytes alone, and short and long forms of every boundary length, cut, whole and followed by
//! more.

use crate::case_set::{CaseSet, NO_CALLS};
use crate::encode::big_endian;
use crate::short_inputs::BOUNDARY;
use line::MOST_BYTES;
use std::io;

/// The smallest length that passes 64 bits together with the header of 9 bytes that it needs.
const OVERFLOWING: u64 = u64::MAX - 8;

/// Lengths on both sides of every bound. With a header of 4 bytes, those around a million are the longest items that a line
/// may give, and one more.
const LENGTHS: &[u64] = &[
    0,
    1,
    55,
    56,
    255,
    256,
    65_535,
    65_536,
    MOST_BYTES as u64 - 5,
    MOST_BYTES as u64 - 4,
    MOST_BYTES as u64 - 3,
    (1 << 32) - 1,
    1 << 32,
    1 << 63,
    OVERFLOWING - 1,
    OVERFLOWING,
    OVERFLOWING + 1,
    u64::MAX - 1,
    u64::MAX,
];

/// The bytes that follow a whole item.
const AFTER: &[&[u8]] = &[&[], &[0x00], &[0xc0, 0x80, 0x05, 0xff, 0x00]];

/// The calls that the sample gets of headers, of short forms, of long strings and of long lists.
const HEADER_CALLS: &[&str] = &["from", "total", "info", "value"];
const SHORT_CALLS: &[&str] = &["info", "data", "value", "size"];
const STRING_CALLS: &[&str] = &["info", "data", "value", "strict"];
const LIST_CALLS: &[&str] = &["info", "count", "strict"];

pub fn length_bytes(set: &mut CaseSet) -> io::Result<()> {
    set.heading("Length bytes: boundary lengths in 1 to 10 bytes, and 2 to 10 boundary bytes.")?;
    for width in 1..=10 {
        for bytes in LENGTHS.iter().filter_map(|length| big_endian((*length).into(), width)) {
            set.call("length", &bytes, true)?;
        }
    }
    for (first, last) in pairs(BOUNDARY) {
        for middle in [0x00, 0x01, 0x7f, 0x80, 0xff] {
            for width in 2..=10 {
                let mut bytes = vec![middle; width];
                (bytes[0], bytes[width - 1]) = (first, last);
                set.call("length", &bytes, middle == 0x80 && first == last)?;
            }
        }
    }
    Ok(())
}

fn pairs(bytes: &[u8]) -> impl Iterator<Item = (u8, u8)> {
    bytes.iter().flat_map(|first| bytes.iter().map(|second| (*first, *second)))
}

pub fn short_forms(set: &mut CaseSet) -> io::Result<()> {
    set.heading("Short forms.")?;
    for byte in [0x00, 0x7f] {
        item(set, &Item { header: vec![], length: 1, filler: byte }, SHORT_CALLS)?;
    }
    for (base, filler) in [(0x80, 0x61), (0x80, 0x05), (0xc0, 0x01)] {
        for length in [0, 1, 2, 54, 55] {
            item(set, &Item { header: vec![base + length], length: length.into(), filler }, SHORT_CALLS)?;
        }
    }
    Ok(())
}

pub fn long_forms(set: &mut CaseSet) -> io::Result<()> {
    set.heading("Long forms.")?;
    for (base, filler, calls) in [(0xb7, 0x61, STRING_CALLS), (0xf7, 0x01, LIST_CALLS)] {
        for width in 1..=8 {
            for length in LENGTHS {
                let Some(length_bytes) = big_endian((*length).into(), width) else { continue };
                let picked = match length_bytes[0] {
                    0 => NO_CALLS,
                    _ if *length >= OVERFLOWING => HEADER_CALLS,
                    _ => calls,
                };
                let header = [vec![base + width as u8], length_bytes].concat();
                item(set, &Item { header, length: *length, filler }, picked)?;
            }
        }
    }
    Ok(())
}

/// A header, the length that it states, and the byte of which the value is made.
struct Item {
    header: Vec<u8>,
    length: u64,
    filler: u8,
}

impl Item {
    /// The header, so many bytes of the value and some more, if a line may give that many.
    fn with(&self, there: u64, after: &[u8]) -> Option<Vec<u8>> {
        let room = MOST_BYTES - self.header.len() - after.len();
        if there > room as u64 {
            return None;
        }
        Some([&self.header[..], &vec![self.filler; there as usize], after].concat())
    }
}

/// An item cut at each byte of the header and at the first, second, middle and last byte of the value, with a few bytes of
/// the value, whole, and followed by more. The sample gets the header for each call that looks at it, and the picked calls
/// of the rest.
fn item(set: &mut CaseSet, item: &Item, picked: &[&str]) -> io::Result<()> {
    for cut in 0..item.header.len() {
        set.every_call(&item.header[..cut], if cut + 1 == item.header.len() { HEADER_CALLS } else { picked })?;
    }
    set.every_call(&item.header, HEADER_CALLS)?;
    for there in [1, 2, 60, item.length / 2, item.length.saturating_sub(1)] {
        if there < item.length {
            item.with(there, &[]).map_or(Ok(()), |bytes| set.every_call(&bytes, picked))?;
        }
    }
    for after in AFTER {
        item.with(item.length, after).map_or(Ok(()), |bytes| set.every_call(&bytes, picked))?;
    }
    Ok(())
}
