//! The works done by R, each in the way nearest to the library's that a user of R has. R writes to a buffer that need not grow, and strings
//! are read without a copy.

use std::hint::black_box;
use std::mem;

use rlp::{DecoderError, Rlp, RlpStream};

use crate::day::{Day, Desk, Reading};
use crate::works::{added, tally};

type Answer = Result<u64, DecoderError>;

/// R has no strict check. This walk reads every item's header, and counts items and levels.
pub fn check(day: &Day) -> Answer {
    let (items, depth) = walked(&Rlp::new(&day.sheet))?;
    Ok(tally(items, depth))
}

fn walked(rlp: &Rlp) -> Result<(usize, usize), DecoderError> {
    if !rlp.is_list() {
        rlp.data()?;
        return Ok((1, 0));
    }
    let (mut items, mut depth) = (1, 0);
    for item in rlp.iter() {
        let (inner, below) = walked(&item)?;
        items += inner;
        depth = depth.max(below);
    }
    Ok((items, depth + 1))
}

pub fn walk_val_at(day: &Day) -> Answer {
    let mut sum = 0;
    for reading in Rlp::new(&day.sheet).iter() {
        sum = added(sum, reading.at(0)?.data()?, reading.val_at(1)?, reading.val_at(2)?);
    }
    Ok(sum)
}

pub fn walk_iter(day: &Day) -> Answer {
    let mut sum = 0;
    for reading in Rlp::new(&day.sheet).iter() {
        let mut fields = reading.iter();
        let mut next = || fields.next().ok_or(DecoderError::RlpIsTooShort);
        sum = added(sum, next()?.data()?, next()?.as_val()?, next()?.as_val()?);
    }
    Ok(sum)
}

pub fn item_count(day: &Day) -> Answer {
    Ok(Rlp::new(&day.sheet).item_count()? as u64)
}

pub fn at(day: &Day) -> Answer {
    let (item, offset) = Rlp::new(&day.sheet).at_with_offset(day.readings.len() * 9 / 10)?;
    Ok((offset + item.as_raw().len()) as u64)
}

pub fn at_each(day: &Day) -> Answer {
    let sheet = Rlp::new(&day.sheet);
    let mut bytes = 0;
    for index in 0..day.readings.len() {
        bytes += sheet.at(index)?.as_raw().len();
    }
    Ok(bytes as u64)
}

/// One call on one item, once for each reading.
fn repeated(day: &Day, item: &[u8], call: impl Fn(Rlp) -> Answer) -> Answer {
    let mut sum = 0u64;
    for _ in &day.readings {
        sum = sum.wrapping_add(call(Rlp::new(black_box(item)))?);
    }
    Ok(sum)
}

pub fn u64(day: &Day) -> Answer {
    repeated(day, &day.time_item, |item| item.as_val())
}

pub fn u16(day: &Day) -> Answer {
    repeated(day, &day.gravity_item, |item| Ok(u64::from(item.as_val::<u16>()?)))
}

pub fn value(day: &Day) -> Answer {
    repeated(day, &day.name_item, |item| item.decoder().decode_value(|bytes| Ok(black_box(bytes).len() as u64)))
}

pub fn data(day: &Day) -> Answer {
    repeated(day, &day.name_item, |item| Ok(black_box(item.data()?).len() as u64))
}

pub fn payload_info(day: &Day) -> Answer {
    repeated(day, &day.name_item, |item| item.payload_info().map(|info| (info.header_len + info.value_len) as u64))
}

fn append(stream: &mut RlpStream, name: &[u8], time: u64, gravity: u16) {
    stream.begin_list(3).append(&name).append(&time).append(&gravity);
}

/// A stream on the desk's buffer, with a list of so many items begun.
fn stream(desk: &mut Desk, count: usize) -> RlpStream {
    RlpStream::new_list_with_buffer(mem::take(&mut desk.stream), count)
}

/// Puts the finished stream's buffer back.
fn out(desk: &mut Desk, stream: RlpStream) -> u64 {
    desk.stream = stream.out();
    desk.stream.len() as u64
}

pub fn build(day: &Day, desk: &mut Desk) -> u64 {
    let mut stream = stream(desk, day.readings.len());
    for reading in &day.readings {
        append(&mut stream, &reading.name, reading.time, reading.gravity);
    }
    out(desk, stream)
}

/// Amending by R: every item is copied as it is into a new sheet, but for one.
pub fn amend_raw(day: &Day, desk: &mut Desk, replacement: &[u8]) -> Answer {
    let sheet = Rlp::new(&day.sheet);
    let count = sheet.item_count()?;
    let mut stream = stream(desk, count);
    for index in 0..count {
        if index == day.middle() {
            stream.append_raw(replacement, 1);
        } else {
            stream.append_raw(sheet.at(index)?.as_raw(), 1);
        }
    }
    Ok(out(desk, stream))
}

/// Amending by R: every reading is read and written again, but for one.
pub fn amend_decoded(day: &Day, desk: &mut Desk, replacement: &Reading) -> Answer {
    let sheet = Rlp::new(&day.sheet);
    let mut stream = stream(desk, sheet.item_count()?);
    for (index, item) in sheet.iter().enumerate() {
        if index == day.middle() {
            append(&mut stream, &replacement.name, replacement.time, replacement.gravity);
        } else {
            append(&mut stream, item.at(0)?.data()?, item.val_at(1)?, item.val_at(2)?);
        }
    }
    Ok(out(desk, stream))
}
