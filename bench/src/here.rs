//! The works done by the library, through its Rust crate.

use std::hint::black_box;

use loughcable::{Refusal, Rlp, RlpStream};

use crate::day::{Day, Desk};
use crate::works::{added, tally};

type Answer = Result<u64, Refusal>;

pub fn check(day: &Day) -> Answer {
    let found = loughcable::check(&day.sheet)?;
    Ok(tally(found.items, found.depth))
}

pub fn walk_val_at(day: &Day) -> Answer {
    let mut sum = 0;
    for reading in Rlp::new(&day.sheet).iter() {
        let reading = reading?;
        sum = added(sum, reading.val_at(0)?, reading.val_at(1)?, reading.val_at(2)?);
    }
    Ok(sum)
}

pub fn walk_iter(day: &Day) -> Answer {
    let mut sum = 0;
    for reading in Rlp::new(&day.sheet).iter() {
        let mut fields = reading?.iter();
        let mut next = || fields.next().unwrap_or(Err(Refusal::RlpIsTooShort));
        sum = added(sum, next()?.as_val()?, next()?.as_val()?, next()?.as_val()?);
    }
    Ok(sum)
}

pub fn item_count(day: &Day) -> Answer {
    Ok(Rlp::new(&day.sheet).item_count()? as u64)
}

pub fn at(day: &Day) -> Answer {
    let (item, offset) = Rlp::new(&day.sheet).at_with_offset(day.readings.len() * 9 / 10)?;
    Ok((offset + item.as_raw().len()) as u64)
}

pub fn at_each(day: &Day) -> Answer {
    let sheet = Rlp::new(&day.sheet);
    let mut bytes = 0;
    for index in 0..day.readings.len() {
        bytes += sheet.at(index)?.as_raw().len();
    }
    Ok(bytes as u64)
}

/// One call on one item, once for each reading.
fn repeated(day: &Day, item: &[u8], call: impl Fn(Rlp) -> Answer) -> Answer {
    let mut sum = 0u64;
    for _ in &day.readings {
        sum = sum.wrapping_add(call(Rlp::new(black_box(item)))?);
    }
    Ok(sum)
}

pub fn u64(day: &Day) -> Answer {
    repeated(day, &day.time_item, |item| item.as_val())
}

pub fn u16(day: &Day) -> Answer {
    repeated(day, &day.gravity_item, |item| Ok(u64::from(item.as_val::<u16>()?)))
}

pub fn value(day: &Day) -> Answer {
    repeated(day, &day.name_item, |item| item.decoder().decode_value(|bytes| Ok(black_box(bytes).len() as u64)))
}

pub fn data(day: &Day) -> Answer {
    repeated(day, &day.name_item, |item| Ok(black_box(item.data()?).len() as u64))
}

pub fn payload_info(day: &Day) -> Answer {
    repeated(day, &day.name_item, |item| item.payload_info().map(|info| (info.header_len + info.value_len) as u64))
}

pub fn build(day: &Day, desk: &mut Desk) -> Answer {
    let mut stream = RlpStream::new_list(&mut desk.buf, day.readings.len())?;
    for reading in &day.readings {
        stream.begin_list(3)?.append(&reading.name)?.append(&reading.time)?.append(&reading.gravity)?;
    }
    Ok(stream.out()?.len() as u64)
}

pub fn amend(day: &Day, desk: &mut Desk, replacement: &[u8]) -> Answer {
    Ok(loughcable::amend(&mut desk.buf, day.sheet.len(), &[day.middle()], replacement)? as u64)
}
