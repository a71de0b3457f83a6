//! R's answers to amendings. R has no amender: it reads the sheet, and its stream writes the items anew, with the replacement
//! appended raw where the path ends. The driver puts zeros and the rest of the buffer behind that. It answers `none` where R
//! cannot read the sheet or the replacement, where the path names no item to R, and where the buffer has no room. R has not the
//! limits of the rules, so its answer counts only where the rules accept.

use line::{Amending, amend_line, hex};
use rlp::{Rlp, RlpStream};
use std::panic::{AssertUnwindSafe, catch_unwind};

pub fn answer(words: &[&str]) -> Option<String> {
    let amending = amend_line(words)?;
    let answer = catch_unwind(AssertUnwindSafe(|| amended(&amending)));
    Some(answer.map_or("panic".to_string(), |answer| answer.unwrap_or("none".to_string())))
}

fn amended(amending: &Amending) -> Option<String> {
    let Amending { buffer, n, path, replacement } = amending;
    let n = usize::try_from(*n).ok()?;
    let sheet = buffer.get(..n)?;
    append(&mut RlpStream::new(), &Rlp::new(replacement), None)?;
    let mut stream = RlpStream::new();
    append(&mut stream, &Rlp::new(sheet), Some((path, replacement)))?;
    let amended = stream.out();
    if amended.len() > buffer.len() {
        return None;
    }
    let mut after = buffer.clone();
    after[..n].fill(0);
    after[..amended.len()].copy_from_slice(&amended);
    Some(format!("ok {} {}", amended.len(), hex(&after)))
}

/// Appends an item; if a path goes through it, with the replacement at the path's end.
fn append(stream: &mut RlpStream, item: &Rlp, exchange: Option<(&[u64], &[u8])>) -> Option<()> {
    match exchange {
        Some(([], replacement)) => drop(stream.append_raw(replacement, 1)),
        _ if item.is_list() => append_list(stream, item, exchange)?,
        Some(_) => return None,
        None => drop(stream.append(&item.data().ok()?)),
    }
    Some(())
}

fn append_list(stream: &mut RlpStream, list: &Rlp, exchange: Option<(&[u64], &[u8])>) -> Option<()> {
    list.payload_info().ok()?;
    let count = list.item_count().ok()?;
    if exchange.is_some_and(|(path, _)| path[0] >= count as u64) {
        return None;
    }
    stream.begin_list(count);
    for index in 0..count {
        let inner = exchange.filter(|(path, _)| path[0] == index as u64);
        append(stream, &list.at(index).ok()?, inner.map(|(path, replacement)| (&path[1..], replacement)))?;
    }
    Some(())
}
