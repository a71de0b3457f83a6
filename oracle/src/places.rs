//! Cached places: of every kind for a list, and all small ones over small inputs.

use crate::case_set::{CaseSet, Place};
use crate::encode::List;
use crate::short_inputs::inputs;
use std::io;

/// Small inputs start with one of these bytes, whose lists end in them or past their end, and go on with bytes that are
/// whole items and ones that are not.
const FIRST: &[u8] = &[0xc0, 0xc1, 0xc2, 0xc3, 0xc4, 0xf8];
const LATER: &[u8] = &[0x00, 0x81, 0xb8, 0xc1];

/// The greatest index over small inputs, asked for and handed in.
const LAST_INDEX: u64 = 3;

/// Every kind of place for asking a list for an item: right, behind, ahead, outside the payload on each side and at its
/// end, in the header, in the middle of an item, and at another item.
pub fn places(list: &List, index: u64) -> Vec<Place> {
    let mut places: Vec<Place> = known_indexes(list, index).filter_map(|known| right_place(list, known)).collect();
    for offset in offsets(list) {
        places.extend([(0, offset), (index, offset)]);
        places.extend(index.checked_sub(1).map(|behind| (behind, offset)));
        places.extend(index.checked_add(1).map(|ahead| (ahead, offset)));
    }
    places.push((u64::MAX, 0));
    places.sort();
    places.dedup();
    places
}

/// The indexes of items around the one that is asked for, and of the first, the middle and the last.
fn known_indexes(list: &List, index: u64) -> impl Iterator<Item = u64> {
    let count = list.starts.len() as u64;
    let around = [index.checked_sub(1), Some(index), index.checked_add(1)];
    let others = [Some(0), Some(count / 2), count.checked_sub(1)];
    around.into_iter().chain(others).flatten()
}

/// The place of an item, if the list has it.
pub fn right_place(list: &List, index: u64) -> Option<Place> {
    let start = list.starts.get(usize::try_from(index).ok()?)?;
    Some((index, *start as u64))
}

/// Offsets in each part of the bytes and on both sides of each bound: the header, the first items and the last, before and
/// in the middle, the list's end, the end of the bytes, and past all of them.
fn offsets(list: &List) -> Vec<u64> {
    let items = list.starts.iter().take(2).chain(list.starts.last());
    let in_items = items.flat_map(|start| [*start, start + 1]);
    let bounds = [0, list.header - 1, list.header, list.end - 1, list.end, list.end + 1];
    let ends = [list.bytes.len(), list.bytes.len() + 1];
    let mut offsets: Vec<u64> = in_items.chain(bounds).chain(ends).map(|offset| offset as u64).collect();
    offsets.extend([1 << 32, 1 << 63, u64::MAX]);
    offsets.sort();
    offsets.dedup();
    offsets
}

/// All small places over all small inputs.
pub fn small_places(set: &mut CaseSet) -> io::Result<()> {
    set.heading("Small inputs with small places.")?;
    for length in 1..=5 {
        for bytes in inputs(length, FIRST, LATER) {
            small_places_over(set, &bytes)?;
        }
    }
    Ok(())
}

fn small_places_over(set: &mut CaseSet, bytes: &[u8]) -> io::Result<()> {
    for index in 0..=LAST_INDEX {
        set.at(bytes, index, false)?;
        for known in 0..=LAST_INDEX {
            for offset in 0..=bytes.len() as u64 + 1 {
                set.at_from(bytes, index, (known, offset), false)?;
            }
        }
    }
    Ok(())
}
