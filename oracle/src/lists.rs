//! Lists: short and long, of strings and of lists, alone and followed by other bytes, cut short, and damaged.

use crate::case_set::{CaseSet, NO_CALLS, Place};
use crate::encode::{List, nested, string, with_header};
use crate::places::{places, right_place};
use std::io;

/// The bytes that follow a list: none, a whole item, what is no item for each reason, and several items before damage.
const AFTER: &[&[u8]] = &[&[], &[0x00], &[0x81], &[0xb8, 0x00], &[0xb8, 0x01], &[0xc0, 0x80, 0x05, 0xff, 0x00]];

/// The bytes that damage a list, put in the place of one of its own.
const DAMAGE: &[u8] = &[0x00, 0x7f, 0x80, 0x81, 0xb7, 0xb8, 0xbf, 0xc0, 0xc1, 0xf7, 0xf8, 0xff];

/// Of these, those that go into the sample.
const DAMAGE_IN_SAMPLE: &[u8] = &[0x81, 0xb8, 0xc1];

/// How many items the long lists have.
const LONG_COUNTS: &[usize] = &[56, 255, 256, 1000];

/// Lists up to these lengths are cut and damaged at each byte, longer ones only around their bounds.
const LONGEST_CUT_EVERYWHERE: usize = 150;
const LONGEST_DAMAGED_EVERYWHERE: usize = 24;

/// The calls that the sample gets of lists, and of damaged ones.
const LIST_CALLS: &[&str] = &["info", "data", "count", "prototype", "strict"];
const DAMAGED_CALLS: &[&str] = &["count", "prototype", "strict"];

pub fn lists(set: &mut CaseSet) -> io::Result<()> {
    set.heading("Lists.")?;
    for (number, list) in short_lists().iter().chain(&long_lists()).enumerate() {
        for after in AFTER {
            whole(set, &list.followed_by(after), number, after)?;
        }
        cut(set, list, number)?;
        damaged(set, list, number)?;
    }
    Ok(())
}

fn short_lists() -> Vec<List> {
    let strings = |strings: &[&[u8]]| strings.iter().map(|bytes| string(bytes)).collect::<Vec<Vec<u8>>>();
    let empty = with_header(0xc0, &[]);
    let one = with_header(0xc0, &empty);
    let two = with_header(0xc0, &[&empty[..], &one].concat());
    let mixed = [&b"\x00"[..], b"\x7f", b"", b"\x80", b"ab"];
    let lists = [
        strings(&[b"cat", b"dog"]),
        vec![empty.clone(), one.clone(), two.clone()],
        vec![],
        strings(&[b"\x05"]),
        strings(&[b""]),
        vec![empty.clone()],
        strings(&[b"\x05", b"\x06"]),
        [strings(&mixed), vec![one, with_header(0xc0, &[0x05, 0x06])]].concat(),
        strings(&[&[0x61; 54]]),
        strings(&[&[0x61; 55]]),
        strings(&[&[0x61; 56], b"\x05", &[0x62; 57]]),
        vec![nested(15, &[])],
        vec![nested(16, &[]), nested(3, &[])],
        vec![nested(60, &[]), b"\x05".to_vec()],
    ];
    lists.iter().map(|items| List::of(items)).collect()
}

/// Lists of one byte many times, of 55 too, and lists of items of several lengths.
fn long_lists() -> Vec<List> {
    let ones = [54, 55].iter().chain(LONG_COUNTS).map(|count| vec![vec![0x01]; *count]);
    let several = LONG_COUNTS.iter().map(|count| several_lengths(*count));
    ones.chain(several).map(|items| List::of(&items)).collect()
}

/// So many items: bytes, a short string, bytes, a long string, a list, bytes, and a list at the end.
fn several_lengths(count: usize) -> Vec<Vec<u8>> {
    let bytes = |byte: u8, count: usize| vec![vec![byte]; count];
    let third = (count - 4) / 3;
    [
        bytes(0x01, third),
        vec![string(b"ab")],
        bytes(0x02, third),
        vec![string(&[0x61; 60]), with_header(0xc0, &[0x05; 57])],
        bytes(0x03, count - 4 - 2 * third),
        vec![with_header(0xc0, &[0x05])],
    ]
    .concat()
}

/// A whole list, and all that follows it. The sample gets each list alone and before the longest bytes after it, and the
/// places of the first two.
fn whole(set: &mut CaseSet, list: &List, number: usize, after: &[u8]) -> io::Result<()> {
    let pick = after.is_empty() || after.len() == 5;
    set.every_call(&list.bytes, if pick { LIST_CALLS } else { NO_CALLS })?;
    for index in list.indexes() {
        set.at(&list.bytes, index, pick)?;
        for place in places(list, index) {
            set.at_from(&list.bytes, index, place, pick && number < 2 && index < 3)?;
        }
    }
    Ok(())
}

/// A list without its last bytes.
fn cut(set: &mut CaseSet, list: &List, number: usize) -> io::Result<()> {
    for there in offsets_tried(list, LONGEST_CUT_EVERYWHERE) {
        set.every_call(&list.bytes[..there], if number < 2 { LIST_CALLS } else { NO_CALLS })?;
        items_and_places(set, &list.with_bytes(list.bytes[..there].to_vec()), number < 2)?;
    }
    Ok(())
}

/// A list with another byte in the place of one of its own, alone and followed by others.
fn damaged(set: &mut CaseSet, list: &List, number: usize) -> io::Result<()> {
    for offset in offsets_tried(list, LONGEST_DAMAGED_EVERYWHERE) {
        for byte in DAMAGE {
            let pick = number < 2 && DAMAGE_IN_SAMPLE.contains(byte);
            damaged_at(set, list, offset, *byte, pick)?;
        }
    }
    Ok(())
}

fn damaged_at(set: &mut CaseSet, list: &List, offset: usize, byte: u8, pick: bool) -> io::Result<()> {
    for after in [&[][..], &[0x05, 0xb8, 0x00]] {
        let mut bytes = [&list.bytes, after].concat();
        bytes[offset] = byte;
        set.every_call(&bytes, if pick { DAMAGED_CALLS } else { NO_CALLS })?;
        items_and_places(set, &list.with_bytes(bytes), pick && after.is_empty())?;
    }
    Ok(())
}

/// The offsets at which a list is cut or damaged: all, if it is no longer than this, else those near its bounds.
fn offsets_tried(list: &List, longest: usize) -> Vec<usize> {
    let middle = list.starts.get(list.starts.len() / 2).copied().unwrap_or_default();
    let is_near = |offset: usize, bound: usize| offset <= bound + 2 && bound <= offset + 1;
    let is_bound = |offset: usize| [0, list.header, middle, list.end].iter().any(|bound| is_near(offset, *bound));
    let length = list.bytes.len();
    (0..length).filter(|offset| length <= longest || is_bound(*offset)).collect()
}

/// The items of a list that was cut or damaged, of a fresh view and from the places where they lay.
fn items_and_places(set: &mut CaseSet, list: &List, pick: bool) -> io::Result<()> {
    for index in list.near_indexes() {
        set.at(&list.bytes, index, pick)?;
        let known: Vec<u64> = list.near_indexes().into_iter().filter(|known| *known <= index).collect();
        let places: Vec<Place> = known.into_iter().filter_map(|known| right_place(list, known)).collect();
        places.into_iter().try_for_each(|place| set.at_from(&list.bytes, index, place, pick && index == 1))?;
    }
    Ok(())
}
