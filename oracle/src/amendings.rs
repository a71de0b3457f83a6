//! Amendings of small sheets: every item of each, and the places beside them, by replacements of every sort, in buffers that the
//! result fills, that are a byte short, and that have old bytes behind.

use crate::case_set::CaseSet;
use amend_rules::{Item, amend};
use line::{MOST_BYTES, written};
use std::io;

/// A sheet, a path and a replacement.
#[derive(Clone)]
pub struct Amending {
    pub sheet: Vec<u8>,
    pub path: Vec<u64>,
    pub replacement: Vec<u8>,
}

/// How many old bytes stand behind the result in the larger buffer.
const OLD_BYTES: usize = 6;

/// One in so many of the amendings here goes into the sample.
const FOR_ONE_PICKED: usize = 127;

const SHEETS: &[&str] = &[
    "00",
    "80",
    "8180",
    "83636174",
    "c0",
    "c105",
    "c180",
    "c1c0",
    "c3010203",
    "c88363617483646f67",
    "c7c0c1c0c3c0c1c0",
    "c801c302c1040506c0",
    "f7.01*55",
    "f838.01*56",
    "f6f5.01*53",
    "f3.01*26.c101.01*23",
    "b838.61*56",
    "f83ab838.61*56",
];

const REPLACEMENTS: &[&str] =
    &["05", "80", "8180", "83646f67", "c0", "c105", "c3c0c105", "b7.62*55", "b838.62*56", "f838.02*56"];

/// Indexes that name no item, and would name one if they were cut to fewer bits.
const FAR: &[u64] = &[256, 1 << 32, 1 << 63, u64::MAX];

pub fn amendings(set: &mut CaseSet) -> io::Result<()> {
    set.heading("Amendings of small sheets.")?;
    let mut number = 0;
    for sheet in SHEETS.iter().map(|sheet| given(sheet)) {
        let (inside, beside) = paths(&sheet);
        for replacement in REPLACEMENTS.iter().map(|replacement| given(replacement)) {
            for path in &inside {
                number += 1;
                let amending = Amending { sheet: sheet.clone(), path: path.clone(), replacement: replacement.clone() };
                around_full(set, &amending, number % FOR_ONE_PICKED == 0)?;
            }
        }
        for path in beside {
            number += 1;
            let amending = Amending { sheet: sheet.clone(), path, replacement: vec![0x05] };
            in_room(set, &amending, sheet.len(), number % FOR_ONE_PICKED == 0)?;
        }
    }
    Ok(())
}

fn given(word: &str) -> Vec<u8> {
    line::bytes(word).expect("bytes of the format")
}

/// The path of every item of a sheet, of which long lists give their first, middle and last ones; and paths just beside these,
/// which name no item.
pub fn paths(sheet: &[u8]) -> (Vec<Vec<u64>>, Vec<Vec<u64>>) {
    let (mut inside, mut beside) = (vec![], vec![]);
    let item = Item::of_strict(sheet).expect("a strict sheet");
    add_paths(&item, &[], &mut inside, &mut beside);
    (inside, beside)
}

fn add_paths(item: &Item, path: &[u64], inside: &mut Vec<Vec<u64>>, beside: &mut Vec<Vec<u64>>) {
    inside.push(path.to_vec());
    let inner = |index: u64| [path, &[index]].concat();
    let items = match item {
        Item::String(_) => &vec![],
        Item::List(items) => items,
    };
    let count = items.len();
    for (index, item) in items.iter().enumerate() {
        if count <= 4 || [0, count / 2, count - 1].contains(&index) {
            add_paths(item, &inner(index as u64), inside, beside);
        }
    }
    beside.extend([inner(count as u64), inner(count as u64 + 1)]);
    beside.extend(FAR.iter().map(|far| inner(*far)));
    beside.extend(FAR.iter().map(|far| [path, &[*far, 0]].concat()));
}

/// The amending in a buffer that the larger of sheet and result fills, in one that is a byte short if that is the result, in one
/// that ends with the sheet, in one with a byte more, and in one with a few old bytes behind.
pub fn around_full(set: &mut CaseSet, amending: &Amending, pick: bool) -> io::Result<()> {
    let (n, needed) = (amending.sheet.len(), needed_room(amending));
    in_room(set, amending, needed, pick)?;
    if needed > n {
        in_room(set, amending, needed - 1, pick)?;
        in_room(set, amending, n, false)?;
    }
    in_room(set, amending, needed + 1, false)?;
    in_room(set, amending, needed + OLD_BYTES, pick)
}

/// The room that the larger of sheet and result takes; that of the sheet if it is refused.
pub fn needed_room(amending: &Amending) -> usize {
    let Amending { sheet, path, replacement } = amending;
    let enough = with_room(sheet, 2 * sheet.len() + replacement.len() + 3 * path.len() + OLD_BYTES);
    amend(&enough, sheet.len() as u64, path, replacement).map_or(sheet.len(), |(length, _)| length.max(sheet.len()))
}

/// The amending in a buffer of so many bytes, but at least the sheet's.
pub fn in_room(set: &mut CaseSet, amending: &Amending, room: usize, pick: bool) -> io::Result<()> {
    let Amending { sheet, path, replacement } = amending;
    case(set, &with_room(sheet, room), sheet.len() as u64, path, replacement, pick)
}

/// The bytes, and behind them others up to so many; no two neighbours of these are alike.
pub fn with_room(bytes: &[u8], room: usize) -> Vec<u8> {
    let behind = (bytes.len()..room.max(bytes.len())).map(|offset| 0xa0 + (offset % 16) as u8);
    bytes.iter().copied().chain(behind).collect()
}

pub fn case(set: &mut CaseSet, buffer: &[u8], n: u64, path: &[u64], replacement: &[u8], pick: bool) -> io::Result<()> {
    debug_assert!(buffer.len() + replacement.len() <= MOST_BYTES);
    let path: Vec<String> = path.iter().map(u64::to_string).collect();
    let path = if path.is_empty() { "-".to_string() } else { path.join("/") };
    set.case(format!("amend {} {n} {path} {}", written(buffer), written(replacement)), pick)
}
