//! Random amendings: random trees, a path to one of their items or beside it, and another tree, in a buffer of about the room that
//! the result takes; now and then with a fault.

use crate::amendings::{Amending, case, needed_room, with_room};
use crate::case_set::CaseSet;
use crate::encode::with_header;
use crate::random::Random;
use amend_rules::Item;
use std::io;

/// How many there are, and how many of large sheets.
const SMALL: usize = 30_000;
const LARGE: usize = 400;

/// A large sheet has at least so many bytes.
const LARGE_SHEET: usize = 2_000;

/// One in so many goes into the sample, unless it has more bytes than this.
const FOR_ONE_PICKED: usize = 900;
const LONGEST_IN_SAMPLE: usize = 100;

pub fn random_amendings(set: &mut CaseSet, random: &mut Random) -> io::Result<()> {
    set.heading("Random amendings.")?;
    for number in 0..SMALL {
        let sheet = sheet(random);
        amending(set, random, sheet, number % FOR_ONE_PICKED == 0)?;
    }
    for _ in 0..LARGE {
        let sheet = large_sheet(random);
        amending(set, random, sheet, false)?;
    }
    Ok(())
}

fn sheet(random: &mut Random) -> Vec<u8> {
    match random.below(3) {
        0 => random.list(3).bytes,
        _ => {
            let levels = random.below(17);
            random.tree(levels)
        }
    }
}

fn large_sheet(random: &mut Random) -> Vec<u8> {
    let mut payload = Vec::new();
    while payload.len() < LARGE_SHEET {
        let levels = random.below(15);
        payload.extend(random.tree(levels));
    }
    with_header(0xc0, &payload)
}

fn replacement(random: &mut Random) -> Vec<u8> {
    match random.below(4) {
        0 => random.encoding(2),
        1 => vec![[0x05, 0x80, 0xc0][random.below(3)]],
        _ => {
            let levels = random.below(6);
            random.tree(levels)
        }
    }
}

fn amending(set: &mut CaseSet, random: &mut Random, sheet: Vec<u8>, pick: bool) -> io::Result<()> {
    let path = path(random, &sheet);
    let replacement = replacement(random);
    let mut amending = Amending { sheet, path, replacement };
    let needed = needed_room(&amending);
    let room = match random.below(6) {
        0 => needed - 1,
        1 | 2 => needed,
        3 => amending.sheet.len(),
        _ => needed + random.below(9),
    };
    match random.below(24) {
        0 => amending.sheet = random.damaged(&amending.sheet),
        1 => amending.replacement = random.damaged(&amending.replacement),
        _ => (),
    }
    let Amending { sheet, path, replacement } = amending;
    let n = match random.below(40) {
        0 => sheet.len().saturating_sub(1),
        1 => sheet.len() + 1,
        _ => sheet.len(),
    };
    let pick = pick && sheet.len() + replacement.len() <= LONGEST_IN_SAMPLE;
    case(set, &with_room(&sheet, room), n as u64, &path, &replacement, pick)
}

/// A path into the tree, up to anywhere on its way; now and then past its end.
fn path(random: &mut Random, sheet: &[u8]) -> Vec<u64> {
    let mut path = Vec::new();
    let Ok(mut item) = Item::of_strict(sheet) else { return path };
    loop {
        let Item::List(items) = item else { break };
        if random.below(6) == 0 || items.is_empty() {
            break;
        }
        // A list goes before strings, so that paths become long.
        let lists: Vec<usize> = (0..items.len()).filter(|index| matches!(items[*index], Item::List(_))).collect();
        let index = match lists.is_empty() || random.below(4) == 0 {
            true => random.below(items.len()),
            false => lists[random.below(lists.len())],
        };
        path.push(index as u64);
        item = items.into_iter().nth(index).expect("an index of an item");
    }
    match random.below(20) {
        0 => path.push(random.below(3) as u64),
        1 => path.iter_mut().last().into_iter().for_each(|index| *index += 1),
        _ => (),
    }
    path
}
