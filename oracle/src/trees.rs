//! Trees for the strict check: nests on both sides of the limit of levels, random trees, and large sheets, whole, cut, damaged
//! and followed by other bytes.

use crate::case_set::CaseSet;
use crate::encode::{nested, string, with_header};
use crate::random::Random;
use std::io;

/// How many lists lie around what a nest holds.
const LEVELS: &[usize] = &[1, 2, 15, 16, 17, 18];

/// How many lists lie in one another in the deepest nest: a line has no room for many more.
const DEEPEST: usize = 10_000;

/// The bytes that stand before or after a nest in one more list, and those that follow a whole sheet.
const BESIDE: &[&[u8]] = &[&[0x05], &[0xc0], &[0x81, 0x05], &[0xb8, 0x00], &[0xc1]];
const AFTER: &[&[u8]] = &[&[0x00], &[0x81, 0x05], &[0xb8], &[0xc0], &[0xc0, 0x80, 0x05, 0xff, 0x00]];

/// The bytes that damage a nest, put in the place of one of its own.
const DAMAGE: &[u8] = &[0x00, 0x80, 0x81, 0xb8, 0xc0, 0xc1, 0xd0, 0xf8];

/// The most levels of random trees: two more than are taken.
const MOST_LEVELS: usize = 18;

/// How many random trees there are, and how many large ones.
const RANDOM_TREES: usize = 250;
const LARGE_RANDOM_TREES: usize = 3;

/// Large random trees have at least so many bytes, and so many damaged copies.
const LARGE: usize = 12_000;
const LARGE_COPIES: usize = 50;

/// One in so many random trees, and of these one in so many damaged copies, goes into the sample.
const TREES_FOR_ONE_PICKED: usize = 17;
const COPIES_FOR_ONE_PICKED: usize = 41;

/// Longer trees than this are left out of the sample.
const LONGEST_IN_SAMPLE: usize = 150;

pub fn nests(set: &mut CaseSet) -> io::Result<()> {
    set.heading("Nests.")?;
    for inner in nest_payloads() {
        for levels in LEVELS {
            nest(set, &nested(*levels, &inner), *levels)?;
        }
    }
    set.call("strict", &nested(100, &[]), true)?;
    set.call("strict", &nested(DEEPEST, &[]), false)
}

/// What a nest's innermost list holds: nothing, data, 81 05, cut headers, damage, and some of them beside each other; and
/// payloads that take long headers.
fn nest_payloads() -> Vec<Vec<u8>> {
    let short: &[&[u8]] = &[
        &[],
        &[0x05],
        &[0x80],
        &[0x81, 0x80],
        &[0x83, 0x63, 0x61, 0x74],
        &[0x81, 0x05],
        &[0x81],
        &[0xb8],
        &[0xf8],
        &[0x82, 0x01],
        &[0xc1],
        &[0xc2, 0x05],
        &[0xb8, 0x00],
        &[0xf8, 0x00],
        &[0xb8, 0x01, 0x05],
        &[0xf8, 0x01, 0x05],
        &[0xbf, 0xff, 0xff, 0xff, 0xff, 0xff, 0xff, 0xff, 0xff],
        &[0xff, 0xff, 0xff, 0xff, 0xff, 0xff, 0xff, 0xff, 0xff],
        &[0xc2, 0x81, 0x05],
        &[0x05, 0xc0, 0x05],
        &[0x05, 0x81, 0x05],
        &[0xc0, 0x81, 0x05],
        &[0x81, 0x05, 0xc0],
    ];
    let long = [vec![0x01; 54], vec![0x01; 55], vec![0x01; 56], string(&[0x61; 56]), with_header(0xc0, &[0x01; 56])];
    short.iter().map(|inner| inner.to_vec()).chain(long).collect()
}

/// A nest alone, followed by other bytes, beside others in one more list, cut at each byte and damaged at each byte. The sample
/// gets the deep ones alone, and around the limit one that is followed by a byte and one beside 81 05.
fn nest(set: &mut CaseSet, nest: &[u8], levels: usize) -> io::Result<()> {
    set.call("strict", nest, levels >= 15)?;
    for after in AFTER {
        set.call("strict", &[nest, after].concat(), levels == 16 && after == &[0x00])?;
    }
    for beside in BESIDE {
        set.call("strict", &with_header(0xc0, &[nest, beside].concat()), levels == 15 && beside == &[0x81, 0x05])?;
        set.call("strict", &with_header(0xc0, &[beside, nest].concat()), false)?;
    }
    for offset in 0..nest.len() {
        set.call("strict", &nest[..offset], false)?;
        DAMAGE.iter().try_for_each(|byte| set.call("strict", &with_byte(nest, offset, *byte), false))?;
    }
    Ok(())
}

/// The bytes with another byte in the place of one of their own.
fn with_byte(bytes: &[u8], offset: usize, byte: u8) -> Vec<u8> {
    let mut bytes = bytes.to_vec();
    bytes[offset] = byte;
    bytes
}

pub fn random_trees(set: &mut CaseSet, random: &mut Random) -> io::Result<()> {
    set.heading("Random trees.")?;
    for number in 0..RANDOM_TREES {
        let tree = random.tree(number % (MOST_LEVELS + 1));
        let pick = number % TREES_FOR_ONE_PICKED == 0 && tree.len() <= LONGEST_IN_SAMPLE;
        set.call("strict", &tree, pick)?;
        for (number, copy) in damaged_copies(&tree, random).iter().enumerate() {
            set.call("strict", copy, pick && number % COPIES_FOR_ONE_PICKED == 0)?;
        }
    }
    (0..LARGE_RANDOM_TREES).try_for_each(|_| large_tree(set, random))
}

/// A tree followed by other bytes, cut at each byte, and with each byte changed in two ways.
fn damaged_copies(tree: &[u8], random: &mut Random) -> Vec<Vec<u8>> {
    let mut copies: Vec<Vec<u8>> = AFTER.iter().map(|after| [tree, after].concat()).collect();
    copies.push([tree, tree].concat());
    for offset in 0..tree.len() {
        copies.push(tree[..offset].to_vec());
        copies.push(with_byte(tree, offset, random.other_byte(tree[offset])));
        copies.push(with_byte(tree, offset, random.near_byte(tree[offset])));
    }
    copies
}

/// A list of many trees of up to 15 levels, whole and many times damaged.
fn large_tree(set: &mut CaseSet, random: &mut Random) -> io::Result<()> {
    let mut payload = Vec::new();
    for levels in (0..=14).cycle() {
        payload.extend(random.tree(levels));
        if payload.len() >= LARGE {
            break;
        }
    }
    let tree = with_header(0xc0, &payload);
    set.call("strict", &tree, false)?;
    (0..LARGE_COPIES).try_for_each(|_| set.call("strict", &random.damaged_anywhere(&tree), false))
}
