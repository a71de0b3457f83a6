//! Amendings that bring lists over the bounds of their headers, both ways, one list or several in one another at once; and those
//! around the limit of levels.

use crate::amendings::{Amending, around_full, case, in_room, needed_room};
use crate::case_set::CaseSet;
use crate::encode::{nested, string, with_header};
use std::io;

/// The first lengths that take a longer header. The last has few cases, for its answers are long.
const SHORT_BOUNDS: &[usize] = &[56, 256];
const LONG_BOUND: usize = 65_536;

/// How many lists lie around the exchanged item.
const LEVELS: &[usize] = &[1, 2, 3, 5, 9, 16];

/// The lengths of the two strings that are exchanged for one another.
const LENGTHS: &[(usize, usize)] = &[(0, 2), (2, 3), (2, 30), (0, 60), (3, 300)];

/// The most levels.
const MOST_LEVELS: usize = 16;

/// More room than any of the results around that limit takes.
const ROOM_FOR_LEVELS: usize = 64;

/// One in so many goes into the sample.
const FOR_ONE_PICKED: usize = 131;
const LEVELS_FOR_ONE_PICKED: usize = 241;

pub fn bounds(set: &mut CaseSet) -> io::Result<()> {
    set.heading("Amendings around the bounds of headers.")?;
    let mut number = 0;
    for bound in SHORT_BOUNDS {
        for levels in LEVELS {
            for (one, other) in LENGTHS {
                for payload in near(*bound, *levels) {
                    number += 1;
                    let pick = number % FOR_ONE_PICKED == 0;
                    around_full(set, &nest(number, *levels, payload, *one, *other), pick && *bound == 56)?;
                    around_full(set, &nest(number, *levels, payload, *other, *one), pick && *bound == 56)?;
                }
            }
        }
    }
    for levels in [1, 3] {
        for payload in [LONG_BOUND - 20, LONG_BOUND - 1, LONG_BOUND] {
            number += 1;
            for (one, other) in [(2, 3), (3, 2), (2, 30), (30, 2)] {
                let amending = nest(number, levels, payload, one, other);
                let needed = needed_room(&amending);
                in_room(set, &amending, needed, false)?;
                in_room(set, &amending, needed - 1, false)?;
            }
        }
    }
    levels(set)?;
    largest(set)
}

/// Lengths of the innermost payload with which it, or a list around it, comes to the bound.
fn near(bound: usize, levels: usize) -> Vec<usize> {
    let mut near = vec![bound - 30, bound - 2 * levels - 2, bound - 2 * levels, bound - levels - 1, bound - levels];
    near.extend([bound - 3, bound - 2, bound - 1, bound, bound + 1]);
    near
}

/// A string of one length between bytes 01 and 02, first, in the middle or last, in a list with so long a payload, and that in so
/// many lists less one, each with a byte before the inner list or behind it; and another string for it.
fn nest(number: usize, levels: usize, payload: usize, old: usize, new: usize) -> Amending {
    let (old, new) = (string(&vec![0x61; old]), string(&vec![0x62; new]));
    let beside = payload.saturating_sub(old.len());
    let before = [0, beside / 2, beside][number % 3];
    let row = [vec![0x01; before], old, vec![0x02; beside - before]].concat();
    let mut sheet = with_header(0xc0, &row);
    let mut path = vec![before as u64];
    for level in 1..levels {
        let (first, index): (&[u8], u64) = if (level + number) % 2 == 0 { (&[0x03], 1) } else { (&[], 0) };
        sheet = with_header(0xc0, &[first, &sheet, &[0x04]].concat());
        path.insert(0, index);
    }
    Amending { sheet, path, replacement: new }
}

/// Every place in a nest of 16 lists around a byte, and in one with a branch beside it, and nests for it of up to 16 levels.
fn levels(set: &mut CaseSet) -> io::Result<()> {
    set.heading("Amendings around the limit of levels.")?;
    let deep = nested(MOST_LEVELS, &[0x05]);
    let branched = with_header(0xc0, &[nested(MOST_LEVELS - 1, &[]), nested(2, &[0x05])].concat());
    let mut number = 0;
    for (sheet, first, longest) in [(&deep, 0, MOST_LEVELS), (&branched, 0, MOST_LEVELS - 1), (&branched, 1, 3)] {
        for length in 0..=longest {
            let mut path = vec![0; length];
            path.iter_mut().take(1).for_each(|index| *index = first);
            for depth in 0..=MOST_LEVELS {
                for inner in [&[][..], &[0x05]] {
                    number += 1;
                    let amending =
                        Amending { sheet: sheet.clone(), path: path.clone(), replacement: nested(depth, inner) };
                    if !amending.replacement.is_empty() {
                        around_full(set, &amending, number % LEVELS_FOR_ONE_PICKED == 0)?;
                        in_room(set, &amending, ROOM_FOR_LEVELS, number % LEVELS_FOR_ONE_PICKED == 0)?;
                    }
                }
            }
        }
    }
    Ok(())
}

/// The largest slices: a sheet that is as large as a buffer can be, a buffer as large with a small sheet, and a large string for a
/// small sheet; accepted and refused.
fn largest(set: &mut CaseSet) -> io::Result<()> {
    let most = line::MOST_BYTES - 1;
    let large = with_header(0xc0, &vec![0x01; most - 4]);
    for (path, replacement) in [(0, 0x02), (most - 5, 0x80), (most - 4, 0x02)] {
        case(set, &large, most as u64, &[path as u64], &[replacement], false)?;
    }
    let mut small = vec![0xa5; most];
    small[..3].copy_from_slice(&[0xc2, 0x01, 0x02]);
    case(set, &small, 3, &[1], &[0x03], false)?;
    case(set, &small, 3, &[2], &[0x03], false)?;
    let half = most / 2;
    let string = with_header(0x80, &vec![0x61; half - 4]);
    let mut buffer = vec![0xa5; half];
    buffer[0] = 0x05;
    case(set, &buffer, 1, &[], &string, false)?;
    buffer[..2].copy_from_slice(&[0xc1, 0x05]);
    case(set, &buffer, 2, &[0], &string, false)
}
