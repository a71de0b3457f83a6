//! Amendings that are refused: damaged sheets and replacements, every two refusals at once that stand beside each other in the
//! order, lengths that are not the sheet's, and slices that are too large.

use crate::amendings::{case, with_room};
use crate::case_set::CaseSet;
use crate::encode::nested;
use line::{LONGEST_PATH, MOST_BYTES};
use std::io;

/// Bytes that the strict check refuses, with 1, 2, 3, 10 and 11.
const REFUSED: &[&str] = &[
    "-",
    "81",
    "82.01",
    "b8",
    "b838.61*55",
    "b800",
    "f800",
    "8105",
    "b80105",
    "f80105",
    "bf.ff*8",
    "ff.ff*8",
    "c1",
    "c181",
    "c28105",
    "c28201",
    "c205b800",
    "c3c18105",
    "c10506",
    "8000",
    "0505",
    "c0c0",
    "d0cfcecdcccbcac9c8c7c6c5c4c3c2c1c0",
    "d205cfcecdcccbcac9c8c7c6c5c4c3c2c1c005",
];

/// Those of them that go into the sample: one of each refusal.
const PICKED: &[&str] = &["-", "b800", "8105", "c10506", "d0cfcecdcccbcac9c8c7c6c5c4c3c2c1c0"];

/// Paths that name an item of "cat" and "dog", or none.
const PATHS: &[&[u64]] = &[&[], &[0], &[1], &[2], &[0, 0], &[u64::MAX]];

/// The list of "cat" and "dog".
const SHEET: &[u8] = b"\xc8\x83cat\x83dog";

/// Lengths past every buffer.
const FAR: &[u64] = &[1 << 32, (1 << 32) + 9, 1 << 63, u64::MAX];

pub fn refusals(set: &mut CaseSet) -> io::Result<()> {
    set.heading("Amendings that are refused.")?;
    let deep = nested(16, &[]);
    for refused in REFUSED {
        let pick = PICKED.contains(refused);
        let bytes = line::bytes(refused).expect("bytes of the format");
        for path in PATHS {
            case(set, &bytes, bytes.len() as u64, path, &[0x05], pick && path.is_empty())?;
            case(set, &with_room(&bytes, bytes.len() + 5), bytes.len() as u64, path, &[0x05], false)?;
            case(set, &bytes, bytes.len() as u64 + 1, path, &[0x05], false)?;
            case(set, SHEET, 9, path, &bytes, pick && *path == [1])?;
            case(set, SHEET, 9, path, &[&bytes[..], &[0x05]].concat(), false)?;
        }
        for other in REFUSED {
            let other_bytes = line::bytes(other).expect("bytes of the format");
            case(set, &bytes, bytes.len() as u64, &[], &other_bytes, pick && *other == "b80105")?;
        }
    }
    // Too deep and too long at once, and too long alone; with paths that name an item, and that name none.
    for path in PATHS {
        case(set, SHEET, 9, path, &deep, path.len() == 1)?;
        case(set, &with_room(SHEET, 40), 9, path, &deep, false)?;
        case(set, SHEET, 9, path, &[0x83, 0x01, 0x02, 0x03], *path == [1])?;
        case(set, SHEET, 9, path, &[0x84, 0x01, 0x02, 0x03, 0x04], *path == [1])?;
    }
    lengths(set)?;
    long_paths(set)?;
    too_large(set)
}

/// Lengths from none to past the buffer, whatever the sheet's is.
fn lengths(set: &mut CaseSet) -> io::Result<()> {
    let buffer = with_room(SHEET, 14);
    for n in (0..=16).chain(FAR.iter().copied()) {
        for path in PATHS {
            case(set, &buffer, n, path, &[0x05], *path == [1] && (8..=10).contains(&n))?;
            case(set, SHEET, n, path, &[0x05], *path == [1] && n > 1 << 60)?;
            case(set, SHEET, n, path, &[0x81, 0x05], false)?;
            case(set, &[], n, path, &[0x05], path.is_empty() && n < 2)?;
        }
    }
    Ok(())
}

/// Paths of up to 64 indexes, in a nest and in a list.
fn long_paths(set: &mut CaseSet) -> io::Result<()> {
    let nest = nested(16, &[0x05]);
    for length in [15, 16, 17, 18, 32, 33, LONGEST_PATH - 1, LONGEST_PATH] {
        for replacement in [&[0x05][..], &[0xc0], &[0x81, 0x05]] {
            case(set, &with_room(&nest, 20), nest.len() as u64, &vec![0; length], replacement, false)?;
            case(set, SHEET, 9, &vec![0; length], replacement, false)?;
        }
    }
    Ok(())
}

/// A buffer and a replacement that are one byte too large, with every other refusal behind that; and as large as is taken.
fn too_large(set: &mut CaseSet) -> io::Result<()> {
    let large = vec![0x00; MOST_BYTES];
    for n in [0, 1, MOST_BYTES as u64, MOST_BYTES as u64 + 1, u64::MAX] {
        case(set, &large, n, &[], &[], false)?;
        case(set, &large, n, &[0], &[], false)?;
        case(set, &[], n, &[], &large, false)?;
        case(set, &[], n, &[0], &large, false)?;
        case(set, &large[1..], n, &[], &[], false)?;
        case(set, &large[1..], n, &[0], &[0x05], false)?;
        case(set, &[], n, &[0], &large[1..], false)?;
        case(set, &[0x05], n, &[0], &large[1..], false)?;
    }
    Ok(())
}
