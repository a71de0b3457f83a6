//! Sequences on streams that need no seed: all short ones of a few calls, values, nests that close at once, payloads on both
//! sides of every bound, and levels.

use crate::encode::nested;
use crate::stream_set::{StreamSet, lines};
use line::written;
use std::io;

/// What a sequence ends with.
pub const ENDS: &str = "len; finished; isempty; raws; show";

/// The same without the buffer's bytes, for large ones.
const SHORT_ENDS: &str = "len; finished; isempty";

/// Every call that writes or refuses, in a short form.
pub const SHORT_CALLS: &[&str] = &[
    "begin 0",
    "begin 1",
    "begin 2",
    "unbounded",
    "empty",
    "bytes 6161",
    "put8 5",
    "raw - 0",
    "raw - 1",
    "raw c0 1",
    "raw 05c0 2",
    "raw 8105 1",
    "checked 05 1 2",
    "finalize",
    "clear",
    "out",
];

/// The room of all short sequences, and the small rooms of the shortest.
const SHORT_ROOM: usize = 9;
const SMALL_ROOMS: &[usize] = &[0, 1, 2, 3];

/// Lengths on both sides of the bounds of the forms.
const LENGTHS: &[usize] = &[0, 1, 2, 51, 52, 53, 54, 55, 56, 57, 58, 59, 250, 251, 252, 253, 254, 255, 256, 257, 258];
const LONG_LENGTHS: &[usize] = &[65_527, 65_530, 65_531, 65_532, 65_533, 65_534, 65_535, 65_536, 65_537];

/// Numbers on both sides of every width.
const NUMBERS: &[u64] = &[
    0,
    1,
    5,
    0x7f,
    0x80,
    0xff,
    0x100,
    0xffff,
    0x1_0000,
    0xff_ffff,
    0x100_0000,
    0xffff_ffff,
    0x1_0000_0000,
    0xff_ffff_ffff,
    0x100_0000_0000,
    0xffff_ffff_ffff,
    0x1_0000_0000_0000,
    0xff_ffff_ffff_ffff,
    0x100_0000_0000_0000,
    u64::MAX - 1,
    u64::MAX,
];

pub fn streams(set: &mut StreamSet) -> io::Result<()> {
    short_sequences(set)?;
    between_reading_calls(set)?;
    values(set)?;
    nests(set)?;
    filled_lists(set)?;
    levels(set)
}

pub fn with_ends(calls: &[String], ends: &str) -> Vec<String> {
    [calls, &lines(ends)].concat()
}

fn short_sequences(set: &mut StreamSet) -> io::Result<()> {
    set.heading("All short sequences of a few calls.")?;
    let mut sequences: Vec<Vec<String>> = vec![vec![]];
    for length in 1..=3 {
        let longer = |calls: &Vec<String>| {
            let calls = calls.clone();
            SHORT_CALLS.iter().map(move |call| [&calls[..], &[call.to_string()]].concat())
        };
        sequences = sequences.iter().flat_map(longer).collect();
        for calls in &sequences {
            set.of_room(0, SHORT_ROOM, &with_ends(calls, ENDS), length == 1)?;
        }
        if length <= 2 {
            small_rooms(set, &sequences)?;
        }
    }
    Ok(())
}

/// In buffers of bytes 00 too, so that the smallest of all sequences are there.
fn small_rooms(set: &mut StreamSet, sequences: &[Vec<String>]) -> io::Result<()> {
    for calls in sequences {
        for room in SMALL_ROOMS {
            set.of_room(0, *room, &with_ends(calls, ENDS), false)?;
            let first = format!("stream 0 {room} 00");
            set.sequence([&[first], &with_ends(calls, ENDS)[..]].concat(), false)?;
        }
    }
    Ok(())
}

/// Reading calls between the lines of a stream.
fn between_reading_calls(set: &mut StreamSet) -> io::Result<()> {
    set.heading("A stream between reading calls.")?;
    let text = "begin 1; info c0; show; strict 8105; at c105 0; empty; length 00; show; len 5; out";
    set.of_room(0, SHORT_ROOM, &lines(text), true)
}

fn values(set: &mut StreamSet) -> io::Result<()> {
    set.heading("Values.")?;
    for number in NUMBERS {
        for (call, most) in [("put8", 0xff), ("put16", 0xffff), ("put32", 0xffff_ffff), ("put64", u64::MAX)] {
            if *number <= most {
                set.around_full(0, &lines(&format!("{call} {number}; {ENDS}")), *number < 0x101)?;
            }
        }
    }
    for length in LENGTHS {
        let ends = if *length < 60 { ENDS } else { "len; raws" };
        for byte in ["00", "7f", "80"] {
            set.around_full(3, &lines(&format!("bytes {byte}*{length}; {ends}")), *length < 3)?;
        }
    }
    for length in LONG_LENGTHS {
        set.around_full(1, &lines(&format!("bytes 61*{length}; len")), false)?;
    }
    set.around_full(0, &lines("putbool 0; putbool 1; empty; bytes -; put64 0; raw - 0; raws; out; show"), true)
}

/// So many lists in one another around a string of each length, that close at once, or one by one.
fn nests(set: &mut StreamSet) -> io::Result<()> {
    set.heading("Nests that close.")?;
    for levels in [1, 2, 3, 4, 15, 16] {
        for length in LENGTHS {
            let ends = if *length < 60 { ENDS } else { "len; raws" };
            for nest in nest_calls(levels, &format!("bytes 61*{length}")) {
                let calls = with_ends(&nest, ends);
                set.around_full(0, &calls, *length == 0 && levels == 3)?;
            }
        }
    }
    for levels in [1, 2, 3, 16] {
        for length in LONG_LENGTHS {
            for nest in nest_calls(levels, &format!("bytes 61*{length}")) {
                set.around_full(2, &with_ends(&nest, SHORT_ENDS), false)?;
            }
        }
        let calls = with_ends(&nest_calls(levels, "bytes 61*65533")[0], "len; finished; raws");
        set.of_room(0, 70_000, &calls, false)?;
    }
    Ok(())
}

/// The calls that open so many lists around one item: counted ones, unbounded ones, and of both kinds in turn. The size is asked
/// before the item and after it.
fn nest_calls(levels: usize, item: &str) -> [Vec<String>; 3] {
    let kinds: [fn(usize) -> bool; 3] = [|_| true, |_| false, |level| level % 2 == 0];
    kinds.map(|is_counted| {
        let open = |level| if is_counted(level) { "begin 1" } else { "unbounded" };
        let mut calls: Vec<String> = (0..levels).map(|level| open(level).to_string()).collect();
        calls.extend(["len".to_string(), item.to_string(), "len".to_string()]);
        let unbounded = (0..levels).filter(|level| !is_counted(*level));
        calls.extend(unbounded.map(|_| "finalize".to_string()));
        calls
    })
}

/// Lists that hold many items, by single appends and by raw ones, inside other lists.
fn filled_lists(set: &mut StreamSet) -> io::Result<()> {
    set.heading("Lists that fill.")?;
    for outer in ["begin 1", "begin 2; put8 1", "unbounded", "begin 1; begin 1", "begin 2; put8 1; begin 1"] {
        for length in LENGTHS.iter().chain(&[300, 1000]).filter(|length| **length > 0) {
            let text = format!("{outer}; begin {length}; raw 01*{length} {length}; len; finished; raws");
            set.around_full(0, &lines(&text), *length == 2)?;
            let text = format!("{outer}; unbounded; raw 01*{length} {length}; len; finalize; len; finished; raws");
            set.around_full(1, &lines(&text), *length == 2)?;
        }
        for items in [2, 54, 55, 56, 57] {
            let singles = vec!["put8 1; len"; items].join("; ");
            set.around_full(
                0,
                &lines(&format!("{outer}; begin {items}; {singles}; finished; raws; show")),
                items == 2,
            )?;
        }
    }
    Ok(())
}

/// Lists up to a 17th and 18th level, and raw items of each depth under so many open lists.
fn levels(set: &mut StreamSet) -> io::Result<()> {
    set.heading("Levels.")?;
    for opened in [0, 1, 2, 8, 14, 15, 16] {
        for open in ["begin 1", "begin 2", "begin 4294967295", "unbounded"] {
            let calls = vec![open.to_string(); opened];
            for last in ["begin 0", "begin 1", "unbounded", "empty", "raw - 0", "raw 05 1"] {
                let calls = [&calls[..], &lines(last), &lines("len; finished; show")].concat();
                set.around_full(0, &calls, opened == 16 && open == "begin 1")?;
            }
            for depth in 0..=18 {
                for item in [nested(depth, &[]), nested(depth, &[0x05])].iter().filter(|item| !item.is_empty()) {
                    let raws = [format!("raw {} 1", written(item)), format!("checked {} 1 99", written(item))];
                    for raw in raws {
                        let calls = [&calls[..], &[raw], &lines("len; finished; show")].concat();
                        set.of_room(0, 64, &calls, opened == 15 && depth == 2 && open == "begin 1")?;
                    }
                }
            }
        }
    }
    let text = format!("stream 0 16 00; {}; begin 0; show", vec!["begin 1"; 16].join("; "));
    set.sequence(lines(&text), false)?;
    let text = format!("stream 0 1 00; begin 1; raw {} 1; show", written(&nested(16, &[])));
    set.sequence(lines(&text), false)
}
