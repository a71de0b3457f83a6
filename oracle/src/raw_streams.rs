//! Sequences with raw appends: right and false counts, damaged bytes, and largest sizes on both sides of the estimate; and
//! estimates alone.

use crate::stream_set::{StreamSet, lines};
use std::io;

/// Raw bytes: whole items, none, and damaged ones.
const RAW_BYTES: &[&str] =
    &["-", "05", "c0", "0505", "c005", "c105.80", "050505", "8105", "b800", "b801", "05.82", "c2.8105", "05.c3c2c1"];

/// Stated counts, right and false.
const COUNTS: &[u64] = &[0, 1, 2, 3, 4, 1 << 32, u64::MAX - 1, u64::MAX];

/// The list that the items come to, if any, and what it has already.
const INNERMOST: &[&str] =
    &["len", "begin 1", "begin 2", "begin 3", "begin 4", "unbounded", "begin 1; begin 2", "begin 4294967295"];
const ALREADY: &[&str] = &["len", "empty", "raw 0505 2"];

/// What is open where sizes are asked for.
const OPENED: &[&str] =
    &["len", "empty", "begin 1", "unbounded; unbounded", "begin 1; bytes 61*54", "begin 2; begin 2; bytes 61*250"];

/// The most bytes to come that an estimate takes.
const LIMIT: u64 = 1_048_576;

pub fn raw_streams(set: &mut StreamSet) -> io::Result<()> {
    counts(set)?;
    estimates(set)?;
    largest_sizes(set)
}

/// Raw appends with each stated count, to lists of each maximum that have some items already.
fn counts(set: &mut StreamSet) -> io::Result<()> {
    set.heading("Raw appends with right and false counts.")?;
    for open in INNERMOST {
        for already in ALREADY {
            for bytes in RAW_BYTES {
                raw_with_counts(set, &format!("{open}; {already}"), bytes, *open == "begin 3" && *already == "empty")?;
            }
        }
    }
    for text in [
        "stream 0 0 00; raw 81 0; show",
        "stream 0 0 00; raw - 1; show",
        "stream 0 1 00; begin 1; raw - 2; show",
        "stream 0 2 00; begin 2; empty; raw - 18446744073709551615; show",
        "stream 0 2 00; unbounded; empty; raw - 18446744073709551615; show",
        "stream 0 1 00; begin 1; raw 0000 2; show",
    ] {
        set.sequence(lines(text), false)?;
    }
    Ok(())
}

fn raw_with_counts(set: &mut StreamSet, before: &str, bytes: &str, pick: bool) -> io::Result<()> {
    for count in COUNTS {
        let text = format!("{before}; raw {bytes} {count}; len; finished; raws; show");
        set.of_room(0, 24, &lines(&text), pick && *count < 4)?;
        let text = format!("{before}; checked {bytes} {count} 7; len; finished; raws; show");
        set.of_room(2, 9, &lines(&text), false)?;
    }
    Ok(())
}

/// Estimates on both sides of each bound of the length bytes, of the limit, and of 64 bits.
fn estimates(set: &mut StreamSet) -> io::Result<()> {
    set.heading("Estimates.")?;
    let bounds = [0, 55, 255, 65_535, 1 << 24, 1 << 32, 1 << 56].map(|bound: u64| bound.saturating_sub(4)..bound + 5);
    let sizes = bounds.into_iter().flatten().chain(LIMIT - 3..LIMIT + 3).chain(u64::MAX - 70..=u64::MAX);
    for size in sizes {
        for open in OPENED {
            set.of_room(0, 300, &lines(&format!("{open}; estimate {size}; len")), false)?;
        }
    }
    set.sequence(lines("stream 0 0 00; estimate 1048577; show"), false)?;
    set.sequence(lines("stream 0 1 00; empty; estimate 18446744073709551615; show"), false)
}

/// Raw appends with a largest size below the estimate, at it and above it.
fn largest_sizes(set: &mut StreamSet) -> io::Result<()> {
    set.heading("Raw appends with a largest size.")?;
    let raws = [("-", 0), ("05", 1), ("c0", 1), ("0505", 2), ("01*56", 56), ("01*200", 200), ("8105", 1)];
    for open in OPENED {
        for (bytes, count) in raws {
            for most in (0..5).chain(53..65).chain(250..265).chain(450..465).chain([u64::MAX]) {
                let text = format!("{open}; checked {bytes} {count} {most}; len; finished; raws");
                set.of_room(1, 600, &lines(&text), *open == "begin 1" && bytes == "05" && most < 4)?;
            }
        }
    }
    Ok(())
}
