//! Sequences on streams whose buffers are full or nearly so, that start elsewhere than at 0 or past the buffer, that are
//! cleared, and that are large.

use crate::stream_set::{StreamSet, lines, needed_room};
use crate::streams::{ENDS, SHORT_CALLS, with_ends};
use std::io;

/// The limit of bytes.
const LIMIT: usize = 1_048_576;

pub fn full_streams(set: &mut StreamSet) -> io::Result<()> {
    full_buffers(set)?;
    cleared(set)?;
    large(set)
}

/// Buffers of each room for sequences with lists that grow when they close.
fn full_buffers(set: &mut StreamSet) -> io::Result<()> {
    set.heading("Buffers of each room.")?;
    let sequences = [
        "begin 2; bytes 636174; bytes 646f67; out",
        "begin 1; begin 1; begin 1; begin 0; out",
        "begin 1; begin 1; begin 1; bytes 61*53; out",
        "begin 1; unbounded; begin 2; bytes 61*50; put16 256; finalize; out",
        "unbounded; unbounded; raw 01*55 55; finalize; put8 1; finalize; begin 3; out",
        "put8 200; begin 2; begin 2; raw 01c0 2; raw 01*53 53; checked 05 1 9; clear; empty",
    ];
    for text in sequences {
        for start in [0, 2] {
            let calls = with_ends(&lines(text), ENDS);
            let needed = needed_room(start, &calls);
            for room in 0..=needed + 1 {
                set.of_room(start, room, &calls, start == 0 && text.starts_with("begin 1; begin 1; begin 1; begin 0"))?;
            }
        }
    }
    for start in ["1", "9", "10", "11", "1048576", "18446744073709551615"] {
        for room in [0, 1, 10] {
            let text = format!("stream {start} {room} 5a; len; empty; begin 0; clear; raws; out; show");
            set.sequence(lines(&text), room == 1)?;
        }
    }
    Ok(())
}

/// Several items at the top, and a clear between them and in the middle of lists.
fn cleared(set: &mut StreamSet) -> io::Result<()> {
    set.heading("Several items, and clears.")?;
    for open in ["empty", "begin 0", "begin 3; bytes 636174", "unbounded; begin 2; put8 1", "begin 1; begin 1; begin 1"]
    {
        for next in ["bytes 646f67", "begin 1; empty", "unbounded; raw 0505 2; finalize", "finalize", "raw c0 1"] {
            for start in [0, 1, 7] {
                let text =
                    format!("{open}; clear; {ENDS}; {next}; {ENDS}; {open}; {next}; out; clear; clear; out; show");
                set.around_full(start, &lines(&text), start == 1 && open == "begin 3; bytes 636174")?;
            }
        }
    }
    Ok(())
}

/// Buffers and strings at the limit of bytes and one past it.
fn large(set: &mut StreamSet) -> io::Result<()> {
    set.heading("Large buffers.")?;
    let (limit, over) = (LIMIT, LIMIT + 1);
    for text in [
        format!("stream 0 {limit} 00; begin 2; bytes 61*{}; put8 1; len; finished; raws", limit - 9),
        format!("stream 0 {limit} 00; begin 2; bytes 61*{}; put8 1; len; begin 0; len; clear; len", limit - 8),
        format!("stream 0 {limit} 00; raw 01*{limit} {limit}; len; empty; out; finalize"),
        format!("stream 1 {limit} 00; raw 01*{limit} {limit}; len; empty; len"),
        format!(
            "stream 0 {limit} 00; unbounded; unbounded; raw c0*{} {}; len; finalize; len; finalize; len",
            limit - 8,
            limit - 8
        ),
        format!(
            "stream 0 {limit} 00; unbounded; unbounded; raw c0*{} {}; finalize; finalize; len",
            limit - 7,
            limit - 7
        ),
        format!("stream 0 0 00; bytes 00*{over}; len"),
        format!("stream 0 8 00; bytes 61*{limit}; len"),
        format!("stream 0 8 00; raw 01*{over} {over}; len"),
        format!("stream 0 8 00; raw 01*{over} 1; len"),
        format!("stream 0 8 00; raw 01*{limit} {limit}; len"),
        format!("stream 0 8 00; checked 01*{over} {over} 5; len"),
        format!("stream 0 8 00; checked 01*{over} {over} {over}; len"),
        format!("stream 0 8 00; checked 01*{limit} {limit} 5; len"),
        format!("stream 0 8 00; checked 01*{limit} {limit} {limit}; len"),
    ] {
        set.sequence(lines(&text), false)?;
    }
    for call in
        [SHORT_CALLS, &["len", "finished", "isempty", "raws", "estimate 5", "estimate 2000000", "put64 9"]].concat()
    {
        set.sequence(lines(&format!("stream 0 {over} 00; {call}; finished")), false)?;
    }
    for call in [SHORT_CALLS, &["len", "finished"]].concat() {
        set.sequence(lines(&format!("stream 0 {over} 00; state 1 0 17; {call}; finished")), false)?;
        set.sequence(lines(&format!("stream {limit} {over} 00; {call}")), false)?;
    }
    Ok(())
}
