//! States that are set: such as no sequence leads to, of each kind that 20 is given for and of two kinds at once, and those just
//! inside the bounds. Each gets every call.

use crate::stream_set::{StreamSet, lines};
use std::io;

/// Every call, some in a few forms.
const CALLS: &[&str] = &[
    "begin 0",
    "begin 1",
    "begin 4294967295",
    "unbounded",
    "empty",
    "bytes 616161",
    "put8 7",
    "put16 700",
    "put32 70000",
    "put64 7000000000",
    "putbool 1",
    "raw - 0",
    "raw 05c0 2",
    "raw 05c0 1",
    "raw 8105 1",
    "raw cfcecdcccbcac9c8c7c6c5c4c3c2c1c0 1",
    "checked 05 1 0",
    "checked 05 1 99",
    "checked 8105 9 99",
    "finalize",
    "clear",
    "len",
    "estimate 3",
    "estimate 1048577",
    "finished",
    "isempty",
    "out",
    "raws",
];

/// The room of the buffer, which most of the states fill.
const ROOM: usize = 12;

/// States that do not match, by the fact for which they do not.
const BAD: &[&str] = &[
    // The start exceeds the end.
    "1 0 0",
    "12 11 0",
    "18446744073709551615 0 0",
    "5 4 1 1:0:-",
    // The end exceeds the buffer.
    "0 13 0",
    "12 13 0",
    "0 18446744073709551615 0",
    "18446744073709551615 18446744073709551615 0",
    "0 13 1 1:0:-",
    // There are over 16 open lists.
    "0 12 17",
    "0 12 18446744073709551615",
    "0 12 4294967296",
    "0 12 17 1:0:- 2:0:- 3:0:- 4:0:- 5:0:- 6:0:- 7:0:- 8:0:- 9:0:- 10:0:- 11:0:- 12:0:-",
    // Positions do not rise.
    "0 12 2 1:0:- 1:0:-",
    "0 12 2 5:0:- 4:0:-",
    "0 12 3 1:0:- 5:0:- 5:0:-",
    "0 12 3 5:0:- 1:0:- 6:0:-",
    // A position lies outside 1 to the written total.
    "0 12 1 0:0:-",
    "0 12 1 13:0:-",
    "4 12 1 9:0:-",
    "0 12 1 4294967295:0:-",
    "0 0 1 1:0:-",
    "0 12 2 0:0:- 1:0:-",
    "0 12 2 1:0:-",
    "0 12 2 11:0:- 13:0:-",
    "0 12 1",
    // A current exceeds the bytes that are written after its position.
    "0 12 1 1:12:-",
    "0 12 1 12:1:-",
    "4 12 1 8:1:-",
    "0 12 1 1:4294967295:-",
    "0 12 2 1:12:- 2:0:-",
    "0 12 2 1:0:- 2:11:-",
    // A counted list's current is not below its maximum.
    "0 12 1 1:1:1",
    "0 12 1 1:2:1",
    "0 12 1 1:11:11",
    "0 12 2 1:2:2 2:0:-",
    "0 12 2 1:0:- 2:3:2",
    // Two facts at once.
    "13 12 17",
    "1 0 1 1:0:-",
    "0 13 17",
    "13 14 0",
    "1 0 1 0:1:1",
    "0 13 2 2:0:- 1:0:-",
    "0 12 17 0:0:-",
    "0 12 2 12:1:- 12:0:-",
    "0 12 2 5:5:5 4:0:-",
    "0 12 1 12:1:1",
    "0 12 1 13:1:1",
    "0 12 2 0:0:- 0:0:-",
];

/// States that match, just inside the bounds. What the bytes are is not looked at.
const GOOD: &[&str] = &[
    "0 0 0",
    "0 12 0",
    "12 12 0",
    "5 9 0",
    "0 1 1 1:0:-",
    "0 1 1 1:0:0",
    "0 1 1 1:0:1",
    "0 12 1 12:0:-",
    "0 12 1 1:11:-",
    "0 12 1 1:11:12",
    "0 11 1 1:10:11",
    "0 11 1 11:0:1",
    "4 12 1 8:0:1",
    "4 11 1 6:1:2",
    "0 9 2 1:0:1 2:0:1",
    "0 9 2 1:8:- 2:6:7",
    "0 9 3 1:0:1 5:0:1 9:0:1",
    "0 9 3 1:2:3 2:6:7 9:0:1",
    "0 9 3 1:2:4294967295 2:6:4294967295 9:0:4294967295",
    "0 8 0 5:5:5 6:6:6",
    "0 8 1 5:3:- 6:6:6",
    "0 12 12 1:0:1 2:0:1 3:0:1 4:0:1 5:0:1 6:0:1 7:0:1 8:0:1 9:0:1 10:0:1 11:0:1 12:0:1",
];

/// Sixteen lists that match, and the room for them, with space for a few bytes more.
const SIXTEEN: &str =
    "1:0:1 2:0:2 3:0:- 4:0:1 5:0:1 6:0:1 7:0:1 8:0:1 9:0:1 10:0:1 11:0:1 12:0:1 13:0:1 14:0:1 15:0:1 16:0:1";
const ROOM_FOR_SIXTEEN: usize = 20;

/// How many of them are open, so that the state matches, and so that there are too many.
const OPEN_OF_SIXTEEN: &[u64] = &[0, 1, 2, 3, 15, 16];
const TOO_MANY_OPEN: &[u64] = &[17, 18, 32, 1 << 32, (1 << 32) + 16, u64::MAX];

/// The room for many lists that one item closes.
const LONG_ROOM: usize = 400;

pub fn states(set: &mut StreamSet) -> io::Result<()> {
    set.heading("States that do not match: every call is refused and changes nothing.")?;
    for (number, state) in BAD.iter().enumerate() {
        bad_state(set, ROOM, state, number % 4 == 0)?;
    }
    for opened in TOO_MANY_OPEN {
        bad_state(set, ROOM_FOR_SIXTEEN, &format!("0 17 {opened} {SIXTEEN}"), false)?;
    }
    set.heading("States that match, and every call.")?;
    for (number, state) in GOOD.iter().enumerate() {
        good_state(set, ROOM, state, Some(number))?;
    }
    for opened in OPEN_OF_SIXTEEN {
        good_state(set, ROOM_FOR_SIXTEEN, &format!("0 17 {opened} {SIXTEEN}"), None)?;
    }
    long_states(set)
}

/// All calls in a row, which change nothing, and each alone.
fn bad_state(set: &mut StreamSet, room: usize, state: &str, pick: bool) -> io::Result<()> {
    let text = format!("stream 0 {room} 3c; state {state}; {}; show", CALLS.join("; "));
    set.sequence(lines(&text), pick)?;
    for call in CALLS {
        set.sequence(lines(&format!("stream 0 {room} 3c; state {state}; {call}; show")), false)?;
    }
    Ok(())
}

/// Each call once and twice. One in so many of them goes into the sample, by the state's number.
fn good_state(set: &mut StreamSet, room: usize, state: &str, number: Option<usize>) -> io::Result<()> {
    for (call_number, call) in CALLS.iter().enumerate() {
        let pick = number.is_some_and(|number| (number * 5 + call_number) % STATES_FOR_ONE_PICKED == 0);
        set.sequence(lines(&format!("stream 0 {room} 3c; state {state}; {call}; len; show")), pick)?;
        set.sequence(lines(&format!("stream 0 {room} 3c; state {state}; {call}; {call}; raws; show")), false)?;
    }
    Ok(())
}

const STATES_FOR_ONE_PICKED: usize = 20;

/// Lists whose written bytes are a bound's, one in another: the header of each grows as the last item closes them.
fn long_states(set: &mut StreamSet) -> io::Result<()> {
    set.heading("States of many lists that close at once.")?;
    for opened in [1, 2, 3, 15, 16] {
        for end in (opened..opened + 3).chain(54..76).chain(250..275) {
            let positions = [(1..=opened).collect::<Vec<usize>>(), (end + 1 - opened..=end).collect()];
            for positions in positions.iter().filter(|positions| positions.last().is_some_and(|last| *last <= end)) {
                let states: Vec<String> = positions.iter().map(|position| format!("{position}:0:1")).collect();
                let state = format!("state 0 {end} {opened} {}", states.join(" "));
                let text = format!("stream 0 {LONG_ROOM} 3c; {state}; put8 1; len; raws; show");
                set.sequence(lines(&text), false)?;
            }
        }
    }
    Ok(())
}
