//! Lines with answers written by hand: those that try the format, and cases that try the rules where R cannot judge them,
//! for R departs from the rules there, cannot be given the place, or has no such call.

mod format;
mod hand_amendings;
mod hand_streams;
mod sheets;
mod stream_format;

pub use format::lines as format_lines;
pub use hand_amendings::lines as amendings;
pub use hand_streams::sequences as streams;

/// A line and its answer; a line that is passed over has none.
pub type Line = (String, Option<&'static str>);

/// Lines of a stream, each with its answer.
pub type Sequence = Vec<(String, &'static str)>;

/// Longer lines than this are left out of the sample.
pub const LONGEST_IN_SAMPLE: usize = 1_000;

/// All lines with answers written by hand.
pub fn lines() -> Vec<Line> {
    [format_lines(), cases(), amendings()].concat()
}

pub fn cases() -> Vec<Line> {
    let all = [FLAGS_AND_SIZES, COUNTS, PROTOTYPES, PLACES, PLACES_BEFORE_BYTES, PLACES_REFUSED].concat();
    let all = all.into_iter().map(|(line, answer)| (line.to_string(), Some(answer)));
    all.chain(sheets::cases()).collect()
}

const FLAGS_AND_SIZES: &[(&str, &str)] = &[
    ("length -", "no 1"),
    ("total bf.ff*8", "no 1"),
    ("flags -", "ok 10000"),
    ("flags 00", "ok 00011"),
    ("flags 80", "ok 01011"),
    ("flags 8005", "ok 01011"),
    ("flags 81", "ok 00010"),
    ("flags 8100", "ok 00010"),
    ("flags 8101", "ok 00011"),
    ("flags b7", "ok 00010"),
    ("flags b8", "ok 00010"),
    ("flags b838", "ok 00010"),
    ("flags b83800", "ok 00010"),
    ("flags b83801", "ok 00011"),
    ("flags c0", "ok 01100"),
    ("flags c006", "ok 01100"),
    ("flags c1", "ok 00100"),
    ("flags ff", "ok 00100"),
    ("size -", "ok 0"),
    ("size 05", "ok 1"),
    ("size 83636174", "ok 3"),
    ("size 8201", "ok 0"),
    ("size c105", "ok 0"),
];

const COUNTS: &[(&str, &str)] = &[
    ("count -", "no 8"),
    ("count 80", "no 8"),
    ("count b800", "no 8"),
    ("count c0", "ok 0"),
    ("count c000", "ok 0"),
    ("count c88363617483646f67", "ok 2"),
    ("count c7c0c1c0c3c0c1c0", "ok 3"),
    // Bytes after the list are not counted.
    ("count c10506", "ok 1"),
    ("count c105.06*1000", "ok 1"),
    ("count c105b800", "ok 1"),
    ("count f838.01*57", "ok 56"),
    // The list's header.
    ("count c1", "no 1"),
    ("count f8", "no 1"),
    ("count f838.01*55", "no 1"),
    ("count f800", "no 2"),
    ("count f80105", "no 3"),
    ("count ff.ff*8", "no 1"),
    // An item, first and later, and bounded by the list.
    ("count c181", "no 1"),
    ("count c2b800", "no 2"),
    ("count c2b801", "no 3"),
    ("count c30581b8", "ok 2"),
    ("count c305b800", "no 2"),
    ("count c305b801", "no 3"),
    ("count c205820102", "no 1"),
    ("count c205b800", "no 1"),
    ("count c4c2b80005", "ok 2"),
];

const PROTOTYPES: &[(&str, &str)] = &[
    ("prototype -", "ok null"),
    ("prototype 00", "ok data 1"),
    ("prototype 80", "ok data 0"),
    ("prototype 83636174", "ok data 3"),
    ("prototype 8201", "ok data 0"),
    ("prototype b8", "ok data 0"),
    ("prototype b800", "ok data 0"),
    ("prototype c0", "ok list 0"),
    ("prototype c88363617483646f67", "ok list 2"),
    ("prototype c10506", "ok list 1"),
    ("prototype c1", "no 1"),
    ("prototype f800", "no 2"),
    ("prototype f80105", "no 3"),
    ("prototype c181", "no 1"),
    ("prototype c2b800", "no 2"),
    ("prototype c305b801", "no 3"),
    ("prototype c205820102", "no 1"),
];

/// Places in lists that stand alone: "cat" and "dog", whose items start at 1 and 5; and 56 bytes 01 behind a header of two.
const PLACES: &[(&str, &str)] = &[
    // A fresh view.
    ("at c88363617483646f67 0", "ok 1 4"),
    ("at c88363617483646f67 1", "ok 5 4"),
    ("at c88363617483646f67 2", "no 1"),
    // Right, and behind.
    ("at c88363617483646f67 0 0 1", "ok 1 4"),
    ("at c88363617483646f67 1 1 5", "ok 5 4"),
    ("at c88363617483646f67 1 0 1", "ok 5 4"),
    ("at c88363617483646f67 2 0 1", "no 1"),
    ("at c88363617483646f67 2 1 5", "no 1"),
    // Ahead: the offset is not looked at.
    ("at c88363617483646f67 0 1 5", "ok 1 4"),
    ("at c88363617483646f67 0 1 0", "ok 1 4"),
    ("at c88363617483646f67 0 1 9", "ok 1 4"),
    ("at c88363617483646f67 0 1 18446744073709551615", "ok 1 4"),
    ("at c88363617483646f67 1 2 1", "ok 5 4"),
    ("at c88363617483646f67 1 18446744073709551615 0", "ok 5 4"),
    // In the header, at the payload's end and past it.
    ("at c88363617483646f67 0 0 0", "no 1"),
    ("at c88363617483646f67 1 0 0", "no 1"),
    ("at c88363617483646f67 0 0 9", "no 1"),
    ("at c88363617483646f67 1 0 9", "no 1"),
    ("at c88363617483646f67 0 0 10", "no 1"),
    ("at c88363617483646f67 0 0 18446744073709551615", "no 1"),
    ("at f838.01*56 0 0 0", "no 1"),
    ("at f838.01*56 0 0 1", "no 1"),
    ("at f838.01*56 0 1 1", "ok 2 1"),
    ("at f838.01*56 0 0 2", "ok 2 1"),
    ("at f838.01*56 55 0 2", "ok 57 1"),
    ("at f838.01*56 56 0 2", "no 1"),
    ("at f838.01*56 0 0 57", "ok 57 1"),
    ("at f838.01*56 0 0 58", "no 1"),
    ("at f90100.81*256 0 0 2", "no 1"),
    ("at f90100.81*256 127 127 3", "ok 3 2"),
    // In the middle of an item: the bytes from there on are read as items.
    ("at c88363617483646f67 0 0 2", "ok 2 1"),
    ("at c88363617483646f67 1 0 2", "ok 3 1"),
    ("at c88363617483646f67 3 0 2", "ok 5 4"),
    ("at c88363617483646f67 4 0 2", "no 1"),
    ("at c88363617483646f67 2 0 6", "ok 8 1"),
    ("at c88363617483646f67 3 0 6", "no 1"),
    ("at c382c105 0 0 2", "ok 2 2"),
    ("at c382c205 0 0 2", "no 1"),
    // With a false index.
    ("at c88363617483646f67 0 0 5", "ok 5 4"),
    ("at c88363617483646f67 7 7 5", "ok 5 4"),
    ("at c88363617483646f67 8 7 5", "no 1"),
    ("at c88363617483646f67 18446744073709551615 18446744073709551615 1", "ok 1 4"),
    ("at c88363617483646f67 18446744073709551615 18446744073709551614 1", "ok 5 4"),
    ("at c88363617483646f67 18446744073709551615 18446744073709551613 1", "no 1"),
    ("at c88363617483646f67 18446744073709551615 0 1", "no 1"),
    ("at c88363617483646f67 18446744073709551614 18446744073709551615 0", "no 1"),
];

/// Places in lists that are followed by other bytes.
const PLACES_BEFORE_BYTES: &[(&str, &str)] = &[
    ("at c10506 0", "ok 1 1"),
    ("at c10506 1", "no 1"),
    ("at c10506 0 0 1", "ok 1 1"),
    ("at c10506 1 0 1", "no 1"),
    ("at c10506 0 1 2", "ok 1 1"),
    ("at c10506 1 1 2", "no 1"),
    ("at c10506 0 0 2", "no 1"),
    ("at c10506 0 0 3", "no 1"),
    ("at c000 0", "no 1"),
    ("at c000 0 0 1", "no 1"),
    ("at c000 1 0 1", "no 1"),
    ("at c0b800 0 0 1", "no 1"),
    ("at c105b800 1 0 1", "no 1"),
    ("at c88363617483646f67c0 1 0 1", "ok 5 4"),
    ("at c88363617483646f67c0 2 0 1", "no 1"),
    ("at c88363617483646f67c0 2 1 5", "no 1"),
    ("at c88363617483646f67c0 0 0 9", "no 1"),
    ("at c88363617483646f67c0 0 0 10", "no 1"),
    // An item that is cut by the list's end.
    ("at c20582 1 0 1", "no 1"),
    ("at c205820102 1 0 1", "no 1"),
    ("at c205820102 0 0 2", "no 1"),
    ("at c205820102 2 0 1", "no 1"),
    ("at c205b800 1 0 1", "no 1"),
    ("at c205b801 1 0 1", "no 1"),
    // In the middle of an item, one that reads past the list's end from there.
    ("at c28182.0102 0 0 2", "no 1"),
    ("at c28281.82 0 0 2", "no 1"),
];

/// The refusals that come before the place, and those of the walk.
const PLACES_REFUSED: &[(&str, &str)] = &[
    // Not a list.
    ("at - 0", "no 8"),
    ("at - 0 0 0", "no 8"),
    ("at 7f 0 5 5", "no 8"),
    ("at 83636174 0 0 1", "no 8"),
    ("at b800 0 0 0", "no 8"),
    // The list's header.
    ("at c1 0 0 1", "no 1"),
    ("at f800 0", "no 2"),
    ("at f800 0 0 0", "no 2"),
    ("at f800 0 0 99", "no 2"),
    ("at f800 0 1 0", "no 2"),
    ("at f80105 0 0 0", "no 3"),
    ("at f80105 0 0 2", "no 3"),
    ("at f80105 0 0 99", "no 3"),
    // An item on the way, and the one that is asked for.
    ("at c305b800 1 0 1", "no 2"),
    ("at c305b800 2 0 1", "no 2"),
    ("at c305b801 1 0 1", "no 3"),
    ("at c305b801 9 0 1", "no 3"),
    ("at c305b801 0 0 2", "no 3"),
    ("at c305b80105 0 0 3", "ok 3 1"),
    ("at c3b80005 0 0 3", "ok 3 1"),
    ("at c3b80005 0 0 2", "ok 2 1"),
    ("at c3b80005 1 0 1", "no 2"),
];
