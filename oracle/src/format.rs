//! Lines that try the format itself, with the answers that they must get, both written by hand.
//! They are part of every run, so that a slip in the reading of lines, which all programs of the oracle share, shows.

use crate::Line;
use line::LONGEST_LINE;

pub fn lines() -> Vec<Line> {
    let mut lines: Vec<Line> = SHORT.iter().map(|(line, answer)| (line.to_string(), *answer)).collect();
    lines.extend(LONG.iter().map(|(length, answer)| (line_of_length(*length), Some(*answer))));
    lines.extend(LONG_COMMENTS.iter().map(|(length, answer)| ("#".repeat(*length), *answer)));
    lines
}

const SHORT: &[(&str, Option<&str>)] = &[
    // What is passed over.
    ("# a comment", None),
    ("#", None),
    ("#length 61", None),
    ("", None),
    // Ways to write the same bytes.
    ("length 616161", Some("ok 6381921")),
    ("length 61*3", Some("ok 6381921")),
    ("length 61*1.61*2", Some("ok 6381921")),
    ("length 61.6161", Some("ok 6381921")),
    ("length 61.61*1.61", Some("ok 6381921")),
    ("info c2.01*2", Some("ok 1 2")),
    ("info c2.01*1", Some("no 1")),
    ("info b90100.61*256", Some("ok 3 256")),
    ("info b90100.61*256.c0", Some("ok 3 256")),
    ("info b90100.61*255", Some("no 1")),
    ("info -", Some("no 1")),
    // As many bytes as a line may give, and one more.
    ("info 00*1048577", Some("ok 0 1")),
    ("info 00*1048578", Some("bad line")),
    ("info 00*1048576.00", Some("ok 0 1")),
    ("info 00*1048577.00", Some("bad line")),
    ("info 00.00*1048577", Some("bad line")),
    ("info 00*700000.00*700000", Some("bad line")),
    ("strict 00*1048577", Some("no 12")),
    ("strict 00*1048578", Some("bad line")),
    ("strict c1.05", Some("ok 2 1")),
    ("info 00*4294967296", Some("bad line")),
    ("info 00*18446744073709551616", Some("bad line")),
    ("info 00*99999999999999999999999999999999999999999", Some("bad line")),
    // No such word.
    ("lengths 61", Some("bad line")),
    ("lengt 61", Some("bad line")),
    ("LENGTH 61", Some("bad line")),
    ("Info 61", Some("bad line")),
    ("61", Some("bad line")),
    ("-", Some("bad line")),
    // Arguments missing and too many.
    ("length", Some("bad line")),
    ("from", Some("bad line")),
    ("total", Some("bad line")),
    ("info", Some("bad line")),
    ("length 61 61", Some("bad line")),
    ("from 61 -", Some("bad line")),
    ("total 61 0", Some("bad line")),
    ("info 61 #", Some("bad line")),
    // Spaces.
    ("length  61", Some("bad line")),
    ("length 61 ", Some("bad line")),
    ("length ", Some("bad line")),
    (" length 61", Some("bad line")),
    (" ", Some("bad line")),
    (" # no comment", Some("bad line")),
    ("length\t61", Some("bad line")),
    // Bytes that are none.
    ("length 6", Some("bad line")),
    ("length 616", Some("bad line")),
    ("length 6A", Some("bad line")),
    ("length A6", Some("bad line")),
    ("length 6g", Some("bad line")),
    ("length 0x61", Some("bad line")),
    ("length 61.", Some("bad line")),
    ("length .61", Some("bad line")),
    ("length 61..61", Some("bad line")),
    ("length 61.6", Some("bad line")),
    ("length --", Some("bad line")),
    ("length -.61", Some("bad line")),
    ("length 61.-", Some("bad line")),
    ("length 6161*2", Some("bad line")),
    ("length 6*2", Some("bad line")),
    ("length 6A*2", Some("bad line")),
    ("length *2", Some("bad line")),
    ("length 61*", Some("bad line")),
    ("length 61*-1", Some("bad line")),
    ("length 61*+1", Some("bad line")),
    ("length 61*2*2", Some("bad line")),
    ("length 61*2a", Some("bad line")),
    // Numbers.
    ("at c105 0", Some("ok 1 1")),
    ("at c105 00", Some("ok 1 1")),
    ("at c105 1", Some("no 1")),
    ("at c105 000000000000000000000000000000001", Some("no 1")),
    ("at c105 18446744073709551615", Some("no 1")),
    ("at c105 018446744073709551615", Some("no 1")),
    ("at c105 18446744073709551616", Some("bad line")),
    ("at c105 18446744073709551625", Some("bad line")),
    ("at c105 99999999999999999999999999999999999999999", Some("bad line")),
    ("at c105 -", Some("bad line")),
    ("at c105 -0", Some("bad line")),
    ("at c105 -1", Some("bad line")),
    ("at c105 +0", Some("bad line")),
    ("at c105 0x0", Some("bad line")),
    ("at c105 a", Some("bad line")),
    ("at c105 0a", Some("bad line")),
    ("at c105 0.0", Some("bad line")),
    ("at c105 0*1", Some("bad line")),
    ("at c105 0/0", Some("bad line")),
    ("at c105 1_0", Some("bad line")),
    ("at c105 0 0 1", Some("ok 1 1")),
    ("at c105 00 000 0001", Some("ok 1 1")),
    ("at c105 0 0 18446744073709551615", Some("no 1")),
    ("at c105 0 18446744073709551615 18446744073709551615", Some("ok 1 1")),
    ("at c105 0 18446744073709551616 1", Some("bad line")),
    ("at c105 0 0 18446744073709551616", Some("bad line")),
    ("at c105 0 -1 1", Some("bad line")),
    ("at c105 0 0 -1", Some("bad line")),
    ("at c105 0 - 1", Some("bad line")),
    ("at c105 0 0 -", Some("bad line")),
    ("at c105 0 0 1a", Some("bad line")),
    // Words of `at`, missing and too many, and spaces.
    ("at", Some("bad line")),
    ("at c105", Some("bad line")),
    ("at 0", Some("bad line")),
    ("at c105 0 0", Some("bad line")),
    ("at c105 0 0 1 0", Some("bad line")),
    ("at c105 0 0 1 0 1", Some("bad line")),
    ("at 0 c105", Some("bad line")),
    ("at c10 0", Some("bad line")),
    ("at c105  0", Some("bad line")),
    ("at c105 0 ", Some("bad line")),
    ("at c105 0  0 1", Some("bad line")),
    ("At c105 0", Some("bad line")),
    ("at c105 0\t0 1", Some("bad line")),
    // Words of the other calls, missing and too many, and names that are none.
    ("data", Some("bad line")),
    ("value", Some("bad line")),
    ("u64", Some("bad line")),
    ("bool", Some("bad line")),
    ("flags", Some("bad line")),
    ("size", Some("bad line")),
    ("count", Some("bad line")),
    ("prototype", Some("bad line")),
    ("strict", Some("bad line")),
    ("data 05 0", Some("bad line")),
    ("value 05 05", Some("bad line")),
    ("u8 05 1", Some("bad line")),
    ("count c105 0", Some("bad line")),
    ("prototype c105 -", Some("bad line")),
    ("strict c105 0", Some("bad line")),
    ("strict c10", Some("bad line")),
    ("strict  c105", Some("bad line")),
    ("flags 05 0 0 0", Some("bad line")),
    ("u 05", Some("bad line")),
    ("u24 05", Some("bad line")),
    ("u128 05", Some("bad line")),
    ("usize 05", Some("bad line")),
    ("u08 05", Some("bad line")),
    ("datas 05", Some("bad line")),
    ("values 05", Some("bad line")),
    ("flag 05", Some("bad line")),
    ("item_count c105", Some("bad line")),
    ("counts c105", Some("bad line")),
    ("stricts c105", Some("bad line")),
    ("Strict c105", Some("bad line")),
    ("none", Some("bad line")),
    ("streams 0 9 00", Some("bad line")),
    ("Stream 0 9 00", Some("bad line")),
    ("put24 1", Some("bad line")),
    ("append 61", Some("bad line")),
    ("begin_list 1", Some("bad line")),
];

/// Lengths of lines, and what they are answered: the longest is taken, a longer one is not.
const LONG: &[(usize, &str)] = &[
    (LONGEST_LINE - 2, "ok 1"),
    (LONGEST_LINE, "ok 1"),
    (LONGEST_LINE + 2, "bad line"),
    (2 * LONGEST_LINE, "bad line"),
];

/// Lengths of comments: the longest is passed over, a longer one is a line that is too long.
const LONG_COMMENTS: &[(usize, Option<&str>)] = &[
    (LONGEST_LINE - 1, None),
    (LONGEST_LINE, None),
    (LONGEST_LINE + 1, Some("bad line")),
    (2 * LONGEST_LINE, Some("bad line")),
    (20 * LONGEST_LINE, Some("bad line")),
];

/// `total` of zeros in plain hex, as a line of that even length.
fn line_of_length(length: usize) -> String {
    let word = "total ";
    format!("{word}{}", "0".repeat(length - word.len()))
}
