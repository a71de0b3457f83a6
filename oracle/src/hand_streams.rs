//! Streams with answers written by hand, from the rules: for what R cannot judge, since it departs from the rules there or has no
//! such line, and R's own examples.

use crate::Sequence;
use crate::stream_format::FORMAT;

pub type Lines = &'static [(&'static str, &'static str)];

/// The first sequence has no stream yet, so it stands first in every set.
pub fn sequences() -> Vec<Sequence> {
    let parts = [FORMAT, EXAMPLES, VALUES, LISTS, STARTS, STATES, SIZES, ROOM, ORDERS, RAW, LIMITS];
    let owned = |(line, answer): &(&str, &'static str)| (line.to_string(), *answer);
    parts.concat().into_iter().map(|lines| lines.iter().map(owned).collect()).collect()
}

/// The examples in the description of R's RlpStream.
const EXAMPLES: &[Lines] = &[
    &[("stream 0 3 00", "ok"), ("begin 2", "ok"), ("empty", "ok"), ("empty", "ok"), ("out", "ok c28080")],
    &[
        ("stream 0 1024 00", "ok"),
        ("begin 2", "ok"),
        ("bytes 636174", "ok"),
        ("finished", "ok 0"),
        ("raws", "ok 0083636174"),
        ("len", "ok 5"),
        ("bytes 646f67", "ok"),
        ("finished", "ok 1"),
        ("out", "ok c88363617483646f67"),
        ("len", "ok 9"),
    ],
    &[
        ("stream 0 11 00", "ok"),
        ("begin 2", "ok"),
        ("begin 2", "ok"),
        ("bytes 636174", "ok"),
        ("bytes 646f67", "ok"),
        ("show", "state 0 10 1 1:1:2 00c88363617483646f6700"),
        ("bytes -", "ok"),
        ("out", "ok cac88363617483646f6780"),
    ],
    // After a clear the old bytes stand behind the end.
    &[
        ("stream 0 10 00", "ok"),
        ("begin 3", "ok"),
        ("bytes 636174", "ok"),
        ("clear", "ok"),
        ("show", "state 0 0 0 00836361740000000000"),
        ("isempty", "ok 1"),
        ("bytes 646f67", "ok"),
        ("out", "ok 83646f67"),
        ("show", "state 0 4 0 83646f67740000000000"),
    ],
    // One from its tests.
    &[
        ("stream 0 64 00", "ok"),
        ("unbounded", "ok"),
        ("put32 40", "ok"),
        ("put32 41", "ok"),
        ("finished", "ok 0"),
        ("finalize", "ok"),
        ("finished", "ok 1"),
        ("out", "ok c22829"),
    ],
];

/// Several items at the top: strings, scalars and bools.
const VALUES: &[Lines] = &[
    &[
        ("stream 0 64 00", "ok"),
        ("bytes 00", "ok"),
        ("bytes 7f", "ok"),
        ("bytes 80", "ok"),
        ("bytes -", "ok"),
        ("raws", "ok 007f818080"),
        ("put8 0", "ok"),
        ("put8 5", "ok"),
        ("put8 127", "ok"),
        ("put8 128", "ok"),
        ("put8 255", "ok"),
        ("raws", "ok 007f81808080057f818081ff"),
        ("len", "ok 12"),
        ("finished", "ok 1"),
        ("clear", "ok"),
        ("put16 0", "ok"),
        ("put16 1", "ok"),
        ("put16 255", "ok"),
        ("put16 256", "ok"),
        ("put32 65536", "ok"),
        ("put64 4294967296", "ok"),
        ("raws", "ok 800181ff82010083010000850100000000"),
        ("clear", "ok"),
        ("putbool 0", "ok"),
        ("putbool 1", "ok"),
        ("empty", "ok"),
        ("put64 18446744073709551615", "ok"),
        ("out", "ok 80018088ffffffffffffffff"),
    ],
    // Strings on both sides of the bound of the forms.
    &[
        ("stream 0 120 00", "ok"),
        ("bytes 61*55", "ok"),
        ("len", "ok 56"),
        ("bytes 61*56", "ok"),
        ("len", "ok 114"),
        ("clear", "ok"),
        ("bytes 61*55", "ok"),
        (
            "raws",
            "ok b761616161616161616161616161616161616161616161616161616161616161616161616161616161616161616161616161616161616161",
        ),
        ("clear", "ok"),
        ("bytes 61*56", "ok"),
        (
            "raws",
            "ok b838616161616161616161616161616161616161616161616161616161\
             6161616161616161616161616161616161616161616161616161616161",
        ),
    ],
];

const LISTS: &[Lines] = &[
    // Three lists that fill at once, in a full buffer and in one that is a byte short.
    &[
        ("stream 0 4 a5", "ok"),
        ("begin 1", "ok"),
        ("begin 1", "ok"),
        ("begin 1", "ok"),
        ("show", "state 0 3 3 1:0:1 2:0:1 3:0:1 000000a5"),
        ("begin 0", "ok"),
        ("show", "state 0 4 0 c3c2c1c0"),
        ("empty", "no 13"),
        ("finalize", "no 15"),
    ],
    &[
        ("stream 0 3 a5", "ok"),
        ("begin 1", "ok"),
        ("begin 1", "ok"),
        ("begin 1", "ok"),
        ("begin 0", "no 13"),
        ("show", "state 0 3 3 1:0:1 2:0:1 3:0:1 000000"),
    ],
    // Sixteen, and what is refused at the 17th level.
    &[
        ("stream 0 18 00", "ok"),
        ("begin 1", "ok"),
        ("begin 1", "ok"),
        ("begin 1", "ok"),
        ("begin 1", "ok"),
        ("begin 1", "ok"),
        ("begin 1", "ok"),
        ("begin 1", "ok"),
        ("begin 1", "ok"),
        ("begin 1", "ok"),
        ("begin 1", "ok"),
        ("begin 1", "ok"),
        ("begin 1", "ok"),
        ("begin 1", "ok"),
        ("begin 1", "ok"),
        ("begin 1", "ok"),
        ("begin 1", "ok"),
        ("begin 0", "no 11"),
        ("begin 1", "no 11"),
        ("unbounded", "no 11"),
        ("raw c0 1", "no 11"),
        ("raw c0c0 2", "no 14"),
        ("raw - 0", "ok"),
        ("out", "no 17"),
        ("len", "ok 16"),
        ("put8 5", "ok"),
        ("out", "ok d0cfcecdcccbcac9c8c7c6c5c4c3c2c105"),
    ],
    // Unbounded lists in counted ones: the outer closes with the inner.
    &[
        ("stream 0 8 a5", "ok"),
        ("begin 2", "ok"),
        ("put8 1", "ok"),
        ("unbounded", "ok"),
        ("show", "state 0 3 2 1:1:2 3:0:- 000100a5a5a5a5a5"),
        ("out", "no 17"),
        ("raw 0505 2", "ok"),
        ("show", "state 0 5 2 1:1:2 3:2:- 0001000505a5a5a5"),
        ("finalize", "ok"),
        ("show", "state 0 5 0 c401c20505a5a5a5"),
        ("finalize", "no 15"),
        ("unbounded", "ok"),
        ("finalize", "ok"),
        ("out", "ok c401c20505c0"),
    ],
    // An inner list counts one, and not more.
    &[
        ("stream 0 8 a5", "ok"),
        ("begin 2", "ok"),
        ("begin 3", "ok"),
        ("raw 050505 3", "ok"),
        ("show", "state 0 5 1 1:1:2 00c3050505a5a5a5"),
        ("begin 0", "ok"),
        ("out", "ok c5c3050505c0"),
    ],
];

/// A stream that does not start at 0: the bytes before it are shown, and not counted.
const STARTS: &[Lines] = &[
    &[
        ("stream 3 8 a5", "ok"),
        ("raws", "ok a5a5a5"),
        ("len", "ok 0"),
        ("isempty", "ok 1"),
        ("begin 1", "ok"),
        ("show", "state 3 4 1 1:0:1 a5a5a500a5a5a5a5"),
        ("len", "ok 1"),
        ("isempty", "ok 0"),
        ("put8 7", "ok"),
        ("out", "ok a5a5a5c107"),
        ("show", "state 3 5 0 a5a5a5c107a5a5a5"),
        ("clear", "ok"),
        ("raws", "ok a5a5a5"),
        ("show", "state 3 3 0 a5a5a5c107a5a5a5"),
    ],
    &[("stream 8 8 a5", "ok"), ("len", "ok 0"), ("raws", "ok a5a5a5a5a5a5a5a5"), ("empty", "no 13")],
    // It starts past the buffer.
    &[
        ("stream 9 8 a5", "ok"),
        ("len", "no 20"),
        ("clear", "no 20"),
        ("empty", "no 20"),
        ("raws", "no 20"),
        ("show", "state 9 9 0 a5a5a5a5a5a5a5a5"),
    ],
];

/// Each fact that 20 is given for, and the state just inside it.
const STATES: &[Lines] = &[
    &[
        ("stream 0 6 3c", "ok"),
        ("state 6 6 0", "ok"),
        ("len", "ok 0"),
        ("state 6 5 0", "ok"),
        ("len", "no 20"),
        ("state 0 6 0", "ok"),
        ("len", "ok 6"),
        ("state 0 7 0", "ok"),
        ("len", "no 20"),
        ("state 0 6 17", "ok"),
        ("len", "no 20"),
        ("state 0 6 2 1:0:- 2:0:-", "ok"),
        ("len", "ok 6"),
        ("state 0 6 2 1:0:- 1:0:-", "ok"),
        ("len", "no 20"),
        ("state 0 6 2 2:0:- 1:0:-", "ok"),
        ("len", "no 20"),
        ("state 0 6 1 6:0:-", "ok"),
        ("len", "ok 6"),
        ("state 0 6 1 7:0:-", "ok"),
        ("len", "no 20"),
        ("state 0 6 1 0:0:-", "ok"),
        ("len", "no 20"),
        ("state 2 6 1 4:0:-", "ok"),
        ("len", "ok 4"),
        ("state 2 6 1 5:0:-", "ok"),
        ("len", "no 20"),
        ("state 0 6 1 1:5:-", "ok"),
        ("len", "ok 6"),
        ("state 0 6 1 1:6:-", "ok"),
        ("len", "no 20"),
        ("state 0 6 1 1:1:2", "ok"),
        ("len", "ok 6"),
        ("state 0 6 1 1:1:1", "ok"),
        ("len", "no 20"),
        ("state 0 6 1 1:2:1", "ok"),
        ("len", "no 20"),
        ("state 0 6 0 0:9:1", "ok"),
        ("len", "ok 6"),
        ("show", "state 0 6 0 3c3c3c3c3c3c"),
    ],
    // Sixteen lists, of which one item closes the inner thirteen; and seventeen.
    &[
        ("stream 0 18 3c", "ok"),
        (
            "state 0 16 16 1:0:1 2:0:1 3:0:2 4:0:1 5:0:1 6:0:1 7:0:1 8:0:1 9:0:1 10:0:1 11:0:1 12:0:1 13:0:1 \
             14:0:1 15:0:1 16:0:1",
            "ok",
        ),
        ("len", "ok 16"),
        ("put8 5", "ok"),
        ("show", "state 0 17 3 1:0:1 2:0:1 3:1:2 3c3c3ccdcccbcac9c8c7c6c5c4c3c2c1053c"),
        (
            "state 0 16 17 1:0:1 2:0:1 3:0:2 4:0:1 5:0:1 6:0:1 7:0:1 8:0:1 9:0:1 10:0:1 11:0:1 12:0:1 13:0:1 \
             14:0:1 15:0:1 16:0:1",
            "ok",
        ),
        ("len", "no 20"),
        ("put8 5", "no 20"),
        ("clear", "no 20"),
    ],
    // A state that no sequence leads to: its bytes are not looked at.
    &[
        ("stream 0 6 3c", "ok"),
        ("state 0 3 1 1:0:1", "ok"),
        ("put8 5", "ok"),
        ("show", "state 0 4 0 c33c3c053c3c"),
        ("state 0 4 2 1:1:2 3:0:1", "ok"),
        ("empty", "ok"),
        ("show", "state 0 5 0 c43cc205803c"),
    ],
    // Every call on one that does not match.
    &[
        ("stream 0 6 3c", "ok"),
        ("state 1 0 0", "ok"),
        ("begin 0", "no 20"),
        ("begin 1", "no 20"),
        ("unbounded", "no 20"),
        ("empty", "no 20"),
        ("bytes 61", "no 20"),
        ("put8 1", "no 20"),
        ("put16 1", "no 20"),
        ("put32 1", "no 20"),
        ("put64 1", "no 20"),
        ("putbool 1", "no 20"),
        ("raw - 0", "no 20"),
        ("checked - 0 9", "no 20"),
        ("finalize", "no 20"),
        ("clear", "no 20"),
        ("len", "no 20"),
        ("estimate 0", "no 20"),
        ("finished", "no 20"),
        ("isempty", "no 20"),
        ("out", "no 20"),
        ("raws", "no 20"),
        ("show", "state 1 0 0 3c3c3c3c3c3c"),
    ],
];

const SIZES: &[Lines] = &[
    // One list in another, with 254 bytes 01 in it: written 256, its size 258; closed, it is 259.
    &[
        ("stream 0 260 00", "ok"),
        ("unbounded", "ok"),
        ("unbounded", "ok"),
        ("raw 01*254 254", "ok"),
        ("len", "ok 258"),
        ("estimate 0", "ok 258"),
        ("estimate 1", "ok 260"),
        ("finalize", "ok"),
        ("len", "ok 259"),
        ("finalize", "ok"),
        ("len", "ok 259"),
    ],
    // A size for each length of the length bytes.
    &[
        ("stream 0 1 00", "ok"),
        ("estimate 0", "ok 0"),
        ("estimate 56", "ok 56"),
        ("estimate 1048576", "ok 1048576"),
        ("estimate 1048577", "no 12"),
        ("estimate 18446744073709551615", "no 12"),
        ("unbounded", "ok"),
        ("estimate 0", "ok 1"),
        ("estimate 55", "ok 56"),
        ("estimate 56", "ok 58"),
        ("estimate 255", "ok 257"),
        ("estimate 256", "ok 259"),
        ("estimate 65535", "ok 65538"),
        ("estimate 65536", "ok 65540"),
        ("estimate 1048576", "ok 1048580"),
        ("estimate 1048577", "no 12"),
        ("estimate 18446744073709551615", "no 12"),
    ],
    // A largest size below the estimate, and at it.
    &[
        ("stream 0 4 00", "ok"),
        ("unbounded", "ok"),
        ("checked 05 1 0", "ok no"),
        ("checked 05 1 1", "ok no"),
        ("show", "state 0 1 1 1:0:- 00000000"),
        ("checked 05 1 2", "ok yes"),
        ("show", "state 0 2 1 1:1:- 00050000"),
        ("checked - 0 1", "ok no"),
        ("checked - 0 2", "ok yes"),
        ("checked 05 1 18446744073709551615", "ok yes"),
        ("show", "state 0 3 1 1:2:- 00050500"),
    ],
];

/// Room is judged with the headers of all the lists that a call closes.
const ROOM: &[Lines] = &[
    // Inner payload 54, outer 55: no header grows.
    &[
        ("stream 0 56 00", "ok"),
        ("begin 1", "ok"),
        ("begin 1", "ok"),
        ("bytes 61*53", "ok"),
        ("finished", "ok 1"),
        ("len", "ok 56"),
    ],
    // Inner payload 55, outer 56: the outer header grows.
    &[
        ("stream 0 58 00", "ok"),
        ("begin 1", "ok"),
        ("begin 1", "ok"),
        ("bytes 61*54", "ok"),
        ("finished", "ok 1"),
        ("len", "ok 58"),
    ],
    &[
        ("stream 0 57 00", "ok"),
        ("begin 1", "ok"),
        ("begin 1", "ok"),
        ("bytes 61*54", "no 13"),
        ("finished", "ok 0"),
        ("len", "ok 2"),
    ],
    // Inner payload 56, outer 58: both grow.
    &[
        ("stream 0 60 00", "ok"),
        ("begin 1", "ok"),
        ("begin 1", "ok"),
        ("bytes 61*55", "ok"),
        ("finished", "ok 1"),
        ("len", "ok 60"),
    ],
    &[("stream 0 59 00", "ok"), ("begin 1", "ok"), ("begin 1", "ok"), ("bytes 61*55", "no 13"), ("len", "ok 2")],
    // A list that is finalized.
    &[
        ("stream 0 58 00", "ok"),
        ("unbounded", "ok"),
        ("raw 01*56 56", "ok"),
        ("len", "ok 58"),
        ("finalize", "ok"),
        ("len", "ok 58"),
    ],
    &[
        ("stream 0 57 00", "ok"),
        ("unbounded", "ok"),
        ("raw 01*56 56", "ok"),
        ("finalize", "no 13"),
        ("finished", "ok 0"),
        ("len", "ok 58"),
    ],
];

/// Two facts that a call could be refused for: the first in the order is given.
const ORDERS: &[Lines] = &[
    // 12 before 20.
    &[
        ("stream 0 1048577 00", "ok"),
        ("len", "no 12"),
        ("empty", "no 12"),
        ("finalize", "no 12"),
        ("out", "no 12"),
        ("state 1 0 0", "ok"),
        ("len", "no 12"),
        ("clear", "no 12"),
        ("raw 8105 9", "no 12"),
    ],
    &[
        ("stream 0 8 00", "ok"),
        ("state 1 0 0", "ok"),
        ("bytes 00*1048577", "no 12"),
        ("raw 00*1048577 0", "no 12"),
        ("checked 00*1048577 0 0", "no 12"),
        ("estimate 1048577", "no 12"),
        ("estimate 1048576", "no 20"),
        ("bytes 00*1048576", "no 20"),
        // 20 before all others.
        ("raw 8105 9", "no 20"),
        ("checked 05 1 0", "no 20"),
        ("finalize", "no 20"),
        ("out", "no 20"),
        ("state 1 0 1 1:0:-", "ok"),
        ("out", "no 20"),
        ("show", "state 1 0 1 1:0:- 0000000000000000"),
    ],
    // No before the strict refusal and 18; the strict refusal before 18.
    &[
        ("stream 0 0 00", "ok"),
        ("checked 8105 1 1", "ok no"),
        ("checked 8105 1 2", "no 3"),
        ("checked 05 2 0", "ok no"),
        ("checked 05 2 1", "no 18"),
        ("checked 05 1 1", "no 13"),
        ("raw 8105 2", "no 3"),
        ("raw b800 0", "no 2"),
        ("raw 81 5", "no 1"),
        ("raw c2.8105 5", "no 3"),
        ("raw 05.82 2", "no 1"),
        ("raw d0cfcecdcccbcac9c8c7c6c5c4c3c2c1c0 2", "no 11"),
        ("raw d0cfcecdcccbcac9c8c7c6c5c4c3c2c1c0 1", "no 11"),
        ("raw cfcecdcccbcac9c8c7c6c5c4c3c2c1c0 2", "no 18"),
        ("raw cfcecdcccbcac9c8c7c6c5c4c3c2c1c0 1", "no 13"),
        ("raw 05 0", "no 18"),
        ("raw - 1", "no 18"),
        ("raw - 18446744073709551615", "no 18"),
        ("show", "state 0 0 0 -"),
    ],
    // 18 before 14, 14 before 13.
    &[
        ("stream 0 1 00", "ok"),
        ("begin 1", "ok"),
        ("raw 0505 1", "no 18"),
        ("raw 0505 3", "no 18"),
        ("raw 0505 2", "no 14"),
        ("raw 05 1", "no 13"),
        ("finalize", "no 16"),
        ("show", "state 0 1 1 1:0:1 00"),
    ],
    // 14 before 11 before 13.
    &[
        ("stream 0 1 00", "ok"),
        ("begin 1", "ok"),
        ("raw c0cfcecdcccbcac9c8c7c6c5c4c3c2c1c0 2", "no 14"),
        ("raw cfcecdcccbcac9c8c7c6c5c4c3c2c1c0 1", "no 11"),
        ("raw cecdcccbcac9c8c7c6c5c4c3c2c1c0 1", "no 13"),
        ("checked cfcecdcccbcac9c8c7c6c5c4c3c2c1c0 1 16", "ok no"),
        ("checked cfcecdcccbcac9c8c7c6c5c4c3c2c1c0 1 17", "no 11"),
        ("show", "state 0 1 1 1:0:1 00"),
    ],
];

const RAW: &[Lines] = &[
    // Some items, none, and the one that fills the list.
    &[
        ("stream 0 8 a5", "ok"),
        ("raw - 0", "ok"),
        ("raw 05c0 2", "ok"),
        ("begin 3", "ok"),
        ("raw - 0", "ok"),
        ("raw 8180.80 2", "ok"),
        ("show", "state 0 6 1 3:2:3 05c000818080a5a5"),
        ("raw - 0", "ok"),
        ("finished", "ok 0"),
        ("raw c105.05 2", "no 14"),
        ("raw c105 1", "ok"),
        ("show", "state 0 8 0 05c0c5818080c105"),
    ],
    // Sixteen levels in one item: the list that the bytes are read as is no level.
    &[
        ("stream 0 17 00", "ok"),
        ("raw cfcecdcccbcac9c8c7c6c5c4c3c2c1c0 1", "ok"),
        ("len", "ok 16"),
        ("raw c0cfcecdcccbcac9c8c7c6c5c4c3c2c1c0 2", "no 13"),
        ("begin 0", "ok"),
    ],
    // The items of an unbounded list are without limit, and the bytes must still be strict.
    &[
        ("stream 0 8 00", "ok"),
        ("unbounded", "ok"),
        ("raw 0505 2", "ok"),
        ("raw 8105 1", "no 3"),
        ("raw 05.b801 2", "no 3"),
        ("raw f80105 1", "no 3"),
        ("raw 05.f8 2", "no 1"),
        ("raw c0c1 2", "no 1"),
        ("show", "state 0 3 1 1:2:- 0005050000000000"),
    ],
];

/// The largest buffer, full.
const LIMITS: &[Lines] = &[&[
    ("stream 0 1048576 00", "ok"),
    ("raw 01*1048576 1048576", "ok"),
    ("len", "ok 1048576"),
    ("empty", "no 13"),
    ("raw - 0", "ok"),
    ("estimate 1048576", "ok 2097152"),
    ("finished", "ok 1"),
]];
