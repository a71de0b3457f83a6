//! Sheets for the strict check, with answers written by hand. R has no strict check, so these and the peer judge the model.

use crate::Line;

pub fn cases() -> impl Iterator<Item = Line> {
    let all = [SHEETS, EDGES, BOUNDS, LEVELS, LONG_LEVELS, ORDER, LARGE, TOO_LARGE].concat();
    all.into_iter().map(|(bytes, answer)| (format!("strict {bytes}"), Some(answer)))
}

/// The rules' table "Sheets to try", P1 to P14.
const SHEETS: &[(&str, &str)] = &[
    ("80", "ok 1 0"),
    ("00", "ok 1 0"),
    ("8105", "no 3"),
    ("8180", "ok 1 0"),
    ("c0", "ok 1 1"),
    ("c88363617483646f67", "ok 3 1"),
    ("c7c0c1c0c3c0c1c0", "ok 8 4"),
    ("-", "no 1"),
    ("c10506", "no 10"),
    ("b800", "no 2"),
    ("b80105", "no 3"),
    ("c28105", "no 3"),
    ("c28201", "no 1"),
    ("bf.ff*8", "no 1"),
];

/// The lengths and the results named under that table, and those beside them.
const EDGES: &[(&str, &str)] = &[
    ("b7.61*55", "ok 1 0"),
    ("b7.61*54", "no 1"),
    ("b7.61*56", "no 10"),
    ("b737.61*55", "no 10"),
    ("b837.61*55", "no 3"),
    ("b838.61*56", "ok 1 0"),
    ("b838.61*55", "no 1"),
    ("b838.61*57", "no 10"),
    ("b90038.61*56", "no 2"),
    ("b8ff.61*255", "ok 1 0"),
    ("b900ff.61*255", "no 2"),
    ("b90100.61*256", "ok 1 0"),
    ("b90100.61*255", "no 1"),
    ("b9ffff.61*65535", "ok 1 0"),
    ("ba00ffff.61*65535", "no 2"),
    ("ba010000.61*65536", "ok 1 0"),
    ("f7.01*55", "ok 56 1"),
    ("f7.01*54", "no 1"),
    ("f7.01*56", "no 10"),
    ("f837.01*55", "no 3"),
    ("f838.01*56", "ok 57 1"),
    ("f838.01*55", "no 1"),
    ("f838.01*57", "no 10"),
    ("f90038.01*56", "no 2"),
    ("f90100.01*256", "ok 257 1"),
    ("f90100.01*255", "no 1"),
    ("fa010000.c0*65536", "ok 65537 2"),
    ("c58363617405", "ok 3 1"),
    ("c58363617405000000", "no 10"),
    ("f8388180.01*54", "ok 56 1"),
    ("f7.01*55.00", "no 10"),
    ("7f", "ok 1 0"),
    ("8100", "no 3"),
    ("817f", "no 3"),
    ("81ff", "ok 1 0"),
    ("81", "no 1"),
    ("8000", "no 10"),
    ("0000", "no 10"),
    ("820000", "ok 1 0"),
    ("c100", "ok 2 1"),
    ("c180", "ok 2 1"),
    ("c28180", "ok 2 1"),
    ("c3820005", "ok 2 1"),
    ("f800", "no 2"),
    ("f80105", "no 3"),
    ("f8", "no 1"),
    ("b8", "no 1"),
    ("b9", "no 1"),
    ("b900", "no 2"),
    ("b901", "no 1"),
    ("ff.ff*8", "no 1"),
    ("ff00.ff*7", "no 2"),
    ("c0c0", "no 10"),
    ("c0b800", "no 10"),
];

/// Items that pass their list's end, but not the end of the bytes or of the list around it.
const BOUNDS: &[(&str, &str)] = &[
    ("c1", "no 1"),
    ("c181", "no 1"),
    ("c18180", "no 1"),
    ("c18105", "no 1"),
    ("c1820102", "no 1"),
    ("c1c105", "no 1"),
    ("c2c10506", "no 10"),
    ("c3c1810505", "no 1"),
    ("c3c18180", "no 1"),
    ("c4c1810505", "no 1"),
    ("c4c18205c0", "no 1"),
    ("c4c2830102", "no 1"),
    ("c2c2c0c0", "no 1"),
    ("c3c2c105c0", "no 10"),
    ("c5c4c3820105", "ok 4 3"),
    ("c5c3c2820105", "no 1"),
    ("c6c3c282010505", "no 1"),
    ("c6c4c382010505", "ok 5 3"),
    ("c1b838.61*56", "no 1"),
    ("c2b838.61*56", "no 1"),
    ("f83ab838.61*56", "ok 2 1"),
    ("f839b838.61*56", "no 1"),
    ("f83bb838.61*56.c0", "ok 3 2"),
    ("c9.bf.ff*8", "no 1"),
    ("c9.ff.ff*8", "no 1"),
    ("c1*1048576", "no 1"),
];

/// Levels: 16 are taken, a list at a 17th is not, and data in the 16th is.
const LEVELS: &[(&str, &str)] = &[
    ("c1c0", "ok 2 2"),
    ("c2c0c0", "ok 3 2"),
    ("c2c105", "ok 3 2"),
    ("c3c0c105", "ok 4 2"),
    ("c3c1c005", "ok 4 3"),
    ("c4c1c0c1c0", "ok 5 3"),
    ("c6c405c2c10506", "ok 7 4"),
    // 15, 16, 17 and 18 levels around nothing.
    ("cecdcccbcac9c8c7c6c5c4c3c2c1c0", "ok 15 15"),
    ("cfcecdcccbcac9c8c7c6c5c4c3c2c1c0", "ok 16 16"),
    ("d0cfcecdcccbcac9c8c7c6c5c4c3c2c1c0", "no 11"),
    ("d1d0cfcecdcccbcac9c8c7c6c5c4c3c2c1c0", "no 11"),
    // 15, 16 and 17 levels around data.
    ("cfcecdcccbcac9c8c7c6c5c4c3c2c105", "ok 16 15"),
    ("d0cfcecdcccbcac9c8c7c6c5c4c3c2c105", "ok 17 16"),
    ("d1d0cfcecdcccbcac9c8c7c6c5c4c3c2c105", "no 11"),
    ("d1d0cfcecdcccbcac9c8c7c6c5c4c3c28180", "ok 17 16"),
    // 16 and 17 levels around 81 05.
    ("d1d0cfcecdcccbcac9c8c7c6c5c4c3c28105", "no 3"),
    ("d2d1d0cfcecdcccbcac9c8c7c6c5c4c3c28105", "no 11"),
    // 16 levels around an item whose header is refused: that comes before the 17th level.
    ("d0cfcecdcccbcac9c8c7c6c5c4c3c2c1c1", "no 1"),
    ("d0cfcecdcccbcac9c8c7c6c5c4c3c2c1f8", "no 1"),
    ("d0cfcecdcccbcac9c8c7c6c5c4c3c2c181", "no 1"),
    ("d1d0cfcecdcccbcac9c8c7c6c5c4c3c2f800", "no 2"),
    ("d1d0cfcecdcccbcac9c8c7c6c5c4c3c2b800", "no 2"),
    ("d1d0cfcecdcccbcac9c8c7c6c5c4c3c2f801", "no 3"),
    // 17 levels around the same: the level comes before the contents.
    ("d1d0cfcecdcccbcac9c8c7c6c5c4c3c2c1c1", "no 11"),
    ("d2d1d0cfcecdcccbcac9c8c7c6c5c4c3c2f800", "no 11"),
    // Levels end with their list: two nests of 15 side by side in a list.
    ("dececdcccbcac9c8c7c6c5c4c3c2c1c0cecdcccbcac9c8c7c6c5c4c3c2c1c0", "ok 31 16"),
    ("e0cfcecdcccbcac9c8c7c6c5c4c3c2c1c0cfcecdcccbcac9c8c7c6c5c4c3c2c1c0", "no 11"),
    ("dfcecdcccbcac9c8c7c6c5c4c3c2c1c0cfcecdcccbcac9c8c7c6c5c4c3c2c1c0", "no 11"),
];

/// Levels with headers of two bytes: 16 and 17 around 56 bytes 01, where the innermost list has the header f8 38.
const LONG_LEVELS: &[(&str, &str)] = &[
    ("f856f854f852f850f84ef84cf84af848f846f844f842f840f83ef83cf83af838.01*56", "ok 72 16"),
    ("f858f856f854f852f850f84ef84cf84af848f846f844f842f840f83ef83cf83af838.01*56", "no 11"),
    ("f858f856f854f852f850f84ef84cf84af848f846f844f842f840f83ef83cf83ab838.61*56", "ok 17 16"),
    ("f858f856f854f852f850f84ef84cf84af848f846f844f842f840f83ef83cf83af838.01*55", "no 1"),
];

/// What is refused first: from left to right, an item before what follows it, and what follows the whole last.
const ORDER: &[(&str, &str)] = &[
    ("c48105b800", "no 3"),
    ("c4b8008105", "no 2"),
    ("c38105c1", "no 3"),
    ("c30581b8", "ok 3 1"),
    ("c3058105", "no 3"),
    ("c305b800", "no 2"),
    ("c305b801", "no 3"),
    ("c4c2b80005", "no 2"),
    ("c5c2b8008105", "no 2"),
    ("c5c28105b800", "no 3"),
    ("c4c2c18105", "no 1"),
    ("8105b8", "no 3"),
    ("810505", "no 3"),
    ("b80005", "no 2"),
    ("c2810505", "no 3"),
    ("c20581", "no 1"),
    ("c2058105", "no 1"),
    ("d0cfcecdcccbcac9c8c7c6c5c4c3c2c1c000", "no 11"),
    ("cfcecdcccbcac9c8c7c6c5c4c3c2c1c000", "no 10"),
    ("cfcecdcccbcac9c8c7c6c5c4c3c2c1", "no 1"),
    // A nest of 16 in a list, before and after 81 05.
    ("d2cfcecdcccbcac9c8c7c6c5c4c3c2c1c08105", "no 11"),
    ("d28105cfcecdcccbcac9c8c7c6c5c4c3c2c1c0", "no 3"),
    ("d1cecdcccbcac9c8c7c6c5c4c3c2c1c08105", "no 3"),
];

/// Sheets of exactly 1,048,576 bytes.
const LARGE: &[(&str, &str)] = &[
    ("ba0ffffc.61*1048572", "ok 1 0"),
    ("fa0ffffc.01*1048572", "ok 1048573 1"),
    ("fa0ffffc.c0*1048572", "ok 1048573 2"),
    ("fa0ffffcba0ffff8.61*1048568", "ok 2 1"),
    // 16 levels around bytes 01, around one string and around empty lists, and 15 around empty lists.
    (
        "fa0ffffcfa0ffff8fa0ffff4fa0ffff0fa0fffecfa0fffe8fa0fffe4fa0fffe0fa0fffdcfa0fffd8fa0fffd4fa0fffd0fa0fffccfa0fffc8\
         fa0fffc4fa0fffc0.01*1048512",
        "ok 1048528 16",
    ),
    (
        "fa0ffffcfa0ffff8fa0ffff4fa0ffff0fa0fffecfa0fffe8fa0fffe4fa0fffe0fa0fffdcfa0fffd8fa0fffd4fa0fffd0fa0fffccfa0fffc8\
         fa0fffc4fa0fffc0ba0fffbc.61*1048508",
        "ok 17 16",
    ),
    (
        "fa0ffffcfa0ffff8fa0ffff4fa0ffff0fa0fffecfa0fffe8fa0fffe4fa0fffe0fa0fffdcfa0fffd8fa0fffd4fa0fffd0fa0fffccfa0fffc8\
         fa0fffc4fa0fffc0.c0*1048512",
        "no 11",
    ),
    (
        "fa0ffffcfa0ffff8fa0ffff4fa0ffff0fa0fffecfa0fffe8fa0fffe4fa0fffe0fa0fffdcfa0fffd8fa0fffd4fa0fffd0fa0fffccfa0fffc8\
         fa0fffc4.c0*1048516",
        "ok 1048531 16",
    ),
    // Refused.
    ("00*1048576", "no 10"),
    ("b800.61*1048574", "no 2"),
    ("fa0ffffb.01*1048572", "no 10"),
    ("fa0ffffd.01*1048572", "no 1"),
    ("fa0ffffc.01*1048571.81", "no 1"),
    ("fa0ffffc.01*1048570.8105", "no 3"),
    ("fa0ffffc.01*1048570.b800", "no 2"),
    ("fa0ffffc.c0*1048571.c1", "no 1"),
];

/// The same with one byte more, after the whole or in it: 12, before all else.
const TOO_LARGE: &[(&str, &str)] = &[
    ("ba0ffffc.61*1048573", "no 12"),
    ("ba0ffffd.61*1048573", "no 12"),
    ("fa0ffffc.01*1048573", "no 12"),
    ("fa0ffffd.01*1048573", "no 12"),
    ("fa0ffffc.c0*1048573", "no 12"),
    (
        "fa0ffffcfa0ffff8fa0ffff4fa0ffff0fa0fffecfa0fffe8fa0fffe4fa0fffe0fa0fffdcfa0fffd8fa0fffd4fa0fffd0fa0fffccfa0fffc8\
         fa0fffc4fa0fffc0.01*1048513",
        "no 12",
    ),
    (
        "fa0ffffcfa0ffff8fa0ffff4fa0ffff0fa0fffecfa0fffe8fa0fffe4fa0fffe0fa0fffdcfa0fffd8fa0fffd4fa0fffd0fa0fffccfa0fffc8\
         fa0fffc4fa0fffc0.c0*1048513",
        "no 12",
    ),
    ("00*1048577", "no 12"),
    ("b800.61*1048575", "no 12"),
    ("8105.61*1048575", "no 12"),
    ("c1*1048577", "no 12"),
];
