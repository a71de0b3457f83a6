//! Amendings with answers written by hand, from the rules: for what R, which has no amender, cannot judge, and the rules' examples.

use crate::Line;

pub fn lines() -> Vec<Line> {
    let all = [EXAMPLES, ACCEPTED, LENGTHS, REFUSED, PATHS, LEVELS, ORDER, FORMAT].concat();
    all.into_iter().map(|(line, answer)| (line.to_string(), Some(answer))).collect()
}

/// The two under the rules' table "Sheets to try".
const EXAMPLES: &[(&str, &str)] = &[
    ("amend c88363617483646f67 9 1 05", "ok 6 c58363617405000000"),
    (
        "amend f7.01*55.a5a5 56 0 8180",
        "ok 58 f8388180010101010101010101010101010101010101010101010101010101010101010101010101010101010101010101010101010101010101",
    ),
    ("amend f7.01*55.a5 56 0 8180", "no 13"),
];

/// The first item, the last, one further in and the whole sheet; smaller, as large and larger; old bytes behind.
const ACCEPTED: &[(&str, &str)] = &[
    ("amend c88363617483646f67 9 0 05", "ok 6 c50583646f67000000"),
    ("amend c88363617483646f67 9 - 05", "ok 1 050000000000000000"),
    ("amend c88363617483646f67 9 - c88363617483646f67", "ok 9 c88363617483646f67"),
    ("amend c88363617483646f67 9 1 c0", "ok 6 c583636174c0000000"),
    ("amend c88363617483646f67 9 0 80", "ok 6 c58083646f67000000"),
    ("amend c88363617483646f67a0a1a2 9 1 05", "ok 6 c58363617405000000a0a1a2"),
    ("amend c88363617483646f67a0a1a2 9 0 c3010203", "ok 9 c8c301020383646f67a0a1a2"),
    ("amend c105a0a1a2 2 0 820102", "ok 4 c3820102a2"),
    ("amend c105a0a1 2 0 820102", "ok 4 c3820102"),
    ("amend c105a0 2 0 820102", "no 13"),
    ("amend c105 2 0 820102", "no 13"),
    ("amend c28180a0 3 0 05", "ok 2 c10500a0"),
    ("amend c0 1 - 80", "ok 1 80"),
    ("amend c7c0c1c0c3c0c1c0a5 8 2/1/0 8180", "ok 9 c8c0c1c0c4c0c28180"),
    ("amend c7c0c1c0c3c0c1c0a5 8 2 05", "ok 5 c4c0c1c005000000a5"),
    // Two headers at once become shorter, and longer.
    (
        "amend f83af8388180.01*54 60 0/0 05",
        "ok 58 f838f7050101010101010101010101010101010101010101010101010101010101010101010101010101010101010101010101010101010101010000",
    ),
    (
        "amend f838f705.01*54.a5a5 58 0/0 8180",
        "ok 60 f83af8388180010101010101010101010101010101010101010101010101010101010101010101010101010101010101010101010101010101010101",
    ),
    ("amend f838f705.01*54.a5 58 0/0 8180", "no 13"),
];

/// Lengths that are not the sheet's.
const LENGTHS: &[(&str, &str)] = &[
    ("amend c10506 2 0 07", "ok 2 c10706"),
    ("amend c10506 3 0 07", "no 10"),
    ("amend c105 1 0 07", "no 1"),
    ("amend c105 0 - 07", "no 1"),
    ("amend c105 3 - 07", "no 1"),
    ("amend c105 18446744073709551615 - 07", "no 1"),
    ("amend c105 4294967298 0 07", "no 1"),
    ("amend - 0 - 05", "no 1"),
    ("amend - 1 - 05", "no 1"),
];

/// The strict check's refusals, of the sheet and of the replacement.
const REFUSED: &[(&str, &str)] = &[
    ("amend 81 1 - 05", "no 1"),
    ("amend b800 2 - 05", "no 2"),
    ("amend 8105 2 - 05", "no 3"),
    ("amend c28105 3 0 05", "no 3"),
    ("amend c205820102 5 0 05", "no 1"),
    ("amend c0c0 2 - 05", "no 10"),
    ("amend d0cfcecdcccbcac9c8c7c6c5c4c3c2c1c0 17 - 05", "no 11"),
    ("amend c105 2 0 -", "no 1"),
    ("amend c105 2 0 81", "no 1"),
    ("amend c105 2 0 b800", "no 2"),
    ("amend c105 2 0 8105", "no 3"),
    ("amend c105 2 0 0505", "no 10"),
    ("amend 05 1 - d0cfcecdcccbcac9c8c7c6c5c4c3c2c1c0", "no 11"),
];

/// Paths that name no item.
const PATHS: &[(&str, &str)] = &[
    ("amend c105 2 1 07", "no 19"),
    ("amend c105 2 0/0 07", "no 19"),
    ("amend 05 1 0 07", "no 19"),
    ("amend c0 1 0 07", "no 19"),
    ("amend c105 2 256 07", "no 19"),
    ("amend c105 2 4294967296 07", "no 19"),
    ("amend c105 2 18446744073709551615 07", "no 19"),
    ("amend 83636174 4 0 07", "no 19"),
    ("amend cfcecdcccbcac9c8c7c6c5c4c3c2c1c0 16 0/0/0/0/0/0/0/0/0/0/0/0/0/0/0/0 05", "no 19"),
];

/// 16 levels, and 17.
const LEVELS: &[(&str, &str)] = &[
    (
        "amend cfcecdcccbcac9c8c7c6c5c4c3c2c1c0 16 0/0/0/0/0/0/0/0/0/0/0/0/0/0/0 05",
        "ok 16 cfcecdcccbcac9c8c7c6c5c4c3c2c105",
    ),
    (
        "amend cfcecdcccbcac9c8c7c6c5c4c3c2c1c0 16 0/0/0/0/0/0/0/0/0/0/0/0/0/0/0 c0",
        "ok 16 cfcecdcccbcac9c8c7c6c5c4c3c2c1c0",
    ),
    ("amend cfcecdcccbcac9c8c7c6c5c4c3c2c1c0a5 16 0/0/0/0/0/0/0/0/0/0/0/0/0/0/0 c1c0", "no 11"),
    (
        "amend cfcecdcccbcac9c8c7c6c5c4c3c2c1c0 16 0/0/0/0/0/0/0/0/0/0/0/0/0/0 c0",
        "ok 15 cecdcccbcac9c8c7c6c5c4c3c2c1c000",
    ),
    ("amend 05.a5*15 1 - cfcecdcccbcac9c8c7c6c5c4c3c2c1c0", "ok 16 cfcecdcccbcac9c8c7c6c5c4c3c2c1c0"),
    ("amend c105.a5*20 2 0 cfcecdcccbcac9c8c7c6c5c4c3c2c1c0", "no 11"),
];

/// Two refusals at once.
const ORDER: &[(&str, &str)] = &[
    ("amend 00*1048577 1048578 - -", "no 12"),
    ("amend - 1 - 00*1048577", "no 12"),
    ("amend 00*1048577 0 0 -", "no 12"),
    ("amend - 0 0 00*1048577", "no 12"),
    ("amend 8105 3 - 05", "no 1"),
    ("amend 8105 3 - 8105", "no 1"),
    ("amend 8105 2 - b800", "no 3"),
    ("amend b800 2 - 8105", "no 2"),
    ("amend c105 2 1 8105", "no 3"),
    ("amend c105 2 1 cfcecdcccbcac9c8c7c6c5c4c3c2c1c0", "no 19"),
    ("amend c105 2 1 820102", "no 19"),
    ("amend c105 2 0 cfcecdcccbcac9c8c7c6c5c4c3c2c1c0", "no 11"),
];

/// The line itself.
const FORMAT: &[(&str, &str)] = &[
    ("amend", "bad line"),
    ("amend c105 2 0", "bad line"),
    ("amend c105 2 0 07 07", "bad line"),
    ("Amend c105 2 0 07", "bad line"),
    ("amend c105 2  07", "bad line"),
    ("amend C105 2 0 07", "bad line"),
    ("amend c105 2 0 7", "bad line"),
    ("amend c105 - 0 07", "bad line"),
    ("amend c105 -1 0 07", "bad line"),
    ("amend c105 18446744073709551616 0 07", "bad line"),
    ("amend c105 2 / 07", "bad line"),
    ("amend c105 2 0/ 07", "bad line"),
    ("amend c105 2 /0 07", "bad line"),
    ("amend c105 2 0//0 07", "bad line"),
    ("amend c105 2 -/0 07", "bad line"),
    ("amend c105 2 0/- 07", "bad line"),
    ("amend c105 2 0.0 07", "bad line"),
    ("amend c105 2 -1 07", "bad line"),
    ("amend c105 2 x 07", "bad line"),
    ("amend c105 2 18446744073709551616 07", "bad line"),
    ("amend c105 2 00 07", "ok 2 c107"),
    ("amend c105 002 000 07", "ok 2 c107"),
    ("amend c1.05*1 2 0 07.07*0", "ok 2 c107"),
    (
        "amend c105 2 0/0/0/0/0/0/0/0/0/0/0/0/0/0/0/0/0/0/0/0/0/0/0/0/0/0/0/0/0/0/0/0/0/0/0/0/0/0/0/0/0/0/0/0/0/0/0/0/0/0/0/0/0/0/0/0/0/0/0/0/0/0/0/0 07",
        "no 19",
    ),
    (
        "amend c105 2 0/0/0/0/0/0/0/0/0/0/0/0/0/0/0/0/0/0/0/0/0/0/0/0/0/0/0/0/0/0/0/0/0/0/0/0/0/0/0/0/0/0/0/0/0/0/0/0/0/0/0/0/0/0/0/0/0/0/0/0/0/0/0/0/0 07",
        "bad line",
    ),
    // The bytes of both words together.
    ("amend 00*1048577 1 - 05", "bad line"),
    ("amend 00*1048577 1 - -", "no 12"),
    ("amend 00 1 - 00*1048577", "bad line"),
    ("amend 00*524288 1 - 00*524289", "no 10"),
    ("amend 00*1048576 2 - 05", "no 10"),
    ("amend 05 1 - 00*1048576", "no 10"),
    ("amend 00*524288 1 - 00*524290", "bad line"),
];
