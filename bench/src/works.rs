//! The works: what each is called, and how either side does it.

use crate::day::{Day, Desk, Shape};
use crate::{by_r, here};

/// A work done by one side: its answer, which for a sheet that was written is the length.
pub type Side = fn(&Day, &mut Desk) -> u64;

pub struct Work {
    pub name: &'static str,
    pub title: &'static str,
    pub shape: Shape,
    /// Whether it writes a sheet, which then is compared too.
    pub writes: bool,
    pub r: Side,
    pub here: Side,
}

/// Items and levels as one number.
pub fn tally(items: usize, depth: usize) -> u64 {
    (items * 100 + depth) as u64
}

/// The sum, with a reading's fields added.
pub fn added(sum: u64, name: &[u8], time: u64, gravity: u16) -> u64 {
    let name = name.len() as u64 + name.last().map_or(0, |&byte| u64::from(byte));
    sum.wrapping_add(name).wrapping_add(time).wrapping_add(u64::from(gravity))
}

const fn checking(name: &'static str, title: &'static str, shape: Shape) -> Work {
    Work { name, title, shape, writes: false, r: |day, _| by_r::check(day).unwrap(), here: |day, _| here::check(day).unwrap() }
}

/// A work that only reads, and has one name on both sides.
macro_rules! reading {
    ($name:literal, $title:literal, $call:ident) => {
        Work {
            name: $name,
            title: $title,
            shape: Shape::Readings,
            writes: false,
            r: |day, _| by_r::$call(day).unwrap(),
            here: |day, _| here::$call(day).unwrap(),
        }
    };
}

const fn writing(name: &'static str, title: &'static str, r: Side, here: Side) -> Work {
    Work { name, title, shape: Shape::Readings, writes: true, r, here }
}

pub static WORKS: &[Work] = &[
    checking("check", "strict check", Shape::Readings),
    checking("check-deep", "strict check, the sheet in 16 levels of lists", Shape::Deep),
    checking("check-bytes", "strict check, one-byte items instead of readings", Shape::OneByte),
    checking("check-empty", "strict check, empty lists instead of readings", Shape::EmptyLists),
    reading!("walk", "every reading's values, by `iter` and `val_at`", walk_val_at),
    reading!("walk-iter", "every reading's values, by `iter` and `iter`", walk_iter),
    reading!("count", "`item_count`, fresh", item_count),
    reading!("at", "`at` of the item at nine tenths, fresh", at),
    reading!("at-each", "`at(i)` of each item in turn, by the view's cache", at_each),
    reading!("u64", "`u64` of 6 bytes, once for each reading", u64),
    reading!("u16", "`u16` of 2 bytes, the same", u16),
    reading!("value", "`decode_value` of 5 bytes, the same", value),
    reading!("data", "`data` of 5 bytes, the same", data),
    reading!("info", "`payload_info` of 5 bytes, the same", payload_info),
    writing("build", "building the sheet by the stream", by_r::build, |day, desk| here::build(day, desk).unwrap()),
    writing(
        "amend",
        "amending the middle reading, same size; R: `append_raw` of each `at(i)`",
        |day, desk| by_r::amend_raw(day, desk, &day.same_bytes).unwrap(),
        |day, desk| here::amend(day, desk, &day.same_bytes).unwrap(),
    ),
    writing(
        "amend-decoded",
        "the same; R: every reading decoded and encoded",
        |day, desk| by_r::amend_decoded(day, desk, &day.same).unwrap(),
        |day, desk| here::amend(day, desk, &day.same_bytes).unwrap(),
    ),
    writing(
        "longer",
        "amending it by one longer by a byte; R: `append_raw` of each `at(i)`",
        |day, desk| by_r::amend_raw(day, desk, &day.longer_bytes).unwrap(),
        |day, desk| here::amend(day, desk, &day.longer_bytes).unwrap(),
    ),
    writing(
        "longer-decoded",
        "the same; R: every reading decoded and encoded",
        |day, desk| by_r::amend_decoded(day, desk, &day.longer).unwrap(),
        |day, desk| here::amend(day, desk, &day.longer_bytes).unwrap(),
    ),
];

pub fn named(name: &str) -> Option<&'static Work> {
    WORKS.iter().find(|work| work.name == name)
}
