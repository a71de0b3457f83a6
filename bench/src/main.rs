//! The benchmark: one program that links the library and the Rust crate rlp 0.6.1 ("R"), and does one work by one of them at a time.
//!
//!     bench works                      the works' names, a line each
//!     bench run WORK READINGS SIDE     does the work once by SIDE, `r` or `here`, inside the function `measured`
//!     bench time WORK READINGS SIDE    does it several times, and writes the nanoseconds of the quickest
//!     bench table FILE                 makes a table in Markdown of what was measured
//!
//! Every run does the work by the other side too, outside of `measured`, and fails if the two answers differ.

mod by_r;
mod day;
mod here;
mod table;
mod works;

use std::time::Instant;

use day::{Day, Desk};
use works::{Side, Work};

/// The repeats of a work whose time is taken.
const REPEATS: usize = 9;

/// Every work has a stack of so many bytes, whatever the sheet's shape.
const STACK: usize = 256 * 1024;

/// What is counted: valgrind counts inside the function of this name.
#[no_mangle]
#[inline(never)]
pub fn measured(side: Side, day: &Day, desk: &mut Desk) -> u64 {
    side(day, desk)
}

/// A work to be measured by one side, and the other side that must come to the same.
struct Task {
    work: &'static Work,
    by_r: bool,
    day: Day,
}

/// What a work came to: its answer, and the bytes that it wrote.
type Found = (u64, Vec<u8>);

impl Task {
    fn new(work: &str, readings: &str, side: &str) -> Task {
        let readings = readings.parse().unwrap_or_else(|_| stop("READINGS is a number"));
        let work = works::named(work).unwrap_or_else(|| stop("there is no such work"));
        let by_r = match side {
            "r" => true,
            "here" => false,
            _ => stop("SIDE is r or here"),
        };
        Task { work, by_r, day: Day::new(readings, work.shape) }
    }

    /// Does the work once, on a desk made ready for it. Answers what it came to, and the nanoseconds that it took.
    fn done(&self, by_r: bool, how: fn(Side, &Day, &mut Desk) -> u64) -> (Found, u128) {
        let mut desk = Desk::new(&self.day);
        let side = if by_r { self.work.r } else { self.work.here };
        let start = Instant::now();
        let answer = how(side, &self.day, &mut desk);
        let took = start.elapsed().as_nanos();
        let written = if !self.work.writes {
            Vec::new()
        } else if by_r {
            desk.stream.to_vec()
        } else {
            desk.buf[..answer as usize].to_vec()
        };
        ((answer, written), took)
    }

    fn compare(&self, found: &Found) {
        let (other, _) = self.done(!self.by_r, |side, day, desk| side(day, desk));
        assert!(*found == other, "{}: the two sides differ: {} and {}", self.work.name, found.0, other.0);
    }

    fn run(&self) {
        let (found, _) = self.done(self.by_r, measured);
        self.compare(&found);
    }

    fn time(&self) {
        let mut best = u128::MAX;
        for _ in 0..REPEATS {
            let (found, took) = self.done(self.by_r, |side, day, desk| side(day, desk));
            self.compare(&found);
            best = best.min(took);
        }
        println!("{best}");
    }
}

fn stop(why: &str) -> ! {
    eprintln!("bench: {why}");
    std::process::exit(2)
}

/// Runs what is given in a thread with the small stack.
fn in_thread(work: impl FnOnce() + Send + 'static) {
    let thread = std::thread::Builder::new().stack_size(STACK).spawn(work).expect("a thread");
    if thread.join().is_err() {
        std::process::exit(1);
    }
}

fn main() {
    let words: Vec<String> = std::env::args().skip(1).collect();
    let words: Vec<&str> = words.iter().map(String::as_str).collect();
    match words[..] {
        ["works"] => works::WORKS.iter().for_each(|work| println!("{}", work.name)),
        ["run", work, readings, side] => {
            let task = Task::new(work, readings, side);
            in_thread(move || task.run());
        }
        ["time", work, readings, side] => {
            let task = Task::new(work, readings, side);
            in_thread(move || task.time());
        }
        ["table", file] => match std::fs::read_to_string(file) {
            Ok(lines) => print!("{}", table::made(&lines)),
            Err(why) => stop(&format!("{file}: {why}")),
        },
        _ => stop("usage: bench works | run WORK READINGS SIDE | time WORK READINGS SIDE | table FILE"),
    }
}
