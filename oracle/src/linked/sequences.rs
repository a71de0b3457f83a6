//! Random sequences on streams, each call chosen by what the stream holds: most are accepted, and now and then one is refused, after
//! which R is no longer followed.

use crate::random::{Random, list};
use crate::streams::Sides;
use crate::wrong::Wrong;
use line::written as hex;
use stream_rules::{Held, OpenList, Stream};

/// The most calls of a sequence.
const MOST_CALLS: usize = 24;

/// One in so many sequences ends with a state that was made up.
const MADE_UP: usize = 10;

impl Random {
    /// A sequence, done while it is chosen.
    pub fn sequence(&mut self, wrong: Option<Wrong>) -> Sides {
        let start = if self.one_in(3) { self.below(6) } else { 0 };
        let room = start + self.room();
        let byte = self.of(&[0x00, 0xa5, 0xff]);
        let mut sides = match self.below(8) {
            0 => Sides::new_list(start as u32, room, byte, self.most(), wrong),
            1 if self.one_in(8) => Sides::new((room + 1 + self.below(3)) as u32, room, byte, wrong),
            _ => Sides::new(start as u32, room, byte, wrong),
        };
        let goes_on = !sides.is_unmade() && self.open_many(&mut sides) && self.calls(&mut sides);
        if goes_on && self.one_in(MADE_UP) {
            let state = self.state(&sides.rules);
            if sides.step(&state) {
                self.calls(&mut sides);
            }
        } else if goes_on {
            sides.step("out");
        }
        sides
    }

    fn room(&mut self) -> usize {
        match self.below(4) {
            0 => self.below(70),
            1 | 2 => 250 + self.below(100),
            _ => 1_500,
        }
    }

    /// In some sequences many lists are opened first.
    fn open_many(&mut self, sides: &mut Sides) -> bool {
        let lists = if self.one_in(8) { 10 + self.below(7) } else { 0 };
        (0..lists).all(|_| {
            let line = if self.one_in(3) { "unbounded".to_string() } else { format!("begin {}", 1 + self.below(2)) };
            sides.step(&line)
        })
    }

    fn calls(&mut self, sides: &mut Sides) -> bool {
        (0..1 + self.below(MOST_CALLS)).all(|_| {
            let line = match held(&sides.rules) {
                Some(held) => self.line(&held),
                None => self.value(),
            };
            sides.step(&line)
        })
    }

    fn line(&mut self, held: &Held) -> String {
        let innermost = held.lists.last();
        let may_open = held.lists.len() < 16 || self.one_in(6);
        let may_close = innermost.is_some_and(|list| list.most.is_none()) || self.one_in(12);
        match self.below(24) {
            0..=3 if may_open => format!("begin {}", self.most()),
            4 | 5 if may_open => "unbounded".to_string(),
            6..=8 => self.accepted_raw(held),
            9 if self.one_in(3) => self.any_raw(),
            10..=12 if may_close => "finalize".to_string(),
            13 => format!("estimate {}", self.estimated()),
            14 if self.one_in(5) => "clear".to_string(),
            15 if held.lists.is_empty() || self.one_in(12) => self.checked(),
            _ => self.value(),
        }
    }

    /// How many items a list takes, mostly a few.
    fn most(&mut self) -> u32 {
        match self.below(12) {
            0 => 0,
            1 => 4 + self.below(60) as u32,
            2 if self.one_in(4) => u32::MAX - self.below(2) as u32,
            _ => 1 + self.below(3) as u32,
        }
    }

    fn estimated(&mut self) -> u64 {
        if self.one_in(6) { self.of(&[1 << 20, (1 << 20) + 1, 1 << 63, u64::MAX]) } else { self.length() as u64 }
    }

    fn value(&mut self) -> String {
        match self.below(12) {
            0 => "empty".to_string(),
            1 => format!("putbool {}", self.below(2)),
            2 => format!("put8 {}", self.number_of(1)),
            3 => format!("put16 {}", self.number_of(2)),
            4 => format!("put32 {}", self.number_of(4)),
            5 => format!("put64 {}", self.number_of(8)),
            _ => {
                let length = self.length();
                format!("bytes {}", hex(&self.bytes(length)))
            }
        }
    }

    /// As many items as the innermost list takes, or fewer, with few levels.
    fn accepted_raw(&mut self, held: &Held) -> String {
        let takes = |list: &OpenList| list.most.map_or(4, |most| most - list.current).min(4) as usize;
        let items = self.below(held.lists.last().map_or(4, takes) + 1);
        let levels = if held.lists.len() > 14 { 0 } else { 2 };
        let bytes: Vec<u8> = (0..items).flat_map(|_| self.tree(levels)).collect();
        match self.below(4) {
            0 => format!("checked {} {items} {}", hex(&bytes), 100_000 + self.below(9)),
            _ => format!("raw {} {items}", hex(&bytes)),
        }
    }

    /// Raw bytes that may be damaged or deep, with a count that may be false.
    fn any_raw(&mut self) -> String {
        let items = self.below(4);
        let mut bytes: Vec<u8> = (0..items).flat_map(|_| self.tree(2)).collect();
        match self.below(4) {
            0 => bytes = self.damaged(bytes),
            1 => bytes = (0..14 + self.below(4)).fold(bytes, |inner, _| list(&inner)),
            _ => (),
        }
        let count = match self.below(3) {
            0 => self.below(6) as u64,
            1 if self.one_in(4) => u64::MAX - self.below(3) as u64,
            _ => items as u64,
        };
        format!("raw {} {count}", hex(&bytes))
    }

    /// One or two items with a largest size that is small.
    fn checked(&mut self) -> String {
        let items = 1 + self.below(2);
        let bytes: Vec<u8> = (0..items).flat_map(|_| self.tree(1)).collect();
        format!("checked {} {items} {}", hex(&bytes), self.below(90))
    }

    /// The stream's state with one number of it changed.
    fn state(&mut self, stream: &Stream) -> String {
        let lists = (stream.opened as usize).min(16);
        let mut numbers = vec![stream.start as u32, stream.end as u32, stream.opened as u32];
        for index in 0..lists {
            numbers.extend([stream.positions[index], stream.currents[index], stream.maxima[index]]);
        }
        let place = self.below(numbers.len());
        numbers[place] = match self.below(4) {
            0 => numbers[place].wrapping_add(1),
            1 => numbers[place].wrapping_sub(1),
            2 => self.below(20) as u32,
            _ => self.next() as u32,
        };
        let of_list = |list: &[u32]| format!(" {}:{}:{}", list[0], list[1], list[2]);
        let lists: String = numbers[3..].chunks(3).map(of_list).collect();
        format!("state {} {} {}{lists}", numbers[0], numbers[1], numbers[2])
    }
}

/// What a stream holds, if its state matches.
fn held(stream: &Stream) -> Option<Held> {
    stream.is_finished().ok().map(|_| stream.without_limits())
}
