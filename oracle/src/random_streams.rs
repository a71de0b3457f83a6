//! Random sequences on streams from the seed: ones that every side accepts, in ample, in full and in short buffers, ones with
//! calls of any kind, deep ones and long ones.

use crate::encode::{nested, string};
use crate::random::Random;
use crate::stream_set::{StreamSet, lines, needed_room, tell};
use line::written;
use std::io;
use stream_model::Streams;
use stream_rules::{Held, OpenList};

/// How many sequences there are of each sort.
const ACCEPTED: usize = 9_000;
const AROUND_FULL: usize = 3_500;
const OF_ANY_CALLS: usize = 14_000;
const DEEP: usize = 1_500;
const LONG: usize = 60;

/// The most calls of a sequence.
const MOST_CALLS: usize = 18;

/// The rooms in which sequences are made, and the largest of a sequence with any calls.
const AMPLE: usize = 4_000;
const SMALL: usize = 70;
const LONG_ROOM: usize = 70_000;

/// One in so many sequences goes into the sample.
const SEQUENCES_FOR_ONE_PICKED: usize = 900;

/// What is asked after each call in some of the sequences.
const ASKED: &str = "len; finished; raws";

pub fn random_streams(set: &mut StreamSet, random: &mut Random) -> io::Result<()> {
    set.heading("Random sequences that are accepted.")?;
    for number in 0..ACCEPTED {
        let (start, calls) = random.accepted_calls(AMPLE);
        let calls = random.with_questions(&calls, number % 3 == 0);
        let room = needed_room(start, &calls) + random.below(9);
        set.of_room(start, room, &calls, number % SEQUENCES_FOR_ONE_PICKED == 0)?;
    }
    set.heading("Random sequences in full buffers, and in ones that are a byte short and a byte more.")?;
    for number in 0..AROUND_FULL {
        let (start, calls) = random.accepted_calls(AMPLE);
        let calls = [&calls[..], &lines("len; show")].concat();
        set.around_full(start, &calls, number % SEQUENCES_FOR_ONE_PICKED == 0)?;
    }
    set.heading("Random sequences of any calls.")?;
    for number in 0..OF_ANY_CALLS {
        let (start, calls) = random.any_calls();
        let calls = random.with_questions(&calls, number % 4 == 0);
        let room = start + random.below(SMALL);
        set.of_room(start, room, &calls, number % SEQUENCES_FOR_ONE_PICKED == 0)?;
    }
    set.heading("Random deep sequences.")?;
    for _ in 0..DEEP {
        let calls = random.deep_calls();
        let room = 12 + random.below(300);
        set.of_room(random.below(2), room, &[&calls[..], &lines("len; finished; show")].concat(), false)?;
    }
    set.heading("Random long sequences.")?;
    (0..LONG).try_for_each(|_| {
        let (start, calls) = random.long_calls();
        set.around_full(start, &[&calls[..], &lines("len; finished")].concat(), false)?;
        set.of_room(start, LONG_ROOM, &[&calls[..], &lines("len; raws")].concat(), false)
    })
}

/// A stream that is followed while its calls are chosen.
struct Followed {
    streams: Streams,
    calls: Vec<String>,
}

impl Followed {
    fn new(start: usize, room: usize) -> Followed {
        let mut streams = Streams::default();
        tell(&mut streams, &format!("stream {start} {room} 00"));
        Followed { streams, calls: vec![] }
    }

    /// What it holds: the model never leaves a state that does not match.
    fn held(&self) -> Held {
        self.streams.0.as_ref().expect("it was made").without_limits()
    }

    fn call(&mut self, call: String) {
        tell(&mut self.streams, &call);
        self.calls.push(call);
    }
}

impl Random {
    fn start(&mut self) -> usize {
        if self.below(3) == 0 { self.below(6) } else { 0 }
    }

    /// A start, and calls that are all accepted where there is room.
    fn accepted_calls(&mut self, room: usize) -> (usize, Vec<String>) {
        let start = self.start();
        let mut followed = Followed::new(start, room);
        for _ in 0..1 + self.below(MOST_CALLS) {
            let call = self.accepted_call(&followed.held());
            followed.call(call);
        }
        self.close_some(&mut followed);
        (start, followed.calls)
    }

    /// Most sequences end with their lists closed.
    fn close_some(&mut self, followed: &mut Followed) {
        while let Some(list) = followed.held().lists.last().filter(|_| self.below(12) > 0) {
            match left(list) {
                None => followed.call("finalize".to_string()),
                Some(items) => followed.call(self.raw_of(items.min(9))),
            }
        }
    }

    fn accepted_call(&mut self, held: &Held) -> String {
        let opened = held.lists.len();
        match self.below(20) {
            0..=3 if opened < 16 => format!("begin {}", self.most()),
            4..=5 if opened < 16 => "unbounded".to_string(),
            6..=8 => self.accepted_raw(held),
            9..=11 if held.lists.last().is_some_and(|list| list.most.is_none()) => "finalize".to_string(),
            12 if self.below(6) == 0 => "clear".to_string(),
            12 => format!("estimate {}", self.length()),
            _ => self.value(),
        }
    }

    /// How many items a list takes, mostly a few.
    fn most(&mut self) -> usize {
        match self.below(12) {
            0 => 0,
            1 => 4 + self.below(60),
            _ => 1 + self.below(3),
        }
    }

    fn value(&mut self) -> String {
        match self.below(12) {
            0 => "empty".to_string(),
            1 => format!("putbool {}", self.below(2)),
            2 => format!("put8 {}", self.number_of(1)),
            3 => format!("put16 {}", self.number_of(2)),
            4 => format!("put32 {}", self.number_of(4)),
            5 => format!("put64 {}", self.number_of(8)),
            _ => format!("bytes {}", written(&self.any_bytes())),
        }
    }

    /// A number of at most so many bytes, each length of them as often as another.
    fn number_of(&mut self, width: usize) -> u64 {
        let length = self.below(width + 1);
        self.bytes(length).iter().fold(0, |number, byte| 256 * number + u64::from(*byte))
    }

    /// A raw append of as many items as the innermost list may take, or fewer, with few levels.
    fn accepted_raw(&mut self, held: &Held) -> String {
        let most = held.lists.last().and_then(left).unwrap_or(4).min(4);
        let items = self.below(most + 1);
        if held.lists.len() > 14 { self.raw_of(items) } else { self.raw_of_encodings(items, 2) }
    }

    /// A raw append of so many short strings.
    fn raw_of(&mut self, items: usize) -> String {
        self.raw_of_encodings(items, 0)
    }

    fn raw_of_encodings(&mut self, items: usize, levels: usize) -> String {
        let bytes: Vec<u8> = (0..items).flat_map(|_| self.encoding(levels)).collect();
        self.raw(&bytes, items as u64)
    }

    /// A raw append, plain or with a largest size that is above every size.
    fn raw(&mut self, bytes: &[u8], count: u64) -> String {
        let bytes = written(bytes);
        match self.below(4) {
            0 => format!("checked {bytes} {count} {}", 100_000 + self.below(9)),
            _ => format!("raw {bytes} {count}"),
        }
    }

    /// The calls with questions after each of them, or at the end alone.
    fn with_questions(&mut self, calls: &[String], after_each: bool) -> Vec<String> {
        let mut all = Vec::new();
        for call in calls {
            all.push(call.clone());
            if after_each {
                all.extend(lines(ASKED));
            }
        }
        let ends = ["len; finished; raws; show", "isempty; out; show", "out; raws; show"];
        all.extend(lines(ends[self.below(3)]));
        all
    }

    /// A start and calls of any kind, some of which are refused.
    fn any_calls(&mut self) -> (usize, Vec<String>) {
        let start = self.start();
        let mut followed = Followed::new(start, AMPLE);
        for _ in 0..1 + self.below(MOST_CALLS) {
            let call = if self.below(4) == 0 { self.any_call() } else { self.accepted_call(&followed.held()) };
            followed.call(call);
        }
        (start, followed.calls)
    }

    fn any_call(&mut self) -> String {
        match self.below(10) {
            0 => "finalize".to_string(),
            1 => "out".to_string(),
            2 => format!("estimate {}", [u64::MAX, 1 << 20, (1 << 20) + 1, 1 << 63][self.below(4)]),
            3..=5 => self.any_raw(),
            6 => format!("checked {}", self.any_checked()),
            7 => "clear".to_string(),
            _ => self.value(),
        }
    }

    /// A raw append with a count that may be false, of bytes that may be damaged or deep.
    fn any_raw(&mut self) -> String {
        let items = self.below(4);
        let mut bytes: Vec<u8> = (0..items).flat_map(|_| self.encoding(2)).collect();
        match self.below(4) {
            0 if !bytes.is_empty() => bytes = self.damaged(&bytes),
            1 => bytes = nested(14 + self.below(4), &bytes),
            _ => (),
        }
        let count = match self.below(3) {
            0 => self.below(6) as u64,
            1 if self.below(4) == 0 => u64::MAX - self.below(3) as u64,
            _ => items as u64,
        };
        self.raw(&bytes, count)
    }

    /// One or two items with a largest size that is small.
    fn any_checked(&mut self) -> String {
        let items = 1 + self.below(2);
        let bytes: Vec<u8> = (0..items).flat_map(|_| self.encoding(1)).collect();
        format!("{} {items} {}", written(&bytes), self.below(90))
    }

    /// Up to 18 lists, opened with values between them, and then values and ends.
    fn deep_calls(&mut self) -> Vec<String> {
        let mut followed = Followed::new(0, AMPLE);
        for _ in 0..10 + self.below(9) {
            let open =
                if self.below(4) == 0 { "unbounded".to_string() } else { format!("begin {}", 1 + self.below(3)) };
            followed.call(open);
            if self.below(6) == 0 {
                followed.call(format!("put8 {}", self.below(256)));
            }
        }
        for _ in 0..self.below(3) {
            followed.call(self.any_raw());
        }
        self.close_some(&mut followed);
        followed.calls
    }

    /// A start and calls with long strings in a few lists.
    fn long_calls(&mut self) -> (usize, Vec<String>) {
        let start = self.start();
        let mut followed = Followed::new(start, LONG_ROOM);
        for _ in 0..2 + self.below(4) {
            followed.call(["begin 1", "begin 2", "unbounded"][self.below(3)].to_string());
        }
        for _ in 0..2 + self.below(6) {
            let length = self.below(16_000);
            let byte = self.byte();
            let call = match self.below(3) {
                0 => format!("raw {}", self.long_raw(&followed.held(), length)),
                _ => format!("bytes {byte:02x}*{length}"),
            };
            followed.call(call);
            followed.call("len".to_string());
        }
        self.close_some(&mut followed);
        (start, followed.calls)
    }

    /// One item of about that length, or as many as there are bytes where the innermost list takes any number.
    fn long_raw(&mut self, held: &Held, length: usize) -> String {
        if held.lists.last().is_none_or(|list| list.most.is_none()) {
            return format!("{} {length}", written(&vec![0x01; length]));
        }
        format!("{} 1", written(&nested(1 + self.below(4), &string(&vec![0x61; length]))))
    }
}

/// How many items a list still takes, if it is counted.
fn left(list: &OpenList) -> Option<usize> {
    Some((list.most? - list.current) as usize)
}
