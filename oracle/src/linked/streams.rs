//! Sequences of calls on a stream, done by R, by the rules and by the library over a lent buffer, and compared after each call: its
//! answer, the bytes up to the end, `len`, `is_finished` and `is_empty`, and for the library all of the buffer and its state.
//! R follows up to the first call that it answers otherwise, which must be in a listed class: then its stream is another.

use crate::caught::caught;
use crate::library::{self, LISTS, STATE};
use crate::report::{IN_NO_CLASS, NOT_THE_RULES, Three, class_of, cut, cuts, written};
use crate::said::Said;
use crate::stream_calls::{length, library_does, r_does, rules_do, truth};
use crate::wrong::{self, Wrong};
use answers::{Answered, BETWEEN_LINES};
use bytes::BytesMut;
use departures::Size;
use line::{StreamLine, Work, stream_line, words, written as hex};
use rlp::RlpStream;
use stream_rules::Stream;

/// A stream and the calls on it, as lines of docs/CASES.md.
#[derive(Clone)]
pub struct Sequence {
    pub start: u32,
    pub room: usize,
    /// What the buffer is filled with.
    pub byte: u8,
    /// The stream and its first list are made by one call, `new_list`. Then the first line is `begin`.
    pub as_list: bool,
    pub lines: Vec<String>,
}

impl Sequence {
    fn head(&self) -> String {
        format!("stream {} {} {:02x}", self.start, self.room, self.byte)
    }

    fn text(&self) -> String {
        let head = if self.as_list { self.head() + " (new_list)" } else { self.head() };
        [&[head], &self.lines[..]].concat().join(BETWEEN_LINES)
    }

    /// The same with a line less, from the buffer's start, with less room, or with fewer bytes in a line.
    pub fn smaller(&self) -> Vec<Sequence> {
        let first = usize::from(self.as_list);
        let mut smaller: Vec<Sequence> = (first..self.lines.len()).rev().map(|index| self.with(index, None)).collect();
        if self.start > 0 {
            let room = self.room.saturating_sub(self.start as usize);
            smaller.push(Sequence { start: 0, room, ..self.clone() });
        }
        let rooms = [self.room / 2, self.room.saturating_sub(1)].into_iter().filter(|room| *room < self.room);
        smaller.extend(rooms.map(|room| Sequence { room, ..self.clone() }));
        for (index, line) in self.lines.iter().enumerate() {
            smaller.extend(shorter_lines(line).into_iter().map(|line| self.with(index, Some(line))));
        }
        smaller
    }

    /// The same with another line in the place of one of its own, or with none there.
    fn with(&self, index: usize, line: Option<String>) -> Sequence {
        let mut lines = self.lines.clone();
        lines.splice(index..=index, line);
        Sequence { lines, ..self.clone() }
    }
}

/// A line that gives bytes, with fewer of them.
fn shorter_lines(line: &str) -> Vec<String> {
    let [call @ ("bytes" | "raw" | "checked"), bytes, rest @ ..] = &line.split(' ').collect::<Vec<&str>>()[..] else {
        return vec![];
    };
    let shorter = cuts(&line::bytes(bytes).unwrap_or_default());
    shorter.iter().map(|bytes| [&[*call, &hex(bytes)], rest].concat().join(" ")).collect()
}

/// What a sequence showed.
#[derive(Default)]
pub struct Outcome {
    pub results: u64,
    pub with_r: u64,
    /// The numbers of the library's refusals.
    pub refusals: Vec<u32>,
    pub departure: Option<((usize, Size), Answered)>,
    /// The first difference that is in no list: its sort, and its text.
    pub unlisted: Option<(String, String)>,
}

/// A sequence under way on all sides.
pub struct Sides {
    pub sequence: Sequence,
    wrong: Option<Wrong>,
    ours: library::Stream,
    pub rules: Stream,
    /// `None`: R's stream is lost, or is another.
    r: Option<RlpStream>,
    pub outcome: Outcome,
}

/// What a state holds before the stream is made.
const UNUSED: u32 = 0x5555_5555;

impl Sides {
    /// A new stream. Its sequence gets its lines one by one.
    pub fn new(start: u32, room: usize, byte: u8, wrong: Option<Wrong>) -> Sides {
        let buffer = vec![byte; room];
        let mut ours = library::Stream { state: vec![UNUSED; STATE], buffer: buffer.clone() };
        let made = ours.start(start);
        let rules = Stream::new(start.into(), buffer);
        let sequence = Sequence { start, room, byte, as_list: false, lines: vec![] };
        let r = (start as usize <= room).then(|| RlpStream::new_with_buffer(prefix(&sequence)));
        let mut sides = Sides { sequence, wrong, ours, rules, r, outcome: Outcome::default() };
        sides.expect(made == Said::DONE, "a new stream");
        sides.compare_state();
        sides
    }

    /// A new stream that is a list. It goes on if the list was taken.
    pub fn new_list(start: u32, room: usize, byte: u8, most: u32, wrong: Option<Wrong>) -> Sides {
        let mut sides = Sides::new(start, room, byte, wrong);
        sides.sequence.as_list = true;
        sides.ours.state = vec![UNUSED; STATE];
        sides.step(&format!("begin {most}"));
        sides
    }

    /// All the lines of a sequence, up to the first difference that is in no list.
    pub fn of(sequence: &Sequence, wrong: Option<Wrong>) -> Outcome {
        let Sequence { start, room, byte, as_list, lines } = sequence;
        let mut lines = lines.iter();
        let mut sides = match lines.next().filter(|_| *as_list).and_then(|line| line.strip_prefix("begin ")) {
            Some(most) => Sides::new_list(*start, *room, *byte, most.parse().expect("a number"), wrong),
            None => {
                lines = sequence.lines.iter();
                Sides::new(*start, *room, *byte, wrong)
            }
        };
        lines.all(|line| sides.step(line));
        sides.outcome
    }

    /// Whether no stream was made: `new_list` was refused.
    pub fn is_unmade(&self) -> bool {
        self.ours.state.iter().all(|number| *number == UNUSED)
    }

    /// Does one line on every side and compares. `false`: there is a difference that is in no list, or no stream.
    pub fn step(&mut self, line: &str) -> bool {
        let words = words(line.as_bytes()).expect("a line of a stream");
        let Some(StreamLine::Of(work)) = stream_line(&words) else { panic!("a line of a stream: {line}") };
        let call = words[0];
        let before = self.ours.clone();
        let r = self.r_does(&work);
        let ours = self.library_does(&work);
        let ours = wrong::step(self.wrong, call, ours, &mut self.ours);
        let rules = rules_do(&mut self.rules, &work);
        self.compare(call, line, Three { ours, rules, r });
        self.sequence.lines.push(line.to_string());
        self.expect(self.ours.buffer == self.rules.buffer, "the buffer of a stream");
        if matches!(ours, Said::No(_)) || (call == "checked" && ours == Said::yes_or_no(false)) {
            self.expect(self.ours == before, "a stream after a call that is to change nothing");
        }
        if !self.is_unmade() {
            self.compare_state();
            self.look();
        }
        self.outcome.unlisted.is_none() && !self.is_unmade()
    }

    fn library_does(&mut self, work: &Work) -> Said {
        match work {
            Work::Begin(most) if self.is_unmade() => self.ours.new_list(self.sequence.start, *most),
            _ => library_does(&mut self.ours, work),
        }
    }

    /// R's answer, if its stream is still the same one.
    fn r_does(&mut self, work: &Work) -> Option<Said> {
        if let Work::State(_) = work {
            self.r = None;
        }
        let is_unmade = self.is_unmade();
        let stream = self.r.as_mut()?;
        let said = match work {
            Work::Begin(most) if is_unmade => {
                *stream = RlpStream::new_list_with_buffer(prefix(&self.sequence), *most as usize);
                Said::DONE
            }
            _ => caught(|| r_does(stream, work)).unwrap_or(Said::Panic),
        };
        if matches!(work, Work::Out) {
            self.r = None;
        }
        Some(said)
    }

    fn compare(&mut self, call: &str, line: &str, three: Three) {
        self.outcome.results += 1;
        self.outcome.with_r += u64::from(three.r.is_some());
        if let Said::No(number) = three.ours {
            self.outcome.refusals.push(number);
        }
        if three.agree() || self.outcome.unlisted.is_some() {
            return;
        }
        let before = [vec![self.sequence.head()], self.sequence.lines.clone()].concat();
        let mut answered = three.answered(call, line.to_string(), before);
        let class = class_of(&mut answered);
        if let Some(sort) = three.unlisted(class.as_ref().map(|(class, _)| *class)) {
            self.outcome.unlisted = Some((format!("{sort}: `{call}` of a stream"), written(&answered)));
        } else if let Some(class) = class {
            self.outcome.departure = Some((class, answered));
            self.r = None;
        }
    }

    /// A fact that the rules demand of the library after the calls.
    fn expect(&mut self, holds: bool, what: &str) {
        self.outcome.results += 1;
        if !holds && self.outcome.unlisted.is_none() {
            self.outcome.unlisted = Some((format!("{NOT_THE_RULES}: {what}"), self.shown()));
        }
    }

    /// The sequence, and what it left.
    fn shown(&self) -> String {
        let shown = |numbers: Vec<u32>, buffer: &[u8]| format!("state {numbers:?}, buffer {}", cut(&hex(buffer)));
        let rules = shown(open_numbers(&numbers(&self.rules)), &self.rules.buffer);
        let library = shown(open_numbers(&self.ours.state), &self.ours.buffer);
        format!("{} | rules: {rules} | library: {library}", cut(&self.sequence.text()))
    }

    fn compare_state(&mut self) {
        self.expect(open_numbers(&self.ours.state) == open_numbers(&numbers(&self.rules)), "the state of a stream");
    }

    /// What is asked after each call.
    fn look(&mut self) {
        let looks: [(&str, fn(&mut library::Stream) -> Said, fn(&Stream) -> Said, fn(&RlpStream) -> Said); 4] = [
            ("len", |ours| ours.len(), |rules| rules.len().into(), |r| Said::one(r.len() as u64)),
            ("finished", |ours| ours.is_finished(), |rules| truth(rules.is_finished()), |r| truth(Ok(r.is_finished()))),
            ("isempty", |ours| ours.is_empty(), |rules| truth(rules.is_empty()), |r| truth(Ok(r.is_empty()))),
            ("raws", |ours| ours.as_raw(), |rules| length(rules.as_raw()), |r| length(Ok(r.as_raw()))),
        ];
        for (call, ours, rules, r) in looks {
            let ours = wrong::look(self.wrong, call, ours(&mut self.ours));
            let three = Three { ours, rules: rules(&self.rules), r: self.r.as_ref().map(r) };
            self.compare(call, call, three);
        }
        self.compare_bytes_with_r();
    }

    fn compare_bytes_with_r(&mut self) {
        let Some(r) = &self.r else { return };
        self.outcome.results += 1;
        self.outcome.with_r += 1;
        let raw = wrong::bytes_of_r(self.wrong, Wrong::ByteOfRStream, r.as_raw());
        if raw != &self.ours.buffer[..self.rules.end as usize] && self.outcome.unlisted.is_none() {
            let text = format!("{} | R: {}", self.shown(), cut(&hex(&raw)));
            self.outcome.unlisted = Some((format!("{IN_NO_CLASS}: the bytes of a stream"), text));
        }
    }
}

/// The state of the rules' stream, as the library has it.
fn numbers(stream: &Stream) -> Vec<u32> {
    let heads = [stream.start, stream.end, stream.opened].map(|number| number as u32);
    [&heads[..], &stream.positions, &stream.currents, &stream.maxima].concat()
}

/// The numbers of a state that say something: start, end, open lists, and of each of these position, current and maximum.
fn open_numbers(state: &[u32]) -> Vec<u32> {
    let open = (state[2] as usize).min(LISTS);
    let of_list = |list: usize| [0, 1, 2].map(|array| state[3 + LISTS * array + list]);
    state[..3].iter().copied().chain((0..open).flat_map(of_list)).collect()
}

/// R writes behind the bytes that it is given.
fn prefix(sequence: &Sequence) -> BytesMut {
    BytesMut::from(&vec![sequence.byte; sequence.start as usize][..])
}
