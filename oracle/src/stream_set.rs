//! The set of sequences of lines on streams while it is made: every one goes to one file, and the picked ones are remembered for
//! the sample. A sequence starts with its line `stream`.

use line::STREAM_WORDS;
use std::collections::HashSet;
use std::fs::{self, File};
use std::io::{self, BufWriter, Write};
use stream_model::Streams;

/// The largest buffer that the rules take.
const LARGEST_ROOM: usize = 1_048_576;

/// No line writes more bytes than it gives and these: a number of eight bytes, its header, and a list's header that grows later.
const BESIDE_GIVEN: usize = 16;

/// The file of all sequences, and the numbers of the picked lines, counted from 1.
pub struct StreamSet {
    all: BufWriter<File>,
    lines: usize,
    picked: Vec<usize>,
    /// The sequences written so far: none is written twice.
    written: HashSet<Vec<String>>,
}

impl StreamSet {
    pub fn create(path: &str) -> io::Result<StreamSet> {
        let all = BufWriter::new(File::create(path)?);
        Ok(StreamSet { all, lines: 0, picked: vec![], written: HashSet::new() })
    }

    fn line(&mut self, line: &str) -> io::Result<()> {
        self.lines += 1;
        writeln!(self.all, "{line}")
    }

    pub fn heading(&mut self, text: &str) -> io::Result<()> {
        self.line(&format!("# {text}"))
    }

    /// A sequence, if it is not there yet.
    pub fn sequence(&mut self, sequence: Vec<String>, pick: bool) -> io::Result<()> {
        if self.written.contains(&sequence) {
            return Ok(());
        }
        if pick {
            self.picked.extend(self.lines + 1..=self.lines + sequence.len());
        }
        sequence.iter().try_for_each(|line| self.line(line))?;
        self.written.insert(sequence);
        Ok(())
    }

    /// A sequence of lines after a new stream of that start and room, in a buffer of bytes a5.
    pub fn of_room(&mut self, start: usize, room: usize, lines: &[String], pick: bool) -> io::Result<()> {
        let first = format!("stream {start} {room} a5");
        self.sequence([&[first], lines].concat(), pick)
    }

    /// The same lines in a buffer that they fill, in one that is a byte short and in one that has a byte more.
    pub fn around_full(&mut self, start: usize, lines: &[String], pick: bool) -> io::Result<()> {
        let room = needed_room(start, lines);
        self.of_room(start, room, lines, pick)?;
        if room > 0 {
            self.of_room(start, room - 1, lines, pick)?;
        }
        if room < LARGEST_ROOM { self.of_room(start, room + 1, lines, false) } else { Ok(()) }
    }

    pub fn finish(mut self, picked: &str) -> io::Result<()> {
        self.all.flush()?;
        fs::write(picked, self.picked.iter().map(|number| format!("{number}\n")).collect::<String>())
    }
}

/// The smallest room in which the lines get the answers that they get where there is room enough: the furthest end on the way.
pub fn needed_room(start: usize, lines: &[String]) -> usize {
    let mut streams = Streams::default();
    let enough = (start + lines.iter().map(|line| most_written(line)).sum::<usize>()).min(LARGEST_ROOM);
    tell(&mut streams, &format!("stream {start} {enough} 00"));
    let mut furthest = start;
    for line in lines {
        tell(&mut streams, line);
        furthest = furthest.max(streams.0.as_ref().map_or(start, |stream| stream.end as usize));
    }
    furthest
}

/// No line writes more bytes than this.
fn most_written(line: &str) -> usize {
    line.split(' ').nth(1).and_then(line::bytes).map_or(0, |bytes| bytes.len()) + BESIDE_GIVEN
}

/// Tells the model a line.
pub fn tell(streams: &mut Streams, line: &str) {
    let words: Vec<&str> = line.split(' ').collect();
    debug_assert!(STREAM_WORDS.contains(&words[0]), "no line of a stream: {line}");
    streams.answer(&words);
}

/// The lines of a text, joined by `; `.
pub fn lines(text: &str) -> Vec<String> {
    text.split("; ").map(str::to_string).collect()
}
