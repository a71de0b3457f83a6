//! The set of cases while it is made: every case goes to one file, and the picked ones are remembered for the sample.

use line::written;
use std::collections::{BTreeSet, HashMap};
use std::fs::{self, File};
use std::io::{self, BufWriter, Write};

/// The calls that take bytes and nothing else.
pub const CALLS: &[&str] = &[
    "length",
    "from",
    "total",
    "info",
    "data",
    "value",
    "u8",
    "u16",
    "u32",
    "u64",
    "bool",
    "flags",
    "size",
    "count",
    "prototype",
    "strict",
];

/// None of them.
pub const NO_CALLS: &[&str] = &[];

/// An index and an offset, handed to `at`.
pub type Place = (u64, u64);

/// The file of all cases, and the numbers of the lines that were picked for the sample, counted from 1.
pub struct CaseSet {
    all: BufWriter<File>,
    lines: usize,
    picked: BTreeSet<usize>,
    /// The cases written so far, with their numbers: none is written twice.
    numbers: HashMap<Box<str>, usize>,
}

impl CaseSet {
    pub fn create(path: &str) -> io::Result<CaseSet> {
        let all = BufWriter::new(File::create(path)?);
        Ok(CaseSet { all, lines: 0, picked: BTreeSet::new(), numbers: HashMap::new() })
    }

    fn line(&mut self, line: &str, pick: bool) -> io::Result<()> {
        writeln!(self.all, "{line}")?;
        self.lines += 1;
        if pick {
            self.picked.insert(self.lines);
        }
        Ok(())
    }

    pub fn heading(&mut self, text: &str) -> io::Result<()> {
        self.line(&format!("# {text}"), true)
    }

    /// A line that asks something, if it is not there yet.
    pub fn case(&mut self, line: String, pick: bool) -> io::Result<()> {
        match self.numbers.get(line.as_str()) {
            None => {
                self.line(&line, pick)?;
                self.numbers.insert(line.into(), self.lines);
            }
            Some(number) if pick => drop(self.picked.insert(*number)),
            Some(_) => (),
        }
        Ok(())
    }

    /// One call of these bytes.
    pub fn call(&mut self, call: &str, bytes: &[u8], pick: bool) -> io::Result<()> {
        self.case(format!("{call} {}", written(bytes)), pick)
    }

    /// Every call of these bytes, of which the picked calls go into the sample.
    pub fn every_call(&mut self, bytes: &[u8], picked: &[&str]) -> io::Result<()> {
        let bytes = written(bytes);
        CALLS.iter().try_for_each(|call| self.case(format!("{call} {bytes}"), picked.contains(call)))
    }

    /// An item of a fresh view.
    pub fn at(&mut self, bytes: &[u8], index: u64, pick: bool) -> io::Result<()> {
        self.case(format!("at {} {index}", written(bytes)), pick)
    }

    /// An item, with a place handed in.
    pub fn at_from(&mut self, bytes: &[u8], index: u64, (known, offset): Place, pick: bool) -> io::Result<()> {
        self.case(format!("at {} {index} {known} {offset}", written(bytes)), pick)
    }

    pub fn finish(mut self, picked: &str) -> io::Result<()> {
        self.all.flush()?;
        fs::write(picked, self.picked.iter().map(|number| format!("{number}\n")).collect::<String>())
    }
}
