//! The text format of the cases: the words of a line, how bytes are written, and the loop that answers line after line.
//! This, with the lines of a stream and of amending, is all that R's driver shares with the rest of the oracle.

mod amend_line;
mod stream_line;

pub use amend_line::{AMEND, Amending, LONGEST_PATH, amend_line};
use std::io::{self, BufRead, BufReader, BufWriter, Write};
pub use stream_line::{LISTS, STREAM_WORDS, Start, State, StreamLine, Work, stream_line};

/// The most bytes that one line may give, all its words together, and the largest buffer of a stream.
pub const MOST_BYTES: usize = 1_048_577;

/// The longest line, its line feed not counted.
pub const LONGEST_LINE: usize = 65_536;

/// How many bytes are read and written at a time.
pub const BLOCK: usize = 65_536;

/// From how many equal bytes on they are written as a repeat.
const SHORTEST_REPEAT: usize = 8;

/// Whether a line asks something. Empty lines and comments do not; a line that is too long does, whatever it starts with.
pub fn asks(line: &[u8]) -> bool {
    line.len() > LONGEST_LINE || (!line.is_empty() && line[0] != b'#')
}

/// The words of a line, separated by one space, or `None` if it is malformed.
pub fn words(line: &[u8]) -> Option<Vec<&str>> {
    if line.len() > LONGEST_LINE {
        return None;
    }
    let words: Vec<&str> = std::str::from_utf8(line).ok()?.split(' ').collect();
    if words.contains(&"") { None } else { Some(words) }
}

/// The bytes that a word stands for: `-` for none, else parts joined by `.`.
pub fn bytes(word: &str) -> Option<Vec<u8>> {
    let mut bytes = Vec::with_capacity(word.len() / 2);
    if word == "-" {
        return Some(bytes);
    }
    for part in word.split('.') {
        match part.split_once('*') {
            Some((byte, times)) => add_repeat(&mut bytes, byte, times)?,
            None => add_hex(&mut bytes, part)?,
        }
    }
    Some(bytes)
}

fn add_repeat(bytes: &mut Vec<u8>, byte: &str, times: &str) -> Option<()> {
    let mut one = Vec::new();
    add_hex(&mut one, byte)?;
    let times = number(times)?;
    if one.len() != 1 || times > (MOST_BYTES - bytes.len()) as u64 {
        return None;
    }
    bytes.resize(bytes.len() + times as usize, one[0]);
    Some(())
}

fn add_hex(bytes: &mut Vec<u8>, hex: &str) -> Option<()> {
    let count = hex.len() / 2;
    if hex.is_empty() || hex.len() % 2 != 0 || count > MOST_BYTES - bytes.len() {
        return None;
    }
    for pair in hex.as_bytes().chunks(2) {
        bytes.push(16 * digit(pair[0])? + digit(pair[1])?);
    }
    Some(())
}

fn digit(character: u8) -> Option<u8> {
    match character {
        b'0'..=b'9' => Some(character - b'0'),
        b'a'..=b'f' => Some(character - b'a' + 10),
        _ => None,
    }
}

/// The number that a word stands for: decimal digits and nothing else, at most 2^64 - 1. Leading zeros are allowed.
pub fn number(word: &str) -> Option<u64> {
    if word.bytes().all(|character| character.is_ascii_digit()) { word.parse().ok() } else { None }
}

/// Writes bytes in answers: all of them in plain hex, or `-` for none.
pub fn hex(bytes: &[u8]) -> String {
    if bytes.is_empty() {
        return "-".to_string();
    }
    let mut text = String::with_capacity(2 * bytes.len());
    bytes.iter().for_each(|byte| push_hex(&mut text, *byte));
    text
}

/// Writes bytes as short as the format allows, always the same way.
pub fn written(bytes: &[u8]) -> String {
    if bytes.is_empty() {
        return "-".to_string();
    }
    let mut parts: Vec<String> = Vec::new();
    let mut hex = String::new();
    for run in bytes.chunk_by(|left, right| left == right) {
        if run.len() < SHORTEST_REPEAT {
            run.iter().for_each(|byte| push_hex(&mut hex, *byte));
            continue;
        }
        if !hex.is_empty() {
            parts.push(std::mem::take(&mut hex));
        }
        parts.push(format!("{:02x}*{}", run[0], run.len()));
    }
    if !hex.is_empty() {
        parts.push(hex);
    }
    parts.join(".")
}

fn push_hex(text: &mut String, byte: u8) {
    for digit in [byte / 16, byte % 16] {
        text.push(char::from(b"0123456789abcdef"[usize::from(digit)]));
    }
}

/// Reads lines from standard input and writes one answer for each that asks something.
/// `answer` gives `None` for a line that it does not know.
pub fn answer_all(mut answer: impl FnMut(&[&str]) -> Option<String>) -> io::Result<()> {
    let mut input = BufReader::with_capacity(BLOCK, io::stdin().lock());
    let mut output = BufWriter::with_capacity(BLOCK, io::stdout().lock());
    let mut line = Vec::new();
    while next_line(&mut input, &mut line)? {
        if asks(&line) {
            let answered = words(&line).and_then(|words| answer(&words));
            output.write_all(answered.as_deref().unwrap_or("bad line").as_bytes())?;
            output.write_all(b"\n")?;
        }
    }
    output.flush()
}

/// Puts the next line, without its line feed, into the place of the last one. `false`: there is none.
pub fn next_line(input: &mut impl BufRead, line: &mut Vec<u8>) -> io::Result<bool> {
    line.clear();
    if input.read_until(b'\n', line)? == 0 {
        return Ok(false);
    }
    if line.last() == Some(&b'\n') {
        line.pop();
    }
    Ok(true)
}
