//! The line `amend BUFFER N PATH REPLACEMENT`, docs/CASES.md "Amending", taken apart. R's driver and the model read it by this.

use crate::{MOST_BYTES, bytes, number};

/// The word that it starts with.
pub const AMEND: &str = "amend";

/// The most indexes of a path.
pub const LONGEST_PATH: usize = 64;

pub struct Amending {
    pub buffer: Vec<u8>,
    pub n: u64,
    pub path: Vec<u64>,
    pub replacement: Vec<u8>,
}

/// `None`: the line is malformed, or is no such line.
pub fn amend_line(words: &[&str]) -> Option<Amending> {
    let [AMEND, buffer, n, path, replacement] = words else { return None };
    let (buffer, replacement) = (bytes(buffer)?, bytes(replacement)?);
    if buffer.len() + replacement.len() > MOST_BYTES {
        return None;
    }
    Some(Amending { buffer, n: number(n)?, path: indexes(path)?, replacement })
}

/// The indexes that a word stands for: `-` for none, else numbers joined by `/`.
fn indexes(word: &str) -> Option<Vec<u64>> {
    if word == "-" {
        return Some(vec![]);
    }
    let indexes = word.split('/').map(number).collect::<Option<Vec<u64>>>()?;
    if indexes.len() > LONGEST_PATH { None } else { Some(indexes) }
}
