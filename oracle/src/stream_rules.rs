//! The rules of the stream, docs/RULES.md "Encoder and stream", each beside its sentence. Written from the sentences, not from
//! R's code: a call works on a copy of the written bytes, and its refusals are read off that copy.

use rules::{Answer, MOST_BYTES, MOST_LEVELS, strict_row};

/// "up to 16 open lists"
const LISTS: usize = 16;

/// "The stream keeps its start in the lent buffer, its end, and up to 16 open lists (position, current, max or none)."
/// A list without a maximum has 0.
#[derive(Clone)]
pub struct Stream {
    pub start: u64,
    pub end: u64,
    pub opened: u64,
    pub positions: [u32; LISTS],
    pub currents: [u32; LISTS],
    pub maxima: [u32; LISTS],
    pub buffer: Vec<u8>,
}

/// An open list: its position, "counted from the start, just past the reserved byte", how many items it has, and how many it
/// takes, if it is counted.
pub struct OpenList {
    pub position: usize,
    pub current: u128,
    pub most: Option<u128>,
}

/// What a stream whose state matches holds: the bytes from its start to its end, and its open lists, the innermost last.
pub struct Held {
    pub written: Vec<u8>,
    pub lists: Vec<OpenList>,
}

impl Stream {
    /// "a new stream (end at its start, no open list)"
    pub fn new(start: u64, buffer: Vec<u8>) -> Stream {
        let zeros = [0; LISTS];
        Stream { start, end: start, opened: 0, positions: zeros, currents: zeros, maxima: zeros, buffer }
    }

    /// "Order for every call: 12, 20, then its own." 12 is for "a lent byte slice [..] over 1,048,576 bytes".
    fn held(&self, lent: usize) -> Answer<Held> {
        if self.buffer.len() as u128 > MOST_BYTES || lent as u128 > MOST_BYTES {
            return Err(12);
        }
        if self.matches() { Ok(self.without_limits()) } else { Err(20) }
    }

    /// "20 is given exactly when start exceeds end, end exceeds the buffer, there are over 16 open lists, positions [..] don't
    /// rise strictly or one lies outside 1 to the written total, a current exceeds the bytes written after its position, or a
    /// counted list's current isn't below its max."
    fn matches(&self) -> bool {
        if self.start > self.end || self.end > self.buffer.len() as u64 || self.opened > LISTS as u64 {
            return false;
        }
        let total = self.end - self.start;
        let lists = 0..self.opened as usize;
        let rises = |index: usize| index == 0 || self.positions[index - 1] < self.positions[index];
        let inside = |index: usize| (1..=total).contains(&u64::from(self.positions[index]));
        let has_bytes = |index: usize| u64::from(self.currents[index]) <= total - u64::from(self.positions[index]);
        let is_open = |index: usize| self.maxima[index] == 0 || self.currents[index] < self.maxima[index];
        lists.into_iter().all(|index| rises(index) && inside(index) && has_bytes(index) && is_open(index))
    }

    /// What the stream holds, whatever the size of its buffer. Its state matches.
    pub fn without_limits(&self) -> Held {
        let list = |index: usize| OpenList {
            position: self.positions[index] as usize,
            current: self.currents[index].into(),
            most: Some(self.maxima[index].into()).filter(|most| *most > 0),
        };
        Held {
            written: self.buffer[self.start as usize..self.end as usize].to_vec(),
            lists: (0..self.opened as usize).map(list).collect(),
        }
    }

    /// The stream after a call that leaves this.
    /// "13 is given exactly when the end after the call, with the headers of every list that it closes, passes the buffer."
    /// "Bytes before the start and after the end are kept", and so is what the arrays have above the open lists.
    fn after(&self, held: &Held) -> Answer<Stream> {
        let start = self.start as usize;
        let end = start + held.written.len();
        if end > self.buffer.len() {
            return Err(13);
        }
        let mut after = Stream { end: end as u64, opened: held.lists.len() as u64, ..self.clone() };
        after.buffer[start..end].copy_from_slice(&held.written);
        for (index, list) in held.lists.iter().enumerate() {
            after.positions[index] = list.position as u32;
            after.currents[index] = list.current as u32;
            after.maxima[index] = list.most.unwrap_or(0) as u32;
        }
        Ok(after)
    }

    /// "Values are strings, [..]" "Values: 13."
    pub fn append(&self, value: &[u8]) -> Answer<Stream> {
        let mut held = self.held(value.len())?;
        held.written.extend(string(value));
        held.count(1);
        self.after(&held)
    }

    /// "`append_empty_data`": the empty string.
    pub fn append_empty_data(&self) -> Answer<Stream> {
        self.append(&[])
    }

    /// "u8 to u64 as Y's scalars": "A scalar is its shortest big-endian string; zero is empty."
    pub fn append_scalar(&self, number: u64) -> Answer<Stream> {
        self.append(&shortest_big_endian(number.into()))
    }

    /// "bool (80 or 01)"
    pub fn append_bool(&self, truth: bool) -> Answer<Stream> {
        self.append(if truth { &[0x01] } else { &[] })
    }

    /// "`begin_list(0)` writes c0 and counts at once." "`begin_list` (0 too) [..]: 11, 13."
    pub fn begin_list(&self, most: u32) -> Answer<Stream> {
        if most > 0 {
            return self.begin(Some(most.into()));
        }
        let mut held = self.held(0)?;
        held.take_levels(1)?;
        held.written.push(0xc0);
        held.count(1);
        self.after(&held)
    }

    pub fn begin_unbounded_list(&self) -> Answer<Stream> {
        self.begin(None)
    }

    /// "An open list has one reserved byte, 0 till it closes." "unbounded begin: 11, 13."
    fn begin(&self, most: Option<u128>) -> Answer<Stream> {
        let mut held = self.held(0)?;
        held.take_levels(1)?;
        held.written.push(0);
        held.lists.push(OpenList { position: held.written.len(), current: 0, most });
        self.after(&held)
    }

    /// "`append_raw` takes exactly the stated number of strict items; 0 goes with no bytes."
    pub fn append_raw(&self, bytes: &[u8], count: u64) -> Answer<Stream> {
        self.raw(self.held(bytes.len())?, bytes, count)
    }

    /// "Raw: strict refusal of the bytes, read as a list's payload (that list is no level here), 18, 14, 11, 13."
    fn raw(&self, mut held: Held, bytes: &[u8], count: u64) -> Answer<Stream> {
        let row = strict_row(bytes, 1)?;
        if row.count != u128::from(count) {
            return Err(18);
        }
        held.take_items(row.count)?;
        held.take_levels(row.deepest)?;
        held.written.extend(bytes);
        held.count(row.count);
        self.after(&held)
    }

    /// "`append_raw_checked` answers no right after 20, changing nothing, where the estimate passes its maximum." `None` is no.
    pub fn append_raw_checked(&self, bytes: &[u8], count: u64, most: u64) -> Answer<Option<Stream>> {
        let held = self.held(bytes.len())?;
        if held.size_with(bytes.len() as u128) > u128::from(most) {
            return Ok(None);
        }
        self.raw(held, bytes, count).map(Some)
    }

    /// "Finalize: 15, 16, 13."
    pub fn finalize_unbounded_list(&self) -> Answer<Stream> {
        let mut held = self.held(0)?;
        let list = held.lists.last().ok_or(15)?;
        if list.most.is_some() {
            return Err(16);
        }
        held.close();
        self.after(&held)
    }

    /// "`clear` returns to the start with no open list."
    pub fn clear(&self) -> Answer<Stream> {
        self.held(0)?;
        self.after(&Held { written: vec![], lists: vec![] })
    }

    pub fn len(&self) -> Answer<u128> {
        Ok(self.held(0)?.size_with(0))
    }

    /// "`estimate_size` gives 12 too for a count over 1,048,576."
    pub fn estimate_size(&self, added: u64) -> Answer<u128> {
        if u128::from(added) > MOST_BYTES {
            return Err(12);
        }
        Ok(self.held(0)?.size_with(added.into()))
    }

    /// As in R: the `len` is 0.
    pub fn is_empty(&self) -> Answer<bool> {
        Ok(self.len()? == 0)
    }

    /// As in R: there is no open list.
    pub fn is_finished(&self) -> Answer<bool> {
        Ok(self.held(0)?.lists.is_empty())
    }

    /// "`as_raw` and `out` show the buffer up to the end."
    pub fn as_raw(&self) -> Answer<&[u8]> {
        self.held(0)?;
        Ok(&self.buffer[..self.end as usize])
    }

    /// "17 Unfinished: stream's `out`"
    pub fn out(&self) -> Answer<&[u8]> {
        if self.is_finished()? { self.as_raw() } else { Err(17) }
    }
}

impl Held {
    /// "`len` is the written total plus, for each open list with more than 55 bytes after its reserved byte, the bytes that
    /// number takes", here with so many bytes added.
    pub fn size_with(&self, added: u128) -> u128 {
        let total = self.written.len() as u128 + added;
        let length_bytes = |list: &OpenList| match total - list.position as u128 {
            0..=55 => 0,
            length => shortest_big_endian(length).len() as u128,
        };
        total + self.lists.iter().map(length_bytes).sum::<u128>()
    }

    /// "11 is given exactly when open lists plus the levels being added pass 16."
    fn take_levels(&self, levels: u128) -> Answer<()> {
        if self.lists.len() as u128 + levels > MOST_LEVELS { Err(11) } else { Ok(()) }
    }

    /// "14 TooManyItems": more than the innermost list takes.
    fn take_items(&self, items: u128) -> Answer<()> {
        let passes = |list: &OpenList| list.most.is_some_and(|most| list.current + items > most);
        if self.lists.last().is_some_and(passes) { Err(14) } else { Ok(()) }
    }

    /// "A counted list closes when full".
    fn count(&mut self, items: u128) {
        let Some(innermost) = self.lists.last_mut() else { return };
        innermost.current += items;
        if innermost.most == Some(innermost.current) {
            self.close();
        }
    }

    /// Puts the innermost list's header in the place of its reserved byte. "its parent then counts one, and may close too"
    fn close(&mut self) {
        let list = self.lists.pop().expect("there is an open list");
        let payload = self.written.split_off(list.position);
        self.written.pop();
        self.written.extend(header(192, payload.len()));
        self.written.extend(payload);
        self.count(1);
    }
}

/// "a one-byte string below 128 is itself. A string of n < 56 bytes is 128+n, then the string. Longer: 183+k, then n in k
/// big-endian bytes with no leading zero, then the string."
pub fn string(value: &[u8]) -> Vec<u8> {
    match value {
        [0..=127] => value.to_vec(),
        _ => [header(128, value.len()), value.to_vec()].concat(),
    }
}

/// Of a string, which has base 128, or of a list, "payload n: 192+n if n < 56, else 247+k, n in k bytes, payload".
pub fn header(base: u8, length: usize) -> Vec<u8> {
    if length < 56 {
        return vec![base + length as u8];
    }
    let length_bytes = shortest_big_endian(length as u128);
    [vec![base + 55 + length_bytes.len() as u8], length_bytes].concat()
}

/// "big-endian bytes with no leading zero"
fn shortest_big_endian(number: u128) -> Vec<u8> {
    number.to_be_bytes().into_iter().skip_while(|byte| *byte == 0).collect()
}
