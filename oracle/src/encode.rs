//! Encodings, for the making of cases.

/// A string behind its header; one byte below 80 stands for itself.
pub fn string(string: &[u8]) -> Vec<u8> {
    match string {
        [byte] if *byte < 0x80 => vec![*byte],
        _ => with_header(0x80, string),
    }
}

/// A payload behind its header; the base is 80 for a string and c0 for a list.
pub fn with_header(base: u8, payload: &[u8]) -> Vec<u8> {
    let length = payload.len();
    let mut bytes = Vec::new();
    if length <= 55 {
        bytes.push(base + length as u8);
    } else {
        let length_bytes: Vec<u8> = length.to_be_bytes().into_iter().skip_while(|byte| *byte == 0).collect();
        bytes.push(base + 55 + length_bytes.len() as u8);
        bytes.extend(length_bytes);
    }
    bytes.extend(payload);
    bytes
}

/// A list in a list, so many levels, around the innermost list's payload.
pub fn nested(levels: usize, payload: &[u8]) -> Vec<u8> {
    (0..levels).fold(payload.to_vec(), |inner, _| with_header(0xc0, &inner))
}

/// A number in so many bytes, if it fits into them.
pub fn big_endian(number: u128, width: usize) -> Option<Vec<u8>> {
    let bytes = number.to_be_bytes();
    let (left_out, kept) = bytes.split_at(bytes.len() - width);
    if left_out.iter().all(|byte| *byte == 0) { Some(kept.to_vec()) } else { None }
}

/// Bytes that start with a list, and where its parts lie. In a damaged copy, where they lay.
#[derive(Clone)]
pub struct List {
    pub bytes: Vec<u8>,
    /// The offset of each item.
    pub starts: Vec<usize>,
    /// The length of the list's header, and the offset after its last item.
    pub header: usize,
    pub end: usize,
}

impl List {
    pub fn of(items: &[Vec<u8>]) -> List {
        let payload = items.concat();
        let bytes = with_header(0xc0, &payload);
        let (header, end) = (bytes.len() - payload.len(), bytes.len());
        let mut starts = Vec::new();
        let mut start = header;
        for item in items {
            starts.push(start);
            start += item.len();
        }
        List { bytes, starts, header, end }
    }

    pub fn followed_by(&self, after: &[u8]) -> List {
        List { bytes: [&self.bytes, after].concat(), ..self.clone() }
    }

    /// The list with other bytes in the place of its own.
    pub fn with_bytes(&self, bytes: Vec<u8>) -> List {
        List { bytes, ..self.clone() }
    }

    /// Indexes on both sides of every bound: of the first items, of the last, and of 32 and 64 bits.
    pub fn indexes(&self) -> Vec<u64> {
        let count = self.starts.len() as u64;
        let mut indexes = vec![0, 1, count.saturating_sub(1), count, count + 1, 1 << 32, 1 << 63, u64::MAX];
        indexes.sort();
        indexes.dedup();
        indexes
    }

    /// The first of these indexes, which lie in the list or just past its end.
    pub fn near_indexes(&self) -> Vec<u64> {
        let count = self.starts.len() as u64;
        self.indexes().into_iter().filter(|index| *index <= count).collect()
    }
}
