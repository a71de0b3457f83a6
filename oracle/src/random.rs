//! Random inputs from a seed: any bytes, good encodings, trees of many levels, damaged copies, and places in lists.

use crate::case_set::Place;
use crate::encode::{List, string, with_header};

/// The generator splitmix64.
pub struct Random(pub u64);

impl Random {
    fn next(&mut self) -> u64 {
        self.0 = self.0.wrapping_add(0x9e37_79b9_7f4a_7c15);
        let mixed = (self.0 ^ (self.0 >> 30)).wrapping_mul(0xbf58_476d_1ce4_e5b9);
        let mixed = (mixed ^ (mixed >> 27)).wrapping_mul(0x94d0_49bb_1331_11eb);
        mixed ^ (mixed >> 31)
    }

    /// A number below the bound, which is not 0.
    pub fn below(&mut self, bound: usize) -> usize {
        (self.next() % bound as u64) as usize
    }

    pub fn byte(&mut self) -> u8 {
        self.next() as u8
    }

    /// A length, mostly small, now and then around the bounds of the forms or long.
    pub fn length(&mut self) -> usize {
        match self.below(16) {
            0..=9 => self.below(12),
            10..=13 => self.below(60),
            14 => 53 + self.below(6),
            _ => 250 + self.below(200),
        }
    }

    pub fn bytes(&mut self, length: usize) -> Vec<u8> {
        (0..length).map(|_| self.byte()).collect()
    }

    /// Bytes with no order in them.
    pub fn any_bytes(&mut self) -> Vec<u8> {
        let length = self.length();
        self.bytes(length)
    }

    /// 1 to 10 bytes, as the length bytes of a long form or a few more.
    pub fn length_bytes(&mut self) -> Vec<u8> {
        let length = 1 + self.below(10);
        self.bytes(length)
    }

    /// Bytes that start as a long form, with length bytes that are mostly small.
    pub fn long_start(&mut self) -> Vec<u8> {
        let first = [0xb8, 0xf8][self.below(2)] + self.below(8) as u8;
        let mut bytes = vec![first];
        for _ in 0..self.below(10) {
            bytes.push(if self.below(2) == 0 { self.below(3) as u8 } else { self.byte() });
        }
        bytes.extend(self.any_bytes());
        bytes
    }

    /// The encoding of a string or of a list with items, at most so many levels deep.
    pub fn encoding(&mut self, levels: usize) -> Vec<u8> {
        if levels == 0 || self.below(3) == 0 {
            return string(&self.any_bytes());
        }
        let items = self.below(5);
        let payload: Vec<u8> = (0..items).flat_map(|_| self.encoding(levels - 1)).collect();
        with_header(0xc0, &payload)
    }

    /// A tree of so many levels, or of one more: in each list one item goes on, between a few small ones.
    pub fn tree(&mut self, levels: usize) -> Vec<u8> {
        if levels == 0 {
            return self.small_item();
        }
        let inner = if levels == 1 { vec![] } else { self.tree(levels - 1) };
        let payload = [self.small_items(), inner, self.small_items()].concat();
        with_header(0xc0, &payload)
    }

    fn small_items(&mut self) -> Vec<u8> {
        (0..self.below(3)).flat_map(|_| self.small_item()).collect()
    }

    /// A string, mostly short, now and then around the bound of the forms, or a list of at most one short string.
    fn small_item(&mut self) -> Vec<u8> {
        match self.below(20) {
            0 => self.string_of(54, 4),
            1 => with_header(0xc0, &[]),
            2 => with_header(0xc0, &self.string_of(0, 4)),
            _ => self.string_of(0, 4),
        }
    }

    /// The encoding of a string of at least so many bytes, in one of so many lengths.
    fn string_of(&mut self, shortest: usize, lengths: usize) -> Vec<u8> {
        let length = shortest + self.below(lengths);
        string(&self.bytes(length))
    }

    /// Another byte than this one.
    pub fn other_byte(&mut self, byte: u8) -> u8 {
        byte.wrapping_add(1 + self.below(255) as u8)
    }

    /// A byte that is one more or less, or has another bit.
    pub fn near_byte(&mut self, byte: u8) -> u8 {
        match self.below(4) {
            0 => byte.wrapping_add(1),
            1 => byte.wrapping_sub(1),
            _ => byte ^ (1 << self.below(8)),
        }
    }

    /// The same bytes, which are some, with one of them changed anywhere.
    pub fn damaged_anywhere(&mut self, bytes: &[u8]) -> Vec<u8> {
        let mut bytes = bytes.to_vec();
        let place = self.below(bytes.len());
        bytes[place] = self.near_byte(bytes[place]);
        bytes
    }

    /// A list with items, at most so many levels deep.
    pub fn list(&mut self, levels: usize) -> List {
        let items: Vec<Vec<u8>> = (0..self.below(8)).map(|_| self.encoding(levels - 1)).collect();
        List::of(&items)
    }

    /// The index of an item of a list, or one or two more than there are.
    pub fn index(&mut self, list: &List) -> u64 {
        self.below(list.starts.len() + 2) as u64
    }

    /// The place of an item of a list, or one near it or anywhere.
    pub fn place(&mut self, list: &List) -> Place {
        let known = self.below(list.starts.len() + 1);
        let start = list.starts.get(known).copied().unwrap_or(list.end);
        let offset = match self.below(6) {
            0 => self.below(list.bytes.len() + 3),
            1 => start + 1,
            2 => start.saturating_sub(1),
            _ => start,
        };
        (known as u64, offset as u64)
    }

    /// The same bytes with one to three faults, most of them near the front.
    pub fn damaged(&mut self, bytes: &[u8]) -> Vec<u8> {
        let mut bytes = bytes.to_vec();
        for _ in 0..=self.below(3) {
            self.damage(&mut bytes);
        }
        bytes
    }

    fn damage(&mut self, bytes: &mut Vec<u8>) {
        let place = self.offset(bytes.len());
        match self.below(6) {
            0 => bytes.truncate(place),
            1 => bytes.insert(place, self.byte()),
            2 => bytes.extend(self.any_bytes()),
            _ if place == bytes.len() => bytes.push(self.byte()),
            3 => drop(bytes.remove(place)),
            4 => bytes[place] ^= 1 << self.below(8),
            _ => bytes[place] = self.byte(),
        }
    }

    /// An offset in bytes of this length, or their end.
    fn offset(&mut self, length: usize) -> usize {
        if self.below(4) == 0 { self.below(length + 1) } else { self.below(length.min(9) + 1) }
    }
}
