//! Random inputs for the reading calls: trees whole, damaged, joined and cut; long forms on the bounds; and any bytes, most of them
//! ones that headers start with.

use crate::random::{Random, list, string};

/// One in so many inputs has far more bytes than the others.
const LARGE: usize = 4_000;

impl Random {
    pub fn input(&mut self) -> Vec<u8> {
        match self.below(12) {
            0 | 1 => self.any_tree(),
            2..=5 => {
                let tree = self.any_tree();
                self.damaged(tree)
            }
            6 => [self.any_tree(), self.any_tree()].concat(),
            7 => {
                let tree = self.any_tree();
                let cut = self.below(tree.len() + 1);
                tree[..cut].to_vec()
            }
            8 | 9 => self.long_form(),
            _ if self.one_in(LARGE / 2) => self.large(),
            _ => self.headers(),
        }
    }

    /// Bytes of which most could start an item.
    fn headers(&mut self) -> Vec<u8> {
        let length = self.below(14);
        (0..length).map(|_| if self.one_in(4) { self.byte() } else { self.header_byte() }).collect()
    }

    /// A long form with its length bytes, which may be false, and about as many bytes as they say, if that is not too many.
    fn long_form(&mut self) -> Vec<u8> {
        let width = 1 + self.below(8);
        let base = self.of(&[0xb7, 0xf7]);
        let length = match self.below(5) {
            0 => self.next() >> self.below(64),
            1 => u64::MAX - self.below(20) as u64,
            2 => self.below(70) as u64,
            _ => self.of(&[54, 55, 56, 57, 255, 256, 300]),
        };
        let mut bytes = vec![base + width as u8];
        bytes.extend(&length.to_be_bytes()[8 - width..]);
        let whole = if self.one_in(3) { 0 } else { length.min(400) as usize };
        let there = (whole + self.below(3)).saturating_sub(self.below(3));
        bytes.extend(if self.one_in(3) { vec![0x01; there] } else { self.bytes(there) });
        bytes
    }

    /// A string or a list on a far bound, whole, a byte short or a byte too long; or the same with another first length byte.
    fn large(&mut self) -> Vec<u8> {
        let length = self.far_length();
        let payload = vec![0x05; length];
        let mut bytes = if self.one_in(2) { string(&payload) } else { list(&payload) };
        match self.below(4) {
            0 => drop(bytes.pop()),
            1 => bytes.push(0x80),
            2 => bytes[1] = self.byte(),
            _ => (),
        }
        bytes
    }
}
