//! Random numbers, bytes and trees from a seed, with an encoder of this program's own.

/// The generator splitmix64.
pub struct Random(pub u64);

/// Lengths on both sides of every bound of the forms.
const BOUNDS: &[usize] = &[54, 55, 56, 57, 254, 255, 256, 257];
const FAR_BOUNDS: &[usize] = &[65_534, 65_535, 65_536, 65_537];

/// The first and the last byte of each of the five ranges, and their neighbours.
const HEADERS: &[u8] = &[
    0x00, 0x01, 0x37, 0x38, 0x7f, 0x80, 0x81, 0x82, 0xb7, 0xb8, 0xb9, 0xbf, 0xc0, 0xc1, 0xc2, 0xc3, 0xf7, 0xf8, 0xf9,
    0xff,
];

impl Random {
    pub fn next(&mut self) -> u64 {
        self.0 = self.0.wrapping_add(0x9e37_79b9_7f4a_7c15);
        let mixed = (self.0 ^ (self.0 >> 30)).wrapping_mul(0xbf58_476d_1ce4_e5b9);
        let mixed = (mixed ^ (mixed >> 27)).wrapping_mul(0x94d0_49bb_1331_11eb);
        mixed ^ (mixed >> 31)
    }

    /// A number below the bound, which is not 0.
    pub fn below(&mut self, bound: usize) -> usize {
        (self.next() % bound as u64) as usize
    }

    /// True once in so many times.
    pub fn one_in(&mut self, times: usize) -> bool {
        self.below(times) == 0
    }

    pub fn of<T: Copy>(&mut self, choices: &[T]) -> T {
        choices[self.below(choices.len())]
    }

    pub fn byte(&mut self) -> u8 {
        self.next() as u8
    }

    pub fn bytes(&mut self, length: usize) -> Vec<u8> {
        let mut bytes = Vec::with_capacity(length + 8);
        while bytes.len() < length {
            bytes.extend(self.next().to_le_bytes());
        }
        bytes.truncate(length);
        bytes
    }

    pub fn header_byte(&mut self) -> u8 {
        self.of(HEADERS)
    }

    /// A length, mostly small, now and then on a bound of the forms.
    pub fn length(&mut self) -> usize {
        match self.below(40) {
            0..=25 => self.below(6),
            26..=35 => self.below(24),
            36 => self.below(60),
            37 | 38 => self.of(&BOUNDS[..4]),
            _ => self.of(BOUNDS),
        }
    }

    /// A length on one of the bounds, the far ones too.
    pub fn far_length(&mut self) -> usize {
        if self.one_in(3) { self.of(FAR_BOUNDS) } else { self.of(BOUNDS) }
    }

    /// A number of at most so many bytes, each length of them as often as another.
    pub fn number_of(&mut self, width: usize) -> u64 {
        match self.below(width + 1) {
            0 => 0,
            length => self.next() >> (64 - 8 * length),
        }
    }

    /// The encoding of a random tree of at most so many levels.
    pub fn tree(&mut self, levels: usize) -> Vec<u8> {
        if levels == 0 || self.one_in(3) {
            let length = self.length();
            return string(&self.bytes(length));
        }
        let payload: Vec<u8> = (0..self.below(5)).flat_map(|_| self.tree(levels - 1)).collect();
        list(&payload)
    }

    /// A tree of just so many levels: in each list one item goes on.
    pub fn deep_tree(&mut self, levels: usize) -> Vec<u8> {
        let mut tree = if self.one_in(2) { list(&[]) } else { list(&self.tree(0)) };
        for _ in 1..levels {
            let beside = if self.one_in(4) { self.tree(0) } else { vec![] };
            tree = list(&if self.one_in(2) { [tree, beside].concat() } else { [beside, tree].concat() });
        }
        tree
    }

    /// Any tree: mostly of few levels, now and then about as deep as is taken.
    pub fn any_tree(&mut self) -> Vec<u8> {
        if self.one_in(12) {
            let levels = 13 + self.below(6);
            return self.deep_tree(levels);
        }
        let levels = self.below(5);
        self.tree(levels)
    }

    /// The bytes with one to three faults: cut, changed, lengthened, and parts of them taken away or put in.
    pub fn damaged(&mut self, mut bytes: Vec<u8>) -> Vec<u8> {
        for _ in 0..=self.below(3) {
            self.damage(&mut bytes);
        }
        bytes
    }

    fn damage(&mut self, bytes: &mut Vec<u8>) {
        let place = if self.one_in(3) { self.below(bytes.len() + 1) } else { self.below(bytes.len().min(9) + 1) };
        match self.below(8) {
            0 => bytes.truncate(place),
            1 => bytes.insert(place, self.header_byte()),
            2 => {
                let length = self.length();
                bytes.extend(self.bytes(length));
            }
            _ if place == bytes.len() => bytes.push(self.header_byte()),
            3 => drop(bytes.remove(place)),
            4 => bytes[place] = bytes[place].wrapping_add(1),
            5 => bytes[place] = bytes[place].wrapping_sub(1),
            6 => bytes[place] ^= 1 << self.below(8),
            _ => bytes[place] = self.header_byte(),
        }
    }
}

pub fn string(value: &[u8]) -> Vec<u8> {
    match value {
        [byte] if *byte < 128 => vec![*byte],
        _ => behind_header(128, value),
    }
}

pub fn list(payload: &[u8]) -> Vec<u8> {
    behind_header(192, payload)
}

/// A payload behind its header; the base is 128 for a string and 192 for a list.
fn behind_header(base: u8, payload: &[u8]) -> Vec<u8> {
    let length = payload.len();
    let mut bytes = Vec::with_capacity(length + 9);
    if length < 56 {
        bytes.push(base + length as u8);
    } else {
        let zeros = length.leading_zeros() as usize / 8;
        bytes.push(base + 55 + 8 - zeros as u8);
        bytes.extend(&length.to_be_bytes()[zeros..]);
    }
    bytes.extend(payload);
    bytes
}
