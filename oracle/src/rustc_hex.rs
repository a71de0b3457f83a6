//! A stand-in for the crate rustc-hex 2, of which R's source uses this one trait, and only to display an item.

pub trait ToHex {
    fn to_hex<T: FromIterator<char>>(&self) -> T;
}

impl ToHex for [u8] {
    fn to_hex<T: FromIterator<char>>(&self) -> T {
        self.iter().flat_map(|byte| format!("{byte:02x}").chars().collect::<Vec<char>>()).collect()
    }
}
