//! The rules of the amender, docs/RULES.md "Amender", each beside its sentence: the sheet is read into a tree, one item of the tree
//! is exchanged, and the tree is encoded anew. Nothing is moved and no length is worked out before, as the library does.

use rules::{Answer, MOST_BYTES, MOST_LEVELS, payload_info, strict};
use stream_rules::{header, string};

/// A tree: a string, or a list of items.
pub enum Item {
    String(Vec<u8>),
    List(Vec<Item>),
}

/// "a buffer, the sheet's length n (the sheet is the buffer's first n bytes), a path of item indexes (empty names the whole
/// sheet), a replacement in another slice"
/// "Order: 12 for either slice, 1 if n passes the buffer, the sheet's strict refusal, the replacement's, 19, 11, 13."
/// Accepted: m, and the buffer after the call.
pub fn amend(buffer: &[u8], n: u64, path: &[u64], replacement: &[u8]) -> Answer<(usize, Vec<u8>)> {
    if buffer.len() as u128 > MOST_BYTES || replacement.len() as u128 > MOST_BYTES {
        return Err(12);
    }
    let n = usize::try_from(n).ok().filter(|n| *n <= buffer.len()).ok_or(1)?;
    let sheet = Item::of_strict(&buffer[..n])?;
    let replacement = Item::of_strict(replacement)?;
    let amended = sheet.exchanged(path, replacement).ok_or(19)?;
    if amended.depth() > MOST_LEVELS {
        return Err(11);
    }
    let encoding = amended.encoding();
    if encoding.len() > buffer.len() { Err(13) } else { Ok((encoding.len(), after(buffer, n, encoding))) }
}

/// "the first m bytes are the new encoding; if m < n, bytes m to n are 0; from the larger of m and n on, nothing changed"
fn after(buffer: &[u8], n: usize, encoding: Vec<u8>) -> Vec<u8> {
    let mut after = encoding;
    if after.len() < n {
        after.resize(n, 0);
    }
    after.extend(&buffer[after.len()..]);
    after
}

impl Item {
    /// The tree of a sheet, or its strict refusal.
    pub fn of_strict(sheet: &[u8]) -> Answer<Item> {
        strict(sheet)?;
        Ok(Item::first(sheet).0)
    }

    /// The item that strict bytes start with, and the bytes behind it.
    fn first(bytes: &[u8]) -> (Item, &[u8]) {
        let (header, value) = payload_info(bytes).expect("the strict check has accepted these bytes");
        let (item, rest) = bytes.split_at((header + value) as usize);
        let payload = &item[header as usize..];
        match item[0] {
            0x00..=0xbf => (Item::String(payload.to_vec()), rest),
            _ => (Item::List(Item::row(payload)), rest),
        }
    }

    fn row(payload: &[u8]) -> Vec<Item> {
        let mut items = Vec::new();
        let mut rest = payload;
        while !rest.is_empty() {
            let (item, behind) = Item::first(rest);
            items.push(item);
            rest = behind;
        }
        items
    }

    /// The tree with another item at the end of the path, or `None` if the path names no item.
    fn exchanged(self, path: &[u64], replacement: Item) -> Option<Item> {
        let [index, rest @ ..] = path else { return Some(replacement) };
        let Item::List(mut items) = self else { return None };
        let index = usize::try_from(*index).ok().filter(|index| *index < items.len())?;
        let inner = std::mem::replace(&mut items[index], Item::List(vec![]));
        items[index] = inner.exchanged(rest, replacement)?;
        Some(Item::List(items))
    }

    /// "Data has depth 0, an empty list 1, other lists one more than their deepest item."
    fn depth(&self) -> u128 {
        match self {
            Item::String(_) => 0,
            Item::List(items) => 1 + items.iter().map(Item::depth).max().unwrap_or(0),
        }
    }

    /// "A list is the joined encodings of its items", behind the header of their length.
    pub fn encoding(&self) -> Vec<u8> {
        match self {
            Item::String(value) => string(value),
            Item::List(items) => {
                let payload = items.iter().map(Item::encoding).collect::<Vec<Vec<u8>>>().concat();
                [header(LIST, payload.len()), payload].concat()
            }
        }
    }
}

/// What a list's first byte is counted from.
const LIST: u8 = 192;
