//! Whole sheets: the strict check, and amending in place.

use crate::ffi;
use crate::refusal::{accepted, Refusal};

/// What the strict check finds.
#[derive(Debug, Clone, Copy, PartialEq, Eq)]
pub struct Tally {
    /// How many items there are: by [`check`] all of them, lists and what is in them; by [`check_items`] those in the row.
    pub items: usize,
    /// How many levels of lists: 0 for a string, 1 for a list of strings.
    pub depth: usize,
}

#[inline(always)]
fn tallied(tally: ffi::Tally) -> Result<Tally, Refusal> {
    accepted(tally.refusal)?;
    Ok(Tally { items: tally.items, depth: tally.depth })
}

/// Whether the bytes are one strict sheet: the encoding of an item tree within [`LIMIT`](crate::LIMIT) bytes and
/// [`LEVELS`](crate::LEVELS) levels, with nothing behind it. On such bytes every reading call agrees with that tree.
///
/// ```
/// use loughcable::{check, Refusal, Tally};
/// assert_eq!(check(b"\xc8\x83cat\x83dog"), Ok(Tally { items: 3, depth: 1 }));
/// assert_eq!(check(&[0xc1, 0x05, 0x06]), Err(Refusal::TrailingBytes));
/// assert_eq!(check(&[0xc2, 0x81, 0x05]), Err(Refusal::RlpInvalidIndirection));
/// ```
#[inline]
pub fn check(bytes: &[u8]) -> Result<Tally, Refusal> {
    tallied(ffi::check(bytes))
}

/// The same of a row of items, as in a list's payload: how many there are in the row, and how deep they are. No bytes are a row of none.
///
/// ```
/// use loughcable::{check_items, Tally};
/// assert_eq!(check_items(b"\x83cat\x83dog"), Ok(Tally { items: 2, depth: 0 }));
/// assert_eq!(check_items(&[]), Ok(Tally { items: 0, depth: 0 }));
/// ```
#[inline]
pub fn check_items(bytes: &[u8]) -> Result<Tally, Refusal> {
    tallied(ffi::check_items(bytes))
}

/// Exchanges one item of a sheet, in place. The sheet is the buffer's first `n` bytes, `path` the item's index in each list on the way to it
/// (the empty path names the whole sheet), and `replacement` one strict item. Answers the sheet's new length m: the first m bytes are the new
/// encoding, bytes m to `n` are 0 if the sheet became shorter, and all others are as they were.
///
/// Refusals in this order: [`TooLarge`](Refusal::TooLarge) for buffer or replacement, [`RlpIsTooShort`](Refusal::RlpIsTooShort) if `n` passes
/// the buffer, what [`check`] says of the sheet and then of the replacement, [`NoSuchItem`](Refusal::NoSuchItem),
/// [`TooDeep`](Refusal::TooDeep), [`NoRoom`](Refusal::NoRoom).
///
/// ```
/// use loughcable::amend;
/// let mut buf = *b"\xc8\x83cat\x83dog";
/// assert_eq!(amend(&mut buf, 9, &[1], &[0x05]), Ok(6));
/// assert_eq!(&buf, b"\xc5\x83cat\x05\x00\x00\x00");
/// ```
#[inline]
pub fn amend(buf: &mut [u8], n: usize, path: &[usize], replacement: &[u8]) -> Result<usize, Refusal> {
    Ok(ffi::amend(buf, n, path, replacement).result()? as usize)
}
