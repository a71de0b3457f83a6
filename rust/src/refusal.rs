//! Why a call gave no answer.

use core::fmt;

/// Why a call gave no answer. Names that begin with `Rlp` are those of the crate rlp 0.6.1.
///
/// The numbers are those of the C interface, and of the rules (`docs/RULES.md`). A refusal carries its number alone, and has changed nothing.
///
/// ```
/// use loughcable::{check, Refusal};
/// let refusal = check(&[0xc1, 0x05, 0x06]).unwrap_err();
/// assert_eq!(refusal, Refusal::TrailingBytes);
/// assert_eq!(refusal.number(), 10);
/// assert_eq!(refusal.to_string(), "more bytes follow after the end of the sheet");
/// ```
#[derive(Debug, Clone, Copy, PartialEq, Eq, Hash)]
#[repr(u8)]
pub enum Refusal {
    /// 1: the bytes end before the item does; or the list has no such item.
    RlpIsTooShort = 1,
    /// 2: a length begins with a zero byte.
    RlpDataLenWithZeroPrefix = 2,
    /// 3: a longer form was used than is needed, for a length, a byte or a number.
    RlpInvalidIndirection = 3,
    /// 4: a number or a length has more bytes than its type.
    RlpIsTooBig = 4,
    /// 5: a string's length passes the bytes that are there.
    RlpInconsistentLengthAndData = 5,
    /// 6: a string's end would lie past every address.
    RlpInvalidLength = 6,
    /// 7: a list stands where a string or a number was asked for.
    RlpExpectedToBeData = 7,
    /// 8: no list stands where a list was asked for.
    RlpExpectedToBeList = 8,
    /// 9: a truth is neither 0 nor 1. In the crate rlp this is `Custom`.
    InvalidBoolean = 9,
    /// 10: bytes follow after a strict sheet.
    TrailingBytes = 10,
    /// 11: lists lie deeper in one another than [`LEVELS`](crate::LEVELS).
    TooDeep = 11,
    /// 12: a lent slice has more bytes than [`LIMIT`](crate::LIMIT).
    TooLarge = 12,
    /// 13: the lent buffer has no room for what is to be written.
    NoRoom = 13,
    /// 14: the open list does not take so many items.
    TooManyItems = 14,
    /// 15: no list is open.
    NoOpenList = 15,
    /// 16: the innermost open list is counted, and closes by itself.
    ListTypeMismatch = 16,
    /// 17: a list is still open.
    Unfinished = 17,
    /// 18: raw bytes do not hold the stated number of items.
    CountMismatch = 18,
    /// 19: the path names no item of the sheet.
    NoSuchItem = 19,
    /// 20: the stream's state does not match its buffer.
    StateMismatch = 20,
}

impl Refusal {
    /// The number under which the rules and the C interface know the refusal, 1 to 20.
    #[inline]
    pub const fn number(self) -> u8 {
        self as u8
    }

    /// The refusal of a number, if there is one.
    ///
    /// ```
    /// use loughcable::Refusal;
    /// assert_eq!(Refusal::from_number(13), Some(Refusal::NoRoom));
    /// assert_eq!(Refusal::from_number(0), None);
    /// assert_eq!(Refusal::from_number(21), None);
    /// ```
    #[inline]
    pub const fn from_number(number: u8) -> Option<Refusal> {
        Some(match number {
            1 => Refusal::RlpIsTooShort,
            2 => Refusal::RlpDataLenWithZeroPrefix,
            3 => Refusal::RlpInvalidIndirection,
            4 => Refusal::RlpIsTooBig,
            5 => Refusal::RlpInconsistentLengthAndData,
            6 => Refusal::RlpInvalidLength,
            7 => Refusal::RlpExpectedToBeData,
            8 => Refusal::RlpExpectedToBeList,
            9 => Refusal::InvalidBoolean,
            10 => Refusal::TrailingBytes,
            11 => Refusal::TooDeep,
            12 => Refusal::TooLarge,
            13 => Refusal::NoRoom,
            14 => Refusal::TooManyItems,
            15 => Refusal::NoOpenList,
            16 => Refusal::ListTypeMismatch,
            17 => Refusal::Unfinished,
            18 => Refusal::CountMismatch,
            19 => Refusal::NoSuchItem,
            20 => Refusal::StateMismatch,
            _ => return None,
        })
    }

    const fn message(self) -> &'static str {
        match self {
            Refusal::RlpIsTooShort => "the bytes end before the item does, or the list has no such item",
            Refusal::RlpDataLenWithZeroPrefix => "a length begins with a zero byte",
            Refusal::RlpInvalidIndirection => "a length, a byte or a number is written longer than it need be",
            Refusal::RlpIsTooBig => "the number has more bytes than were asked for",
            Refusal::RlpInconsistentLengthAndData => "the string's stated length passes the bytes that are there",
            Refusal::RlpInvalidLength => "the string's stated length is larger than any memory",
            Refusal::RlpExpectedToBeData => "a string or a number was asked for, and something else is there",
            Refusal::RlpExpectedToBeList => "a list was asked for, and something else is there",
            Refusal::InvalidBoolean => "yes or no was asked for, and the number is neither 1 nor 0",
            Refusal::TrailingBytes => "more bytes follow after the end of the sheet",
            Refusal::TooDeep => "lists lie in one another more than 16 levels deep",
            Refusal::TooLarge => "more than 1,048,576 bytes were handed in",
            Refusal::NoRoom => "the buffer is too small for what is to be written",
            Refusal::TooManyItems => "the open list does not take so many items",
            Refusal::NoOpenList => "there is no open list to finish",
            Refusal::ListTypeMismatch => "the open list is counted: it closes by itself once it is full",
            Refusal::Unfinished => "a list is still open",
            Refusal::CountMismatch => "the raw bytes do not hold the stated number of items",
            Refusal::NoSuchItem => "the path leads to no item of the sheet",
            Refusal::StateMismatch => "the stream does not match its buffer: it starts beyond the buffer's end",
        }
    }
}

impl fmt::Display for Refusal {
    fn fmt(&self, f: &mut fmt::Formatter<'_>) -> fmt::Result {
        f.write_str(self.message())
    }
}

impl core::error::Error for Refusal {}

/// What the library's refusal field says: 0 is accepted.
#[inline(always)]
pub(crate) fn accepted(number: u32) -> Result<(), Refusal> {
    match number {
        0 => Ok(()),
        _ => Err(refused(number)),
    }
}

#[inline]
fn refused(number: u32) -> Refusal {
    match Refusal::from_number(number.min(255) as u8) {
        Some(refusal) => refusal,
        None => unknown(number),
    }
}

/// The proved library gives no number above 20, so another library was linked: no answer of it can be believed.
#[cold]
fn unknown(number: u32) -> ! {
    panic!("the linked library is not loughcable: it refused with the number {number}")
}
