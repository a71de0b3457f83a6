//! Reading: a view onto the bytes of an item, and the walk over a list's items.

use core::cell::Cell;
use core::iter::FusedIterator;
use core::marker::PhantomData;

use crate::ffi;
use crate::refusal::{accepted, Refusal};
use crate::values::Decodable;

/// What an item is.
#[derive(Debug, Clone, Copy, PartialEq, Eq)]
pub enum Prototype {
    /// No bytes at all.
    Null,
    /// Data of so many bytes; 0 for damaged data.
    Data(usize),
    /// A list of so many items.
    List(usize),
}

/// How many bytes an item's header and its value take.
///
/// ```
/// use loughcable::{PayloadInfo, Refusal};
/// let info = PayloadInfo::from(&[0xb8, 0x38])?;
/// assert_eq!((info.header_len, info.value_len), (2, 56));
/// assert_eq!(info.total()?, 58);
/// # Ok::<(), Refusal>(())
/// ```
#[derive(Debug, Clone, Copy, PartialEq, Eq)]
pub struct PayloadInfo {
    /// Header length in bytes.
    pub header_len: usize,
    /// Value length in bytes.
    pub value_len: usize,
}

impl PayloadInfo {
    /// What the first bytes of an item say. Whether the value is there is not looked at.
    #[inline]
    #[allow(clippy::should_implement_trait)]
    pub fn from(header_bytes: &[u8]) -> Result<PayloadInfo, Refusal> {
        informed(ffi::payload_info_from(header_bytes))
    }

    /// Header and value together. [`RlpIsTooShort`](Refusal::RlpIsTooShort) where the sum overflows; the crate rlp wraps or panics there.
    #[inline]
    pub fn total(&self) -> Result<usize, Refusal> {
        Ok(ffi::payload_info_total(self.header_len, self.value_len).result()? as usize)
    }
}

#[inline(always)]
fn informed(info: ffi::Info) -> Result<PayloadInfo, Refusal> {
    accepted(info.refusal)?;
    Ok(PayloadInfo { header_len: info.header_len, value_len: info.value_len })
}

/// The number that a header's length bytes hold.
///
/// ```
/// use loughcable::{decode_usize, Refusal};
/// assert_eq!(decode_usize(&[0x01, 0x00]), Ok(256));
/// assert_eq!(decode_usize(&[0x00, 0x01]), Err(Refusal::RlpInvalidIndirection));
/// assert_eq!(decode_usize(&[]), Err(Refusal::RlpIsTooShort));
/// ```
#[inline]
pub fn decode_usize(bytes: &[u8]) -> Result<usize, Refusal> {
    Ok(ffi::decode_usize(bytes).result()? as usize)
}

/// The bytes of a place. The library's places lie inside the bytes that were lent, so that Rust's own test of it never fails.
#[inline(always)]
fn part(bytes: &[u8], start: usize, len: usize) -> &[u8] {
    &bytes[start..start + len]
}

#[inline(always)]
fn situated(bytes: &[u8], place: ffi::Place) -> Result<&[u8], Refusal> {
    accepted(place.refusal)?;
    Ok(part(bytes, place.start, place.len))
}

/// What a view knows of its list: the item that was found last, by its index, its offset and the offset right behind it, and where the
/// payload ends. The end 0, which no payload has, says that nothing is known yet.
#[derive(Debug, Clone, Copy)]
struct Known {
    index: usize,
    offset: usize,
    next: usize,
    end: usize,
}

impl Known {
    const NOTHING: Known = Known { index: 0, offset: 0, next: 0, end: 0 };
}

/// A view onto the bytes of an item, which reads as the crate rlp reads. [`check`](crate::check) first where the bytes are not trusted.
///
/// The view remembers where the last item that was asked for lies, so that asking for item 0, 1, 2 and so on costs one step each.
///
/// ```
/// use loughcable::{Prototype, Refusal, Rlp};
/// let rlp = Rlp::new(&[0xc8, 0x83, b'c', b'a', b't', 0x83, b'd', b'o', b'g']);
/// assert_eq!(rlp.prototype()?, Prototype::List(2));
/// assert_eq!(rlp.at(1)?.data()?, b"dog");
/// assert_eq!(rlp.val_at::<&str>(0)?, "cat");
/// # Ok::<(), Refusal>(())
/// ```
#[derive(Debug, Clone)]
pub struct Rlp<'a> {
    bytes: &'a [u8],
    known: Cell<Known>,
    count: Cell<Option<usize>>,
}

impl<'a> Rlp<'a> {
    /// A view onto the item at the front of the bytes. Nothing is read yet.
    #[inline(always)]
    pub const fn new(bytes: &'a [u8]) -> Rlp<'a> {
        Rlp { bytes, known: Cell::new(Known::NOTHING), count: Cell::new(None) }
    }

    /// All the bytes of the view.
    #[inline(always)]
    pub fn as_raw(&self) -> &'a [u8] {
        self.bytes
    }

    /// What the item is. A damaged list is refused as by [`item_count`](Rlp::item_count); damaged data is `Data(0)`.
    #[inline]
    pub fn prototype(&self) -> Result<Prototype, Refusal> {
        let it = ffi::prototype_of(self.bytes);
        accepted(it.refusal)?;
        Ok(match it.kind {
            0 => Prototype::Null,
            1 => Prototype::Data(it.count),
            _ => Prototype::List(it.count),
        })
    }

    /// How many bytes the item's header and its value take, where the whole item is there.
    #[inline]
    pub fn payload_info(&self) -> Result<PayloadInfo, Refusal> {
        informed(ffi::payload_info(self.bytes))
    }

    /// The item's payload: a string's bytes, or a list's items one after the other. The form 81 05 is taken, as in the crate rlp.
    ///
    /// ```
    /// use loughcable::Rlp;
    /// assert_eq!(Rlp::new(&[0x82, 0x04, 0x1c]).data(), Ok(&[0x04, 0x1c][..]));
    /// assert_eq!(Rlp::new(&[0xc2, 0x01, 0x02]).data(), Ok(&[0x01, 0x02][..]));
    /// ```
    #[inline]
    pub fn data(&self) -> Result<&'a [u8], Refusal> {
        situated(self.bytes, ffi::data(self.bytes))
    }

    /// How many items the list has, each of them whole. The crate rlp stops counting at damage, and counts what lies behind the list; here
    /// damage is refused, and what lies behind is not looked at. The count is remembered.
    ///
    /// ```
    /// use loughcable::{Refusal, Rlp};
    /// assert_eq!(Rlp::new(&[0xc1, 0x05, 0x06]).item_count(), Ok(1));
    /// assert_eq!(Rlp::new(&[0xc2, 0x82, 0x01]).item_count(), Err(Refusal::RlpIsTooShort));
    /// assert_eq!(Rlp::new(&[0x80]).item_count(), Err(Refusal::RlpExpectedToBeList));
    /// ```
    #[inline]
    pub fn item_count(&self) -> Result<usize, Refusal> {
        if let Some(count) = self.count.get() {
            return Ok(count);
        }
        let count = ffi::item_count(self.bytes).result()? as usize;
        self.count.set(Some(count));
        Ok(count)
    }

    /// How many bytes the value of data has; 0 for damaged data, for a list and for no bytes.
    #[inline]
    pub fn size(&self) -> usize {
        ffi::size(self.bytes)
    }

    /// Item `index` of the list.
    ///
    /// [`RlpExpectedToBeList`](Refusal::RlpExpectedToBeList) if this is no list; [`RlpIsTooShort`](Refusal::RlpIsTooShort) past the end, or
    /// what refuses the first damaged item on the way. A walk never leaves its own list, whatever was asked before:
    ///
    /// ```
    /// use loughcable::{Refusal, Rlp};
    /// let rlp = Rlp::new(&[0xc1, 0x05, 0x06]);
    /// assert_eq!(rlp.at(0)?.as_raw(), [0x05]);
    /// assert_eq!(rlp.at(1).unwrap_err(), Refusal::RlpIsTooShort);
    /// # Ok::<(), Refusal>(())
    /// ```
    #[inline(always)]
    pub fn at(&self, index: usize) -> Result<Rlp<'a>, Refusal> {
        self.at_with_offset(index).map(|(item, _)| item)
    }

    /// The same, with the offset of the item's first byte in [`as_raw`](Rlp::as_raw).
    #[inline(always)]
    pub fn at_with_offset(&self, index: usize) -> Result<(Rlp<'a>, usize), Refusal> {
        // Each way gives the answer of a walk from the list's start: the library's claims `StepsWalkTheList` and `PlacesGiveTheFreshAnswer`.
        let mut known = self.known.get();
        let (refusal, start, len) = if known.end == 0 {
            let (start, end) = payload_of(self.bytes)?;
            known.end = end;
            let place = if index == 0 { ffi::item_within(self.bytes, start, end) } else { ffi::at(self.bytes, index) };
            (place.refusal, place.start, place.len)
        } else if index == known.index + 1 {
            let place = ffi::item_within(self.bytes, known.next, known.end);
            (place.refusal, place.start, place.len)
        } else {
            let found = ffi::at_with_cache(self.bytes, known.index, known.offset, index);
            (found.refusal, found.start, found.len)
        };
        accepted(refusal)?;
        self.known.set(Known { index, offset: start, next: start + len, end: known.end });
        Ok((Rlp::new(part(self.bytes, start, len)), start))
    }

    /// Whether there are no bytes at all.
    #[inline]
    pub fn is_null(&self) -> bool {
        ffi::is_null(self.bytes) != 0
    }

    /// Whether the first byte is that of the empty string or of the empty list.
    #[inline]
    pub fn is_empty(&self) -> bool {
        ffi::is_empty(self.bytes) != 0
    }

    /// Whether the first byte is a list's.
    #[inline]
    pub fn is_list(&self) -> bool {
        ffi::is_list(self.bytes) != 0
    }

    /// Whether the first byte is that of data.
    #[inline]
    pub fn is_data(&self) -> bool {
        ffi::is_data(self.bytes) != 0
    }

    /// Whether the value's first byte is not 0; yes too for 00 itself and for the empty string. Where that byte is not there the crate rlp
    /// panics, and this says no.
    #[inline]
    pub fn is_int(&self) -> bool {
        ffi::is_int(self.bytes) != 0
    }

    /// The list's items, one after the other. Damage is reported: it comes as the last item, once.
    ///
    /// ```
    /// use loughcable::{Refusal, Rlp};
    /// let mut items = Rlp::new(&[0xc3, 0x01, 0x02, 0x81]).iter();
    /// assert_eq!(items.next().unwrap()?.as_raw(), [0x01]);
    /// assert_eq!(items.next().unwrap()?.as_raw(), [0x02]);
    /// assert_eq!(items.next().unwrap().unwrap_err(), Refusal::RlpIsTooShort);
    /// assert!(items.next().is_none());
    /// # Ok::<(), Refusal>(())
    /// ```
    #[inline]
    pub fn iter(&self) -> RlpIterator<'a> {
        RlpIterator::new(self.bytes)
    }

    /// The item as a value of a type.
    ///
    /// ```
    /// use loughcable::{Refusal, Rlp};
    /// assert_eq!(Rlp::new(&[0x82, 0x04, 0x1c]).as_val::<u16>(), Ok(1052));
    /// assert_eq!(Rlp::new(&[0x82, 0x04, 0x1c]).as_val::<u8>(), Err(Refusal::RlpIsTooBig));
    /// ```
    #[inline]
    pub fn as_val<T: Decodable<'a>>(&self) -> Result<T, Refusal> {
        T::decode(self)
    }

    /// The list's items as values of a type, one after the other. An item that is no such value comes as its refusal, and the walk goes on.
    ///
    /// ```
    /// use loughcable::{Refusal, Rlp};
    /// let numbers: Result<Vec<u8>, Refusal> = Rlp::new(&[0xc3, 0x01, 0x02, 0x80]).as_list().collect();
    /// assert_eq!(numbers, Ok(vec![1, 2, 0]));
    /// ```
    #[inline]
    pub fn as_list<T: Decodable<'a>>(&self) -> RlpValues<'a, T> {
        RlpValues { items: self.iter(), kind: PhantomData }
    }

    /// Item `index` of the list as a value of a type.
    #[inline]
    pub fn val_at<T: Decodable<'a>>(&self, index: usize) -> Result<T, Refusal> {
        self.at(index)?.as_val()
    }

    /// Item `index` of the list, a list itself, as values of a type.
    #[inline]
    pub fn list_at<T: Decodable<'a>>(&self, index: usize) -> Result<RlpValues<'a, T>, Refusal> {
        Ok(self.at(index)?.as_list())
    }

    /// What reads the item's string: for types of your own that are strings of bytes.
    #[inline]
    pub fn decoder(&self) -> BasicDecoder<'a> {
        BasicDecoder { bytes: self.bytes }
    }
}

/// Reads the string at the front of some bytes.
///
/// ```
/// use loughcable::{Refusal, Rlp};
/// let three: [u8; 3] = Rlp::new(b"\x83cat").decoder().decode_value(|bytes| {
///     bytes.try_into().map_err(|_| Refusal::RlpInconsistentLengthAndData)
/// })?;
/// assert_eq!(&three, b"cat");
/// # Ok::<(), Refusal>(())
/// ```
#[derive(Debug, Clone, Copy)]
pub struct BasicDecoder<'a> {
    bytes: &'a [u8],
}

impl<'a> BasicDecoder<'a> {
    /// Hands the string's bytes to `f`. Bytes after the string are not looked at.
    #[inline]
    pub fn decode_value<T, F>(&self, f: F) -> Result<T, Refusal>
    where
        F: FnOnce(&'a [u8]) -> Result<T, Refusal>,
    {
        f(situated(self.bytes, ffi::value(self.bytes))?)
    }
}

/// The items of a list, one after the other: see [`Rlp::iter`]. One step is one call of the library.
#[derive(Debug, Clone)]
pub struct RlpIterator<'a> {
    bytes: &'a [u8],
    /// Where the next item starts: where the payload does, and then where the item before it ends (the library's claim `StepsWalkTheList`).
    next: usize,
    /// Where the payload ends. A walk that has arrived there is over.
    end: usize,
    /// Why there is no payload to walk over.
    refused: Option<Refusal>,
}

impl<'a> RlpIterator<'a> {
    #[inline]
    fn new(bytes: &'a [u8]) -> RlpIterator<'a> {
        match payload_of(bytes) {
            Err(refusal) => RlpIterator { bytes, next: 0, end: 0, refused: Some(refusal) },
            Ok((start, end)) => RlpIterator { bytes, next: start, end, refused: None },
        }
    }

    /// The next item, which starts before the end.
    #[inline(always)]
    fn item(&self) -> Result<&'a [u8], Refusal> {
        situated(self.bytes, ffi::item_within(self.bytes, self.next, self.end))
    }
}

/// Where the payload of a list starts and ends.
#[inline(always)]
fn payload_of(bytes: &[u8]) -> Result<(usize, usize), Refusal> {
    let payload = ffi::payload(bytes);
    accepted(payload.refusal)?;
    Ok((payload.start, payload.start + payload.len))
}

impl<'a> Iterator for RlpIterator<'a> {
    type Item = Result<Rlp<'a>, Refusal>;

    #[inline]
    fn next(&mut self) -> Option<Self::Item> {
        if self.next == self.end {
            return self.refused.take().map(Err);
        }
        match self.item() {
            Ok(item) => {
                self.next += item.len();
                Some(Ok(Rlp::new(item)))
            }
            Err(refusal) => {
                self.next = self.end;
                Some(Err(refusal))
            }
        }
    }

    /// Each item has at least one byte.
    #[inline]
    fn size_hint(&self) -> (usize, Option<usize>) {
        let left = self.end - self.next + usize::from(self.refused.is_some());
        (usize::from(left > 0), Some(left))
    }
}

impl FusedIterator for RlpIterator<'_> {}

impl<'a> IntoIterator for &Rlp<'a> {
    type Item = Result<Rlp<'a>, Refusal>;
    type IntoIter = RlpIterator<'a>;

    #[inline]
    fn into_iter(self) -> RlpIterator<'a> {
        self.iter()
    }
}

/// The items of a list as values of one type: see [`Rlp::as_list`].
#[derive(Debug, Clone)]
pub struct RlpValues<'a, T> {
    items: RlpIterator<'a>,
    kind: PhantomData<fn() -> T>,
}

impl<'a, T: Decodable<'a>> Iterator for RlpValues<'a, T> {
    type Item = Result<T, Refusal>;

    #[inline]
    fn next(&mut self) -> Option<Self::Item> {
        Some(self.items.next()?.and_then(|item| item.as_val()))
    }

    #[inline]
    fn size_hint(&self) -> (usize, Option<usize>) {
        self.items.size_hint()
    }
}

impl<'a, T: Decodable<'a>> FusedIterator for RlpValues<'a, T> {}
