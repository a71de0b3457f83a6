//! Writing: items one after the other into a lent buffer, in lists that may be open at once.

use crate::ffi::{self, Answer, STATE};
use crate::refusal::Refusal;
use crate::values::Encodable;

/// Writes items one after the other into a lent buffer.
///
/// Every call can be refused, so that chains run by `?`. A refused call leaves the stream and the buffer as they were. Refusals that every call
/// has: [`TooLarge`](Refusal::TooLarge) if the buffer, or a slice handed in beside it, has more than [`LIMIT`](crate::LIMIT) bytes, and
/// [`StateMismatch`](Refusal::StateMismatch) if the stream was made to start beyond the buffer. Calls that write have
/// [`NoRoom`](Refusal::NoRoom) too: exactly when the end after the call, with the headers of all lists that it closes, passes the buffer.
///
/// ```
/// use loughcable::{Refusal, RlpStream};
/// let mut buf = [0; 16];
/// let mut s = RlpStream::new(&mut buf);
/// s.begin_list(2)?.append("cat")?.append("dog")?;
/// assert_eq!(s.out()?, b"\xc8\x83cat\x83dog");
/// # Ok::<(), Refusal>(())
/// ```
///
/// While the stream is in use the buffer is its own, so that nobody changes what is written. What is proved of whole streams rests on that.
///
/// ```compile_fail
/// # use loughcable::RlpStream;
/// let mut buf = [0; 16];
/// let mut s = RlpStream::new(&mut buf);
/// buf[0] = 1;
/// s.append("cat");
/// ```
#[derive(Debug)]
pub struct RlpStream<'b> {
    buf: &'b mut [u8],
    state: [u32; STATE],
}

/// The number, or the largest that the state holds. No such place lies in a buffer within the limit, so that every later call refuses a stream
/// which starts there; and no list within the limit has so many items, so that a list of that many is open for good, as it would be with more.
#[inline(always)]
fn saturated(n: usize) -> u32 {
    u32::try_from(n).unwrap_or(u32::MAX)
}

impl<'b> RlpStream<'b> {
    /// A stream that writes from the buffer's first byte on.
    #[inline]
    pub fn new(buf: &'b mut [u8]) -> Self {
        Self::new_at(buf, 0)
    }

    /// A stream that writes from the byte `start` of the buffer on. The bytes before are kept, and shown by [`as_raw`](RlpStream::as_raw) and
    /// [`out`](RlpStream::out). If `start` lies beyond the buffer, every call on the stream answers [`StateMismatch`](Refusal::StateMismatch).
    ///
    /// ```
    /// use loughcable::{Refusal, RlpStream};
    /// let mut buf = *b"V1......";
    /// let mut s = RlpStream::new_at(&mut buf, 2);
    /// s.append(&1052u16)?;
    /// assert_eq!(s.out()?, b"V1\x82\x04\x1c");
    /// # Ok::<(), Refusal>(())
    /// ```
    #[inline]
    pub fn new_at(buf: &'b mut [u8], start: usize) -> Self {
        let mut stream = RlpStream { buf, state: [0; STATE] };
        let answer = ffi::stream_new(&mut stream.state, saturated(start));
        debug_assert_eq!(answer.refusal, 0, "only a state of another length is refused");
        stream
    }

    /// A stream with a list of so many items begun: see [`begin_list`](RlpStream::begin_list).
    #[inline]
    pub fn new_list(buf: &'b mut [u8], len: usize) -> Result<Self, Refusal> {
        Self::new_list_at(buf, 0, len)
    }

    /// The same, from the byte `start` of the buffer on.
    #[inline]
    pub fn new_list_at(buf: &'b mut [u8], start: usize, len: usize) -> Result<Self, Refusal> {
        let mut stream = RlpStream { buf, state: [0; STATE] };
        stream.step(|state, buf| ffi::stream_new_list(state, buf, saturated(start), saturated(len)))?;
        Ok(stream)
    }

    /// A call of the library that writes.
    #[inline(always)]
    pub(crate) fn step(&mut self, call: impl FnOnce(&mut [u32; STATE], &mut [u8]) -> Answer) -> Result<(), Refusal> {
        call(&mut self.state, self.buf).result().map(|_| ())
    }

    /// The same, chainable.
    #[inline(always)]
    fn chained(&mut self, call: impl FnOnce(&mut [u32; STATE], &mut [u8]) -> Answer) -> Result<&mut Self, Refusal> {
        self.step(call)?;
        Ok(self)
    }

    /// A call of the library that only looks.
    #[inline(always)]
    fn looked(&self, call: impl FnOnce(&[u32; STATE], &[u8]) -> Answer) -> Result<usize, Refusal> {
        Ok(call(&self.state, self.buf).result()? as usize)
    }

    /// Appends a value as one item: a number, a truth, a string, or a type of your own ([`Encodable`]).
    ///
    /// ```
    /// use loughcable::{Refusal, RlpStream};
    /// let mut buf = [0; 4];
    /// let mut s = RlpStream::new(&mut buf);
    /// s.append("cat")?;
    /// assert_eq!(s.append(&1u8).unwrap_err(), Refusal::NoRoom);
    /// assert_eq!(s.out()?, b"\x83cat");
    /// # Ok::<(), Refusal>(())
    /// ```
    #[inline]
    pub fn append<E: Encodable + ?Sized>(&mut self, value: &E) -> Result<&mut Self, Refusal> {
        value.rlp_append(self)?;
        Ok(self)
    }

    /// Appends the empty string, 80.
    #[inline]
    pub fn append_empty_data(&mut self) -> Result<&mut Self, Refusal> {
        self.chained(ffi::stream_append_empty_data)
    }

    /// Appends items that are encoded already. The bytes must be strict ([`check_items`](crate::check_items) says of what), and `item_count`
    /// items: else that refusal, or [`CountMismatch`](Refusal::CountMismatch). Then [`TooManyItems`](Refusal::TooManyItems) for the open list,
    /// and [`TooDeep`](Refusal::TooDeep).
    ///
    /// ```
    /// use loughcable::{Refusal, RlpStream};
    /// let mut buf = [0; 8];
    /// let mut s = RlpStream::new_list(&mut buf, 2)?;
    /// assert_eq!(s.append_raw(&[0x01, 0x02], 1).unwrap_err(), Refusal::CountMismatch);
    /// assert_eq!(s.append_raw(&[0x01, 0x02, 0x03], 3).unwrap_err(), Refusal::TooManyItems);
    /// s.append_raw(&[0x01, 0x02], 2)?;
    /// assert_eq!(s.out()?, [0xc2, 0x01, 0x02]);
    /// # Ok::<(), Refusal>(())
    /// ```
    #[inline]
    pub fn append_raw(&mut self, bytes: &[u8], item_count: usize) -> Result<&mut Self, Refusal> {
        self.chained(|state, buf| ffi::stream_append_raw(state, buf, bytes, item_count))
    }

    /// The same, unless the [estimated size](RlpStream::estimate_size) then passes `max_size`: that is answered `false`, and nothing is read or
    /// written.
    ///
    /// ```
    /// use loughcable::{Refusal, RlpStream};
    /// let mut buf = [0; 8];
    /// let mut s = RlpStream::new(&mut buf);
    /// assert!(s.append_raw_checked(b"\x83cat", 1, 4)?);
    /// assert!(!s.append_raw_checked(b"\x01", 1, 4)?);
    /// assert_eq!(s.out()?, b"\x83cat");
    /// # Ok::<(), Refusal>(())
    /// ```
    #[inline]
    pub fn append_raw_checked(&mut self, bytes: &[u8], item_count: usize, max_size: usize) -> Result<bool, Refusal> {
        let answer = ffi::stream_append_raw_checked(&mut self.state, self.buf, bytes, item_count, max_size);
        Ok(answer.result()? != 0)
    }

    /// Begins a list of so many items, which closes by itself with the last; then its parent counts one, and may close too. A list of no items
    /// is written at once. [`TooDeep`](Refusal::TooDeep) if 16 lists are open.
    #[inline]
    pub fn begin_list(&mut self, len: usize) -> Result<&mut Self, Refusal> {
        self.chained(|state, buf| ffi::stream_begin_list(state, buf, saturated(len)))
    }

    /// Begins a list of any number of items, until [`finalize_unbounded_list`](RlpStream::finalize_unbounded_list).
    /// [`TooDeep`](Refusal::TooDeep) if 16 lists are open.
    #[inline]
    pub fn begin_unbounded_list(&mut self) -> Result<&mut Self, Refusal> {
        self.chained(ffi::stream_begin_unbounded_list)
    }

    /// Finishes the innermost list. [`NoOpenList`](Refusal::NoOpenList) if none is open, [`ListTypeMismatch`](Refusal::ListTypeMismatch) if it
    /// is a counted one.
    ///
    /// ```
    /// use loughcable::{Refusal, RlpStream};
    /// let mut buf = [0; 8];
    /// let mut s = RlpStream::new(&mut buf);
    /// s.begin_unbounded_list()?.append(&1u8)?.append(&2u8)?.finalize_unbounded_list()?;
    /// assert_eq!(s.out()?, [0xc2, 0x01, 0x02]);
    /// # Ok::<(), Refusal>(())
    /// ```
    #[inline]
    pub fn finalize_unbounded_list(&mut self) -> Result<&mut Self, Refusal> {
        self.chained(ffi::stream_finalize_unbounded_list)
    }

    /// Goes back to the start, with no open list. No byte of the buffer is changed.
    #[inline]
    pub fn clear(&mut self) -> Result<&mut Self, Refusal> {
        self.chained(|state, buf| ffi::stream_clear(state, buf))
    }

    /// Whether no list is open.
    #[inline]
    pub fn is_finished(&self) -> Result<bool, Refusal> {
        Ok(self.looked(ffi::stream_is_finished)? != 0)
    }

    /// Whether nothing is written.
    #[inline]
    pub fn is_empty(&self) -> Result<bool, Refusal> {
        Ok(self.looked(ffi::stream_is_empty)? != 0)
    }

    /// The bytes written from the start on and, for each open list with more than 55 bytes in it, the bytes that its length takes.
    #[inline]
    pub fn len(&self) -> Result<usize, Refusal> {
        self.looked(ffi::stream_len)
    }

    /// The same with so many bytes more. [`TooLarge`](Refusal::TooLarge) for more than [`LIMIT`](crate::LIMIT).
    #[inline]
    pub fn estimate_size(&self, add: usize) -> Result<usize, Refusal> {
        self.looked(|state, buf| ffi::stream_estimate_size(state, buf, add))
    }

    /// The buffer up to the end of what is written. An open list shows its one reserved byte, 0.
    #[inline]
    pub fn as_raw(&self) -> Result<&[u8], Refusal> {
        let end = self.looked(ffi::stream_as_raw)?;
        Ok(&self.buf[..end])
    }

    /// The same, once no list is open; [`Unfinished`](Refusal::Unfinished) until then, and the stream can go on.
    ///
    /// ```
    /// use loughcable::{Refusal, RlpStream};
    /// let mut buf = [0; 8];
    /// let mut s = RlpStream::new_list(&mut buf, 1)?;
    /// assert_eq!(s.out(), Err(Refusal::Unfinished));
    /// s.append(&5u8)?;
    /// assert_eq!(s.out()?, [0xc1, 0x05]);
    /// # Ok::<(), Refusal>(())
    /// ```
    #[inline]
    pub fn out(&self) -> Result<&[u8], Refusal> {
        let end = self.looked(ffi::stream_out)?;
        Ok(&self.buf[..end])
    }
}
