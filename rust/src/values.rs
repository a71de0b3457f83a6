//! Which types can be read and written, and how types of the caller's own join them.

use crate::ffi;
use crate::refusal::Refusal;
use crate::stream::RlpStream;
use crate::view::Rlp;

/// What can be read from an item.
///
/// Here are `u8`, `u16`, `u32`, `u64`, `usize`, `bool`, `&[u8]` and `&str`; the last two are parts of the bytes that are read, and nothing is
/// copied. A number is read from its shortest big-endian bytes alone. A type of your own is read from its fields:
///
/// ```
/// use loughcable::{decode, Decodable, Refusal, Rlp};
///
/// struct Reading<'a> {
///     tank: &'a str,
///     gravity: u16,
/// }
///
/// impl<'a> Decodable<'a> for Reading<'a> {
///     fn decode(rlp: &Rlp<'a>) -> Result<Self, Refusal> {
///         Ok(Reading { tank: rlp.val_at(0)?, gravity: rlp.val_at(1)? })
///     }
/// }
///
/// let reading: Reading = decode(b"\xc6\x82T1\x82\x04\x1c")?;
/// assert_eq!((reading.tank, reading.gravity), ("T1", 1052));
/// # Ok::<(), Refusal>(())
/// ```
pub trait Decodable<'a>: Sized {
    /// Reads a value from the item at the front of the bytes.
    fn decode(rlp: &Rlp<'a>) -> Result<Self, Refusal>;
}

/// What can be written as an item.
///
/// Here are `u8`, `u16`, `u32`, `u64`, `usize`, `bool`, `[u8]`, `[u8; N]` and `str`, and references to them. A number is written as its
/// shortest big-endian bytes, zero as the empty string, `true` as 01 and `false` as 80. A type of your own appends exactly one item:
///
/// ```
/// use loughcable::{encode, Encodable, Refusal, RlpStream};
///
/// struct Reading<'a> {
///     tank: &'a str,
///     gravity: u16,
/// }
///
/// impl Encodable for Reading<'_> {
///     fn rlp_append(&self, s: &mut RlpStream) -> Result<(), Refusal> {
///         s.begin_list(2)?.append(self.tank)?.append(&self.gravity)?;
///         Ok(())
///     }
/// }
///
/// let mut buf = [0; 16];
/// let len = encode(&Reading { tank: "T1", gravity: 1052 }, &mut buf)?;
/// assert_eq!(&buf[..len], b"\xc6\x82T1\x82\x04\x1c");
/// # Ok::<(), Refusal>(())
/// ```
///
/// A refused call of the stream changes nothing. A type of your own makes several: where a later one is refused, those before it stand, with
/// the list that they opened. Begin anew then, by [`clear`](RlpStream::clear) for example.
pub trait Encodable {
    /// Appends the value to the stream, as one item.
    fn rlp_append(&self, s: &mut RlpStream<'_>) -> Result<(), Refusal>;

    /// Writes the value's encoding to the front of the buffer, and answers how many bytes it has: see [`encode`].
    #[inline]
    fn rlp_bytes(&self, buf: &mut [u8]) -> Result<usize, Refusal> {
        let mut stream = RlpStream::new(buf);
        self.rlp_append(&mut stream)?;
        Ok(stream.out()?.len())
    }
}

/// Reads a value from the item at the front of the bytes. Bytes behind the item are not looked at: [`check`](crate::check) does so.
///
/// ```
/// use loughcable::decode;
/// assert_eq!(decode(b"\x83cat"), Ok("cat"));
/// assert_eq!(decode(&[0x01]), Ok(true));
/// ```
#[inline]
pub fn decode<'a, T: Decodable<'a>>(bytes: &'a [u8]) -> Result<T, Refusal> {
    T::decode(&Rlp::new(bytes))
}

/// Writes a value's encoding to the front of the buffer, and answers how many bytes it has.
///
/// [`TooLarge`](Refusal::TooLarge) for a buffer or a string over [`LIMIT`](crate::LIMIT), [`NoRoom`](Refusal::NoRoom) if the encoding does not
/// fit. Then nothing is written of a type that this crate can write by itself:
///
/// ```
/// use loughcable::{encode, Refusal};
/// let mut buf = [0; 4];
/// assert_eq!(encode("cat", &mut buf), Ok(4));
/// assert_eq!(&buf, b"\x83cat");
/// assert_eq!(encode("barley", &mut buf), Err(Refusal::NoRoom));
/// assert_eq!(&buf, b"\x83cat");
/// ```
///
/// A type of your own makes several calls of a stream, each of which changes nothing where it is refused. What the calls before it wrote then
/// stands at the front of the buffer, and is no encoding:
///
/// ```
/// use loughcable::{encode, Encodable, Refusal, RlpStream};
///
/// struct Reading(&'static str, u16);
///
/// impl Encodable for Reading {
///     fn rlp_append(&self, s: &mut RlpStream) -> Result<(), Refusal> {
///         s.begin_list(2)?.append(self.0)?.append(&self.1)?;
///         Ok(())
///     }
/// }
///
/// let mut buf = [0xee; 6];
/// assert_eq!(encode(&Reading("T1", 1052), &mut buf), Err(Refusal::NoRoom));
/// assert_eq!(&buf, b"\x00\x82T1\xee\xee");
/// ```
#[inline]
pub fn encode<E: Encodable + ?Sized>(value: &E, buf: &mut [u8]) -> Result<usize, Refusal> {
    value.rlp_bytes(buf)
}

/// The one-shot encoders, which write to the front of a buffer and answer how many bytes.
macro_rules! encoders {
    ($($(#[$doc:meta])* $name:ident($($value:ident: $kind:ty)?);)*) => {$(
        $(#[$doc])*
        #[inline]
        pub fn $name($($value: $kind,)? buf: &mut [u8]) -> Result<usize, Refusal> {
            Ok(ffi::$name(buf $(, $value)?).result()? as usize)
        }
    )*};
}

encoders! {
    /// [`encode`] of a string.
    encode_bytes(src: &[u8]);
    /// [`encode`] of a `u8`.
    encode_u8(n: u8);
    /// [`encode`] of a `u16`.
    encode_u16(n: u16);
    /// [`encode`] of a `u32`.
    encode_u32(n: u32);
    /// [`encode`] of a `u64`.
    encode_u64(n: u64);
    /// The empty string, 80.
    encode_empty_data();
    /// The empty list, c0.
    encode_empty_list();
}

/// [`encode`] of a `bool`.
#[inline]
pub fn encode_bool(truth: bool, buf: &mut [u8]) -> Result<usize, Refusal> {
    Ok(ffi::encode_bool(buf, u32::from(truth)).result()? as usize)
}

/// Numbers: the call that reads one, that appends one and that encodes one. What is read fits its type, so that no cast loses a bit.
macro_rules! numbers {
    ($($kind:ty as $wide:ty: $decode:ident, $append:ident, $encode:ident;)*) => {$(
        impl<'a> Decodable<'a> for $kind {
            #[inline]
            fn decode(rlp: &Rlp<'a>) -> Result<Self, Refusal> {
                Ok(ffi::$decode(rlp.as_raw()).result()? as $kind)
            }
        }

        impl Encodable for $kind {
            #[inline]
            fn rlp_append(&self, s: &mut RlpStream<'_>) -> Result<(), Refusal> {
                s.step(|state, buf| ffi::$append(state, buf, *self as $wide))
            }

            #[inline]
            fn rlp_bytes(&self, buf: &mut [u8]) -> Result<usize, Refusal> {
                $encode(*self as $wide, buf)
            }
        }
    )*};
}

numbers! {
    u8 as u8: decode_u8, stream_append_u8, encode_u8;
    u16 as u16: decode_u16, stream_append_u16, encode_u16;
    u32 as u32: decode_u32, stream_append_u32, encode_u32;
    u64 as u64: decode_u64, stream_append_u64, encode_u64;
    usize as u64: decode_u64, stream_append_u64, encode_u64;
}

impl<'a> Decodable<'a> for bool {
    #[inline]
    fn decode(rlp: &Rlp<'a>) -> Result<Self, Refusal> {
        Ok(ffi::decode_bool(rlp.as_raw()).result()? != 0)
    }
}

impl Encodable for bool {
    #[inline]
    fn rlp_append(&self, s: &mut RlpStream<'_>) -> Result<(), Refusal> {
        s.step(|state, buf| ffi::stream_append_bool(state, buf, u32::from(*self)))
    }

    #[inline]
    fn rlp_bytes(&self, buf: &mut [u8]) -> Result<usize, Refusal> {
        encode_bool(*self, buf)
    }
}

impl<'a> Decodable<'a> for &'a [u8] {
    #[inline]
    fn decode(rlp: &Rlp<'a>) -> Result<Self, Refusal> {
        rlp.decoder().decode_value(Ok)
    }
}

impl Encodable for [u8] {
    #[inline]
    fn rlp_append(&self, s: &mut RlpStream<'_>) -> Result<(), Refusal> {
        s.step(|state, buf| ffi::stream_append(state, buf, self))
    }

    #[inline]
    fn rlp_bytes(&self, buf: &mut [u8]) -> Result<usize, Refusal> {
        encode_bytes(self, buf)
    }
}

/// Bytes that are no UTF-8 are [`RlpExpectedToBeData`](Refusal::RlpExpectedToBeData), as in the crate rlp.
impl<'a> Decodable<'a> for &'a str {
    #[inline]
    fn decode(rlp: &Rlp<'a>) -> Result<Self, Refusal> {
        rlp.decoder().decode_value(|bytes| core::str::from_utf8(bytes).map_err(|_| Refusal::RlpExpectedToBeData))
    }
}

/// Types that are written as the bytes that they hold, and references.
macro_rules! written_as {
    ($([$($of:tt)*] $kind:ty, $value:ident => $as:expr;)*) => {$(
        impl<$($of)*> Encodable for $kind {
            #[inline]
            fn rlp_append(&self, s: &mut RlpStream<'_>) -> Result<(), Refusal> {
                let $value = self;
                $as.rlp_append(s)
            }

            #[inline]
            fn rlp_bytes(&self, buf: &mut [u8]) -> Result<usize, Refusal> {
                let $value = self;
                $as.rlp_bytes(buf)
            }
        }
    )*};
}

written_as! {
    [] str, value => value.as_bytes();
    [const N: usize] [u8; N], value => value.as_slice();
    [T: Encodable + ?Sized] &T, value => (**value);
}
