//! RLP, the encoding of the Ethereum Yellow Paper's Appendix B: read, checked strictly, written and amended in place.
//!
//! The crate is a thin wrapper of a library that is proved: each of the library's functions ends without fault, on every input, with its one
//! stated answer or a numbered [`Refusal`], and a refusal changes nothing. Names and shapes are those of the crate rlp 0.6.1 wherever they fit;
//! `docs/FROM-RLP.md` says what changes for its users. There is no heap and no dependency, and no call panics.
//!
//! # Read a sheet
//!
//! A day sheet is a list of readings; a reading is a list of a tank's name, a time and a gravity. [`check`] first says that the bytes are one
//! whole sheet and nothing else. From then on reading can only be refused for what the sheet says, for a list where a number should be.
//!
//! ```
//! use loughcable::{check, Refusal, Rlp};
//!
//! fn heaviest(sheet: &[u8]) -> Result<Option<(&str, u64, u16)>, Refusal> {
//!     check(sheet)?;
//!     let mut heaviest = None;
//!     for reading in &Rlp::new(sheet) {
//!         let reading = reading?;
//!         let tank: &str = reading.val_at(0)?;
//!         let time: u64 = reading.val_at(1)?;
//!         let gravity: u16 = reading.val_at(2)?;
//!         if heaviest.map_or(true, |(_, _, most)| gravity > most) {
//!             heaviest = Some((tank, time, gravity));
//!         }
//!     }
//!     Ok(heaviest)
//! }
//!
//! let sheet = b"\xe2\
//!     \xd0\x85T0001\x86\x01\xa1\xdc\x80\xf0\x00\x82\x04\x1c\
//!     \xd0\x85T0002\x86\x01\xa1\xdc\x81\xda\x60\x82\x04\x18";
//! assert_eq!(heaviest(sheet), Ok(Some(("T0001", 1_794_700_800_000, 1052))));
//! assert_eq!(heaviest(&sheet[..34]), Err(Refusal::RlpIsTooShort));
//! ```
//!
//! # Write a sheet
//!
//! A stream writes into a buffer of yours, which must have room.
//!
//! ```
//! use loughcable::{Refusal, RlpStream};
//!
//! let readings = [("T0001", 1_794_700_800_000u64, 1052u16), ("T0002", 1_794_700_860_000, 1048)];
//! let mut buf = [0; 64];
//! let mut s = RlpStream::new_list(&mut buf, readings.len())?;
//! for (tank, time, gravity) in &readings {
//!     s.begin_list(3)?.append(tank)?.append(time)?.append(gravity)?;
//! }
//! assert_eq!(
//!     s.out()?,
//!     b"\xe2\
//!     \xd0\x85T0001\x86\x01\xa1\xdc\x80\xf0\x00\x82\x04\x1c\
//!     \xd0\x85T0002\x86\x01\xa1\xdc\x81\xda\x60\x82\x04\x18"
//! );
//! # Ok::<(), Refusal>(())
//! ```
//!
//! # Correct one reading in place
//!
//! The gravity of the second reading was written down wrongly: it is item 2 of item 1. Here the sheet grows by no byte; where it does, the
//! headers of all lists on the way are made anew, and the buffer must have room.
//!
//! ```
//! use loughcable::{amend, encode, Refusal, Rlp};
//!
//! let mut buf = [0; 64];
//! buf[..35].copy_from_slice(
//!     b"\xe2\
//!     \xd0\x85T0001\x86\x01\xa1\xdc\x80\xf0\x00\x82\x04\x1c\
//!     \xd0\x85T0002\x86\x01\xa1\xdc\x81\xda\x60\x82\x04\x18",
//! );
//! let mut gravity = [0; 9];
//! let len = encode(&1084u16, &mut gravity)?;
//! let n = amend(&mut buf, 35, &[1, 2], &gravity[..len])?;
//! assert_eq!(n, 35);
//! assert_eq!(Rlp::new(&buf[..n]).at(1)?.val_at::<u16>(2)?, 1084);
//! assert_eq!(amend(&mut buf, n, &[2, 2], &gravity[..len]), Err(Refusal::NoSuchItem));
//! # Ok::<(), Refusal>(())
//! ```
//!
//! # What is proved, and what is trusted
//!
//! Proved, by the Rattle toolchain and on every input: the functions that the static library exports, which do all the reading, checking,
//! writing and amending. `docs/PROMISES.md` says what, rule by rule.
//!
//! Trusted: this wrapper, which hands slices over and makes `Result`s of answers; its declarations, the only unsafe code, in one module;
//! Rattle's back end, the Rust compiler and the linker. The wrapper takes parts of slices by Rust's own bounds tests. With the proved library
//! none of them fails; if another library is linked, the worst that they do is panic.
//!
//! # Linking
//!
//! The build script links `crates/loughcable/out/libloughcable.a`, made by `rt lib` in `crates/loughcable`, or the file that the environment
//! variable `LOUGHCABLE_LIB` names by its whole path. The library is x86-64 code for Linux; for any other target the crate does not compile.

#![no_std]
#![deny(unsafe_code)]
#![warn(missing_docs)]

#[cfg(not(all(target_arch = "x86_64", target_pointer_width = "64", target_os = "linux")))]
compile_error!("libloughcable.a is x86-64 code for Linux: build for the target x86_64-unknown-linux-gnu");

mod ffi;
mod refusal;
mod sheet;
mod stream;
mod values;
mod view;

pub use refusal::Refusal;
pub use sheet::{amend, check, check_items, Tally};
pub use stream::RlpStream;
pub use values::{
    decode, encode, encode_bool, encode_bytes, encode_empty_data, encode_empty_list, encode_u16, encode_u32, encode_u64, encode_u8, Decodable,
    Encodable,
};
pub use view::{decode_usize, BasicDecoder, PayloadInfo, Prototype, Rlp, RlpIterator, RlpValues};

/// The longest slice of bytes that the strict check, the stream, the encoders and the amender take.
pub const LIMIT: usize = 1_048_576;

/// The most levels of lists in a strict sheet, and the most open lists of a stream.
pub const LEVELS: usize = 16;

/// The encoding of the empty string, which stands for a missing value.
pub const NULL_RLP: [u8; 1] = [0x80];

/// The encoding of the empty list.
pub const EMPTY_LIST_RLP: [u8; 1] = [0xc0];
