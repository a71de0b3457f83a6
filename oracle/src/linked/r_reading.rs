//! R's answers to the reading calls. A panic is an answer too.
//! `rlp` is R unchanged; `rlp_open` is R with one line more, which shows its private `decode_usize`.

use crate::caught::caught;
use crate::said::{DATA, LIST, NULL, Said, UNNUMBERED};
use rlp::{DecoderError, PayloadInfo, Prototype, Rlp};

type Answer = Result<(u64, u64), DecoderError>;

/// The number of R's error in the table "Refusal numbers". Both crates of R have an error type of this shape.
macro_rules! number_of {
    ($type:path, $error:expr) => {{
        use $type as Error;
        match $error {
            Error::RlpIsTooShort => 1,
            Error::RlpDataLenWithZeroPrefix => 2,
            Error::RlpInvalidIndirection => 3,
            Error::RlpIsTooBig => 4,
            Error::RlpInconsistentLengthAndData => 5,
            Error::RlpInvalidLength => 6,
            Error::RlpExpectedToBeData => 7,
            Error::RlpExpectedToBeList => 8,
            Error::Custom("invalid boolean value") => 9,
            _ => UNNUMBERED,
        }
    }};
}
/// What a call of R gives.
fn over(call: impl FnOnce() -> Answer) -> Said {
    match caught(call) {
        Some(Ok((first, second))) => Said::Ok(first, second),
        Some(Err(error)) => Said::No(number_of!(rlp::DecoderError, error)),
        None => Said::Panic,
    }
}

pub fn length(bytes: &[u8]) -> Said {
    match caught(|| rlp_open::decode_usize(bytes)) {
        Some(Ok(length)) => Said::one(length as u64),
        Some(Err(error)) => Said::No(number_of!(rlp_open::DecoderError, error)),
        None => Said::Panic,
    }
}

fn lengths(info: PayloadInfo) -> (u64, u64) {
    (info.header_len as u64, info.value_len as u64)
}

pub fn from(bytes: &[u8]) -> Said {
    over(|| PayloadInfo::from(bytes).map(lengths))
}

pub fn total(bytes: &[u8]) -> Said {
    over(|| PayloadInfo::from(bytes).map(|info| (info.total() as u64, 0)))
}

pub fn total_of(header_len: usize, value_len: usize) -> Said {
    over(|| Ok((PayloadInfo { header_len, value_len }.total() as u64, 0)))
}

pub fn info(bytes: &[u8]) -> Said {
    over(|| Rlp::new(bytes).payload_info().map(lengths))
}

/// Where a part of the bytes lies in them, by its address.
fn place_in(bytes: &[u8], part: &[u8]) -> (u64, u64) {
    ((part.as_ptr() as usize).wrapping_sub(bytes.as_ptr() as usize) as u64, part.len() as u64)
}

pub fn data(bytes: &[u8]) -> Said {
    over(|| Rlp::new(bytes).data().map(|part| place_in(bytes, part)))
}

/// Of a first byte up to 7f, R hands out a copy: its place is that of the byte.
pub fn value(bytes: &[u8]) -> Said {
    over(|| {
        Rlp::new(bytes).decoder().decode_value(|part| match bytes {
            [first @ 0x00..=0x7f, ..] if part == [*first] => Ok((0, 1)),
            _ => Ok(place_in(bytes, part)),
        })
    })
}

pub fn read_u8(bytes: &[u8]) -> Said {
    over(|| Rlp::new(bytes).as_val::<u8>().map(|number| (number.into(), 0)))
}

pub fn read_u16(bytes: &[u8]) -> Said {
    over(|| Rlp::new(bytes).as_val::<u16>().map(|number| (number.into(), 0)))
}

pub fn read_u32(bytes: &[u8]) -> Said {
    over(|| Rlp::new(bytes).as_val::<u32>().map(|number| (number.into(), 0)))
}

pub fn read_u64(bytes: &[u8]) -> Said {
    over(|| Rlp::new(bytes).as_val::<u64>().map(|number| (number, 0)))
}

pub fn read_bool(bytes: &[u8]) -> Said {
    over(|| Rlp::new(bytes).as_val::<bool>().map(|truth| (truth.into(), 0)))
}

pub fn flags(bytes: &[u8]) -> Said {
    over(|| {
        let view = Rlp::new(bytes);
        let flags = [view.is_null(), view.is_empty(), view.is_list(), view.is_data(), view.is_int()];
        Ok((flags.iter().fold(0, |digits, flag| 2 * digits + u64::from(*flag)), 0))
    })
}

pub fn size(bytes: &[u8]) -> Said {
    over(|| Ok((Rlp::new(bytes).size() as u64, 0)))
}

pub fn count(bytes: &[u8]) -> Said {
    over(|| Rlp::new(bytes).item_count().map(|count| (count as u64, 0)))
}

pub fn prototype(bytes: &[u8]) -> Said {
    over(|| {
        Ok(match Rlp::new(bytes).prototype()? {
            Prototype::Null => (NULL, 0),
            Prototype::Data(size) => (DATA, size as u64),
            Prototype::List(count) => (LIST, count as u64),
        })
    })
}

/// Items of one view, asked for one after the other: R remembers where it found the last.
pub struct View<'a>(Rlp<'a>);

impl<'a> View<'a> {
    pub fn new(bytes: &'a [u8]) -> View<'a> {
        View(Rlp::new(bytes))
    }

    pub fn at(&self, index: usize) -> Said {
        over(|| self.0.at_with_offset(index).map(|(item, offset)| (offset as u64, item.as_raw().len() as u64)))
    }
}
