//! The library, through its C interface `loughcable.h`, declared here and called as it is, without any wrapper between.

use crate::said::Said;

/// The numbers of a stream's state, and how many lists it can have open.
pub const STATE: usize = 51;
pub const LISTS: usize = 16;

#[repr(C)]
struct Answer {
    refusal: u32,
    value: u64,
}

/// `loughcable_info`, `loughcable_place` and `loughcable_tally`: two numbers.
#[repr(C)]
struct Pair {
    refusal: u32,
    first: usize,
    second: usize,
}

#[repr(C)]
struct Found {
    refusal: u32,
    start: usize,
    len: usize,
    index: usize,
    offset: usize,
}

#[repr(C)]
struct Prototype {
    refusal: u32,
    kind: u32,
    count: usize,
}

macro_rules! declare {
    ($($name:ident($($argument:ty),*) -> $answer:ty;)*) => {
        unsafe extern "C" { $(fn $name($(_: $argument),*) -> $answer;)* }
    };
}

declare! {
    loughcable_decode_usize(*const u8, usize) -> Answer;
    loughcable_payload_info_from(*const u8, usize) -> Pair;
    loughcable_payload_info(*const u8, usize) -> Pair;
    loughcable_payload_info_total(usize, usize) -> Answer;
    loughcable_value(*const u8, usize) -> Pair;
    loughcable_data(*const u8, usize) -> Pair;
    loughcable_u8(*const u8, usize) -> Answer;
    loughcable_u16(*const u8, usize) -> Answer;
    loughcable_u32(*const u8, usize) -> Answer;
    loughcable_u64(*const u8, usize) -> Answer;
    loughcable_bool(*const u8, usize) -> Answer;
    loughcable_is_null(*const u8, usize) -> u32;
    loughcable_is_empty(*const u8, usize) -> u32;
    loughcable_is_list(*const u8, usize) -> u32;
    loughcable_is_data(*const u8, usize) -> u32;
    loughcable_is_int(*const u8, usize) -> u32;
    loughcable_size(*const u8, usize) -> usize;
    loughcable_prototype_of(*const u8, usize) -> Prototype;
    loughcable_item_count(*const u8, usize) -> Answer;
    loughcable_at(*const u8, usize, usize) -> Pair;
    loughcable_at_with_cache(*const u8, usize, usize, usize, usize) -> Found;
    loughcable_payload(*const u8, usize) -> Pair;
    loughcable_item_within(*const u8, usize, usize, usize) -> Pair;
    loughcable_check(*const u8, usize) -> Pair;
    loughcable_check_items(*const u8, usize) -> Pair;
    loughcable_encode_bytes(*mut u8, usize, *const u8, usize) -> Answer;
    loughcable_encode_u8(*mut u8, usize, u8) -> Answer;
    loughcable_encode_u16(*mut u8, usize, u16) -> Answer;
    loughcable_encode_u32(*mut u8, usize, u32) -> Answer;
    loughcable_encode_u64(*mut u8, usize, u64) -> Answer;
    loughcable_encode_bool(*mut u8, usize, u32) -> Answer;
    loughcable_encode_empty_data(*mut u8, usize) -> Answer;
    loughcable_encode_empty_list(*mut u8, usize) -> Answer;
    loughcable_stream_new(*mut u32, usize, u32) -> Answer;
    loughcable_stream_new_list(*mut u32, usize, *mut u8, usize, u32, u32) -> Answer;
    loughcable_stream_append(*mut u32, usize, *mut u8, usize, *const u8, usize) -> Answer;
    loughcable_stream_append_empty_data(*mut u32, usize, *mut u8, usize) -> Answer;
    loughcable_stream_append_u8(*mut u32, usize, *mut u8, usize, u8) -> Answer;
    loughcable_stream_append_u16(*mut u32, usize, *mut u8, usize, u16) -> Answer;
    loughcable_stream_append_u32(*mut u32, usize, *mut u8, usize, u32) -> Answer;
    loughcable_stream_append_u64(*mut u32, usize, *mut u8, usize, u64) -> Answer;
    loughcable_stream_append_bool(*mut u32, usize, *mut u8, usize, u32) -> Answer;
    loughcable_stream_append_raw(*mut u32, usize, *mut u8, usize, *const u8, usize, usize) -> Answer;
    loughcable_stream_append_raw_checked(*mut u32, usize, *mut u8, usize, *const u8, usize, usize, usize) -> Answer;
    loughcable_stream_begin_list(*mut u32, usize, *mut u8, usize, u32) -> Answer;
    loughcable_stream_begin_unbounded_list(*mut u32, usize, *mut u8, usize) -> Answer;
    loughcable_stream_finalize_unbounded_list(*mut u32, usize, *mut u8, usize) -> Answer;
    loughcable_stream_clear(*mut u32, usize, *const u8, usize) -> Answer;
    loughcable_stream_is_finished(*const u32, usize, *const u8, usize) -> Answer;
    loughcable_stream_is_empty(*const u32, usize, *const u8, usize) -> Answer;
    loughcable_stream_len(*const u32, usize, *const u8, usize) -> Answer;
    loughcable_stream_estimate_size(*const u32, usize, *const u8, usize, usize) -> Answer;
    loughcable_stream_as_raw(*const u32, usize, *const u8, usize) -> Answer;
    loughcable_stream_out(*const u32, usize, *const u8, usize) -> Answer;
    loughcable_amend(*mut u8, usize, usize, *const usize, usize, *const u8, usize) -> Answer;
}

/// "`refusal` is 0 where the call is accepted; else [..] every other field is 0."
fn said(refusal: u32, first: u64, second: u64) -> Said {
    match (refusal, first, second) {
        (0, _, _) => Said::Ok(first, second),
        (number, 0, 0) => Said::No(number),
        (number, _, _) => Said::Odd(number),
    }
}

fn one(answer: Answer) -> Said {
    said(answer.refusal, answer.value, 0)
}

fn two(pair: Pair) -> Said {
    said(pair.refusal, pair.first as u64, pair.second as u64)
}

/// Reading calls that take bytes and nothing else.
macro_rules! reading {
    ($($name:ident: $how:ident($call:ident);)*) => {
        $(pub fn $name(bytes: &[u8]) -> Said {
            $how(unsafe { $call(bytes.as_ptr(), bytes.len()) })
        })*
    };
}

reading! {
    length: one(loughcable_decode_usize);
    from: two(loughcable_payload_info_from);
    info: two(loughcable_payload_info);
    value: two(loughcable_value);
    data: two(loughcable_data);
    read_u8: one(loughcable_u8);
    read_u16: one(loughcable_u16);
    read_u32: one(loughcable_u32);
    read_u64: one(loughcable_u64);
    read_bool: one(loughcable_bool);
    count: one(loughcable_item_count);
    payload: two(loughcable_payload);
    strict: two(loughcable_check);
    items: two(loughcable_check_items);
}

/// `from`, then `total` of what it gave.
pub fn total(bytes: &[u8]) -> Said {
    match from(bytes) {
        Said::Ok(header, value) => total_of(header as usize, value as usize),
        refused => refused,
    }
}

pub fn total_of(header: usize, value: usize) -> Said {
    one(unsafe { loughcable_payload_info_total(header, value) })
}

/// The five `is_*`, each a binary digit.
pub fn flags(bytes: &[u8]) -> Said {
    let calls = [loughcable_is_null, loughcable_is_empty, loughcable_is_list, loughcable_is_data, loughcable_is_int];
    let flags = calls.map(|call| unsafe { call(bytes.as_ptr(), bytes.len()) });
    match flags.iter().all(|flag| *flag < 2) {
        true => Said::one(flags.iter().fold(0, |digits, flag| 2 * digits + u64::from(*flag))),
        false => Said::Odd(0),
    }
}

pub fn size(bytes: &[u8]) -> Said {
    Said::one(unsafe { loughcable_size(bytes.as_ptr(), bytes.len()) } as u64)
}

pub fn prototype(bytes: &[u8]) -> Said {
    let answer = unsafe { loughcable_prototype_of(bytes.as_ptr(), bytes.len()) };
    said(answer.refusal, answer.kind.into(), answer.count as u64)
}

pub fn item_within(bytes: &[u8], from: usize, end: usize) -> Said {
    two(unsafe { loughcable_item_within(bytes.as_ptr(), bytes.len(), from, end) })
}

/// An item of a list, by a walk of steps from the payload's start on.
pub fn by_steps(bytes: &[u8], index: usize) -> Said {
    let Said::Ok(start, len) = payload(bytes) else { return payload(bytes) };
    let (mut from, end) = (start as usize, (start + len) as usize);
    for _ in 0..index {
        match item_within(bytes, from, end) {
            Said::Ok(start, len) => from = (start + len) as usize,
            refused => return refused,
        }
    }
    item_within(bytes, from, end)
}

pub fn at(bytes: &[u8], index: usize) -> Said {
    two(unsafe { loughcable_at(bytes.as_ptr(), bytes.len(), index) })
}

/// A cached place: an index and an offset.
pub type Place = (usize, usize);

/// The place of a view that has none yet: its index is above all that are asked for.
pub const NO_PLACE: Place = (usize::MAX, 0);

/// Item `index` from a place, and the place to hand in next time. "On a refusal index and offset are those handed in."
pub fn at_with_cache(bytes: &[u8], place: Place, index: usize) -> (Said, Place) {
    let found = unsafe { loughcable_at_with_cache(bytes.as_ptr(), bytes.len(), place.0, place.1, index) };
    let right = if found.refusal == 0 { (index, found.start) } else { place };
    match said(found.refusal, found.start as u64, found.len as u64) {
        _ if (found.index, found.offset) != right => (Said::Odd(found.refusal), right),
        answer => (answer, right),
    }
}

/// What can be encoded at the front of a buffer.
pub enum Value {
    Bytes(Vec<u8>),
    U8(u8),
    U16(u16),
    U32(u32),
    U64(u64),
    Bool(u32),
    EmptyData,
    EmptyList,
}

pub fn encode(buffer: &mut [u8], value: &Value) -> Said {
    let (buf, room) = (buffer.as_mut_ptr(), buffer.len());
    one(unsafe {
        match value {
            Value::Bytes(bytes) => loughcable_encode_bytes(buf, room, bytes.as_ptr(), bytes.len()),
            Value::U8(n) => loughcable_encode_u8(buf, room, *n),
            Value::U16(n) => loughcable_encode_u16(buf, room, *n),
            Value::U32(n) => loughcable_encode_u32(buf, room, *n),
            Value::U64(n) => loughcable_encode_u64(buf, room, *n),
            Value::Bool(truth) => loughcable_encode_bool(buf, room, *truth),
            Value::EmptyData => loughcable_encode_empty_data(buf, room),
            Value::EmptyList => loughcable_encode_empty_list(buf, room),
        }
    })
}

pub fn amend(buffer: &mut [u8], n: usize, path: &[usize], replacement: &[u8]) -> Said {
    let (from, length) = (replacement.as_ptr(), replacement.len());
    one(unsafe { loughcable_amend(buffer.as_mut_ptr(), buffer.len(), n, path.as_ptr(), path.len(), from, length) })
}

/// A stream over a buffer of its own, which is lent to each call.
#[derive(Clone, PartialEq)]
pub struct Stream {
    pub state: Vec<u32>,
    pub buffer: Vec<u8>,
}

/// Calls on a stream: those with `state, buffer` alone, and those that take more.
macro_rules! stream {
    ($($name:ident($($argument:ident: $kind:ty),*) = $call:ident($($given:expr),*);)*) => {
        impl Stream {
            $(pub fn $name(&mut self, $($argument: $kind),*) -> Said {
                let Stream { state, buffer } = self;
                let (numbers, bytes) = (state.as_mut_ptr(), buffer.as_mut_ptr());
                one(unsafe { $call(numbers, state.len(), bytes, buffer.len() $(, $given)*) })
            })*
        }
    };
}

stream! {
    new_list(start: u32, most: u32) = loughcable_stream_new_list(start, most);
    append(value: &[u8]) = loughcable_stream_append(value.as_ptr(), value.len());
    append_empty_data() = loughcable_stream_append_empty_data();
    append_u8(n: u8) = loughcable_stream_append_u8(n);
    append_u16(n: u16) = loughcable_stream_append_u16(n);
    append_u32(n: u32) = loughcable_stream_append_u32(n);
    append_u64(n: u64) = loughcable_stream_append_u64(n);
    append_bool(truth: bool) = loughcable_stream_append_bool(truth.into());
    append_raw(raw: &[u8], items: usize) = loughcable_stream_append_raw(raw.as_ptr(), raw.len(), items);
    append_raw_checked(raw: &[u8], items: usize, most: usize) =
        loughcable_stream_append_raw_checked(raw.as_ptr(), raw.len(), items, most);
    begin_list(most: u32) = loughcable_stream_begin_list(most);
    begin_unbounded_list() = loughcable_stream_begin_unbounded_list();
    finalize_unbounded_list() = loughcable_stream_finalize_unbounded_list();
    clear() = loughcable_stream_clear();
    is_finished() = loughcable_stream_is_finished();
    is_empty() = loughcable_stream_is_empty();
    len() = loughcable_stream_len();
    estimate_size(added: usize) = loughcable_stream_estimate_size(added);
    as_raw() = loughcable_stream_as_raw();
    out() = loughcable_stream_out();
}

impl Stream {
    /// "start, end, open lists, then 16 positions, 16 currents, 16 maxima"
    pub fn start(&mut self, start: u32) -> Said {
        one(unsafe { loughcable_stream_new(self.state.as_mut_ptr(), self.state.len(), start) })
    }
}
