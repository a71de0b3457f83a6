//! The library's C interface: its answers, its declarations, and for each call a function that is safe to call. All unsafe code is here.
//!
//! Each call is sound for the same reasons. Where the library reads, pointer and length are those of a shared slice; where it writes, those of
//! an exclusively borrowed one. So they are valid and aligned (of an empty slice no byte is touched), no two of them overlap if one is written
//! to, and they stay so until the call has returned: the library keeps none of them. Its functions have no precondition but this one: each is
//! proved to end with its answer, and to read and write inside the lent slices alone, for every content and length. Answers are plain structs
//! that own nothing. The declarations are those of `c/loughcable.h`, which `rust/declarations` compares.

#![allow(unsafe_code)]

use crate::refusal::{accepted, Refusal};

/// How many numbers the state of a stream has.
pub const STATE: usize = 51;

/// A number.
#[repr(C)]
pub struct Answer {
    pub refusal: u32,
    pub value: u64,
}

/// An item's header and value lengths.
#[repr(C)]
pub struct Info {
    pub refusal: u32,
    pub header_len: usize,
    pub value_len: usize,
}

/// A part of the bytes that were lent.
#[repr(C)]
pub struct Place {
    pub refusal: u32,
    pub start: usize,
    pub len: usize,
}

/// The same, with the place to hand in next time.
#[repr(C)]
pub struct Found {
    pub refusal: u32,
    pub start: usize,
    pub len: usize,
    pub index: usize,
    pub offset: usize,
}

/// What an item is.
#[repr(C)]
pub struct Prototype {
    pub refusal: u32,
    pub kind: u32,
    pub count: usize,
}

/// How many items, and how many levels.
#[repr(C)]
pub struct Tally {
    pub refusal: u32,
    pub items: usize,
    pub depth: usize,
}

// The sizes that the C example asserts of the header's structs.
const _: () = {
    use core::mem::size_of;
    assert!(size_of::<Answer>() == 16 && size_of::<Info>() == 24 && size_of::<Place>() == 24);
    assert!(size_of::<Found>() == 40 && size_of::<Prototype>() == 16 && size_of::<Tally>() == 24);
};

impl Answer {
    #[inline(always)]
    pub fn result(self) -> Result<u64, Refusal> {
        accepted(self.refusal).map(|()| self.value)
    }
}

#[rustfmt::skip]
extern "C" {
    fn loughcable_decode_usize(bytes: *const u8, len: usize) -> Answer;
    fn loughcable_payload_info_from(bytes: *const u8, len: usize) -> Info;
    fn loughcable_payload_info(bytes: *const u8, len: usize) -> Info;
    fn loughcable_payload_info_total(header_len: usize, value_len: usize) -> Answer;
    fn loughcable_value(bytes: *const u8, len: usize) -> Place;
    fn loughcable_data(bytes: *const u8, len: usize) -> Place;
    fn loughcable_u8(bytes: *const u8, len: usize) -> Answer;
    fn loughcable_u16(bytes: *const u8, len: usize) -> Answer;
    fn loughcable_u32(bytes: *const u8, len: usize) -> Answer;
    fn loughcable_u64(bytes: *const u8, len: usize) -> Answer;
    fn loughcable_bool(bytes: *const u8, len: usize) -> Answer;
    fn loughcable_is_null(bytes: *const u8, len: usize) -> u32;
    fn loughcable_is_empty(bytes: *const u8, len: usize) -> u32;
    fn loughcable_is_list(bytes: *const u8, len: usize) -> u32;
    fn loughcable_is_data(bytes: *const u8, len: usize) -> u32;
    fn loughcable_is_int(bytes: *const u8, len: usize) -> u32;
    fn loughcable_size(bytes: *const u8, len: usize) -> usize;
    fn loughcable_prototype_of(bytes: *const u8, len: usize) -> Prototype;
    fn loughcable_item_count(bytes: *const u8, len: usize) -> Answer;
    fn loughcable_at(bytes: *const u8, len: usize, index: usize) -> Place;
    fn loughcable_at_with_cache(bytes: *const u8, len: usize, cached_index: usize, cached_offset: usize, index: usize) -> Found;
    fn loughcable_payload(bytes: *const u8, len: usize) -> Place;
    fn loughcable_item_within(bytes: *const u8, len: usize, from: usize, end: usize) -> Place;
    fn loughcable_check(bytes: *const u8, len: usize) -> Tally;
    fn loughcable_check_items(bytes: *const u8, len: usize) -> Tally;
    fn loughcable_encode_bytes(buf: *mut u8, buf_len: usize, src: *const u8, src_len: usize) -> Answer;
    fn loughcable_encode_u8(buf: *mut u8, buf_len: usize, n: u8) -> Answer;
    fn loughcable_encode_u16(buf: *mut u8, buf_len: usize, n: u16) -> Answer;
    fn loughcable_encode_u32(buf: *mut u8, buf_len: usize, n: u32) -> Answer;
    fn loughcable_encode_u64(buf: *mut u8, buf_len: usize, n: u64) -> Answer;
    fn loughcable_encode_bool(buf: *mut u8, buf_len: usize, truth: u32) -> Answer;
    fn loughcable_encode_empty_data(buf: *mut u8, buf_len: usize) -> Answer;
    fn loughcable_encode_empty_list(buf: *mut u8, buf_len: usize) -> Answer;
    fn loughcable_stream_new(state: *mut u32, state_len: usize, start: u32) -> Answer;
    fn loughcable_stream_new_list(state: *mut u32, state_len: usize, buf: *mut u8, buf_len: usize, start: u32, most: u32) -> Answer;
    fn loughcable_stream_append(state: *mut u32, state_len: usize, buf: *mut u8, buf_len: usize, src: *const u8, src_len: usize) -> Answer;
    fn loughcable_stream_append_empty_data(state: *mut u32, state_len: usize, buf: *mut u8, buf_len: usize) -> Answer;
    fn loughcable_stream_append_u8(state: *mut u32, state_len: usize, buf: *mut u8, buf_len: usize, n: u8) -> Answer;
    fn loughcable_stream_append_u16(state: *mut u32, state_len: usize, buf: *mut u8, buf_len: usize, n: u16) -> Answer;
    fn loughcable_stream_append_u32(state: *mut u32, state_len: usize, buf: *mut u8, buf_len: usize, n: u32) -> Answer;
    fn loughcable_stream_append_u64(state: *mut u32, state_len: usize, buf: *mut u8, buf_len: usize, n: u64) -> Answer;
    fn loughcable_stream_append_bool(state: *mut u32, state_len: usize, buf: *mut u8, buf_len: usize, truth: u32) -> Answer;
    fn loughcable_stream_append_raw(state: *mut u32, state_len: usize, buf: *mut u8, buf_len: usize, src: *const u8, src_len: usize, items: usize) -> Answer;
    fn loughcable_stream_append_raw_checked(state: *mut u32, state_len: usize, buf: *mut u8, buf_len: usize, src: *const u8, src_len: usize, items: usize, most: usize) -> Answer;
    fn loughcable_stream_begin_list(state: *mut u32, state_len: usize, buf: *mut u8, buf_len: usize, most: u32) -> Answer;
    fn loughcable_stream_begin_unbounded_list(state: *mut u32, state_len: usize, buf: *mut u8, buf_len: usize) -> Answer;
    fn loughcable_stream_finalize_unbounded_list(state: *mut u32, state_len: usize, buf: *mut u8, buf_len: usize) -> Answer;
    fn loughcable_stream_clear(state: *mut u32, state_len: usize, buf: *const u8, buf_len: usize) -> Answer;
    fn loughcable_stream_is_finished(state: *const u32, state_len: usize, buf: *const u8, buf_len: usize) -> Answer;
    fn loughcable_stream_is_empty(state: *const u32, state_len: usize, buf: *const u8, buf_len: usize) -> Answer;
    fn loughcable_stream_len(state: *const u32, state_len: usize, buf: *const u8, buf_len: usize) -> Answer;
    fn loughcable_stream_estimate_size(state: *const u32, state_len: usize, buf: *const u8, buf_len: usize, n: usize) -> Answer;
    fn loughcable_stream_as_raw(state: *const u32, state_len: usize, buf: *const u8, buf_len: usize) -> Answer;
    fn loughcable_stream_out(state: *const u32, state_len: usize, buf: *const u8, buf_len: usize) -> Answer;
    fn loughcable_amend(buf: *mut u8, buf_len: usize, n: usize, path: *const usize, path_len: usize, replacement: *const u8, replacement_len: usize) -> Answer;
}

/// Calls that read one slice.
macro_rules! reads {
    ($($name:ident = $call:ident($($more:ident: $kind:ty),*) -> $answer:ty;)*) => {$(
        #[inline(always)]
        pub fn $name(bytes: &[u8] $(, $more: $kind)*) -> $answer {
            // SAFETY: pointer and length are those of a shared slice, which the library reads and does not keep.
            unsafe { $call(bytes.as_ptr(), bytes.len() $(, $more)*) }
        }
    )*};
}

reads! {
    decode_usize = loughcable_decode_usize() -> Answer;
    payload_info_from = loughcable_payload_info_from() -> Info;
    payload_info = loughcable_payload_info() -> Info;
    value = loughcable_value() -> Place;
    data = loughcable_data() -> Place;
    decode_u8 = loughcable_u8() -> Answer;
    decode_u16 = loughcable_u16() -> Answer;
    decode_u32 = loughcable_u32() -> Answer;
    decode_u64 = loughcable_u64() -> Answer;
    decode_bool = loughcable_bool() -> Answer;
    is_null = loughcable_is_null() -> u32;
    is_empty = loughcable_is_empty() -> u32;
    is_list = loughcable_is_list() -> u32;
    is_data = loughcable_is_data() -> u32;
    is_int = loughcable_is_int() -> u32;
    size = loughcable_size() -> usize;
    prototype_of = loughcable_prototype_of() -> Prototype;
    item_count = loughcable_item_count() -> Answer;
    at = loughcable_at(index: usize) -> Place;
    at_with_cache = loughcable_at_with_cache(cached_index: usize, cached_offset: usize, index: usize) -> Found;
    payload = loughcable_payload() -> Place;
    item_within = loughcable_item_within(from: usize, end: usize) -> Place;
    check = loughcable_check() -> Tally;
    check_items = loughcable_check_items() -> Tally;
}

#[inline(always)]
pub fn payload_info_total(header_len: usize, value_len: usize) -> Answer {
    // SAFETY: only numbers are handed in.
    unsafe { loughcable_payload_info_total(header_len, value_len) }
}

/// Calls that write one value to the front of a buffer.
macro_rules! writes {
    ($($name:ident = $call:ident($($value:ident: $kind:ty)?);)*) => {$(
        #[inline(always)]
        pub fn $name(buf: &mut [u8] $(, $value: $kind)?) -> Answer {
            // SAFETY: pointer and length are those of an exclusively borrowed slice, the rest is a number.
            unsafe { $call(buf.as_mut_ptr(), buf.len() $(, $value)?) }
        }
    )*};
}

writes! {
    encode_u8 = loughcable_encode_u8(n: u8);
    encode_u16 = loughcable_encode_u16(n: u16);
    encode_u32 = loughcable_encode_u32(n: u32);
    encode_u64 = loughcable_encode_u64(n: u64);
    encode_bool = loughcable_encode_bool(truth: u32);
    encode_empty_data = loughcable_encode_empty_data();
    encode_empty_list = loughcable_encode_empty_list();
}

#[inline(always)]
pub fn encode_bytes(buf: &mut [u8], src: &[u8]) -> Answer {
    // SAFETY: the slice that is written to is borrowed exclusively, so that `src`, a shared one, does not overlap it.
    unsafe { loughcable_encode_bytes(buf.as_mut_ptr(), buf.len(), src.as_ptr(), src.len()) }
}

#[inline(always)]
pub fn stream_new(state: &mut [u32; STATE], start: u32) -> Answer {
    // SAFETY: pointer and length are those of an exclusively borrowed array.
    unsafe { loughcable_stream_new(state.as_mut_ptr(), STATE, start) }
}

/// Calls that write to a stream: to its state and to its buffer.
macro_rules! streams {
    ($($name:ident = $call:ident($($more:ident: $kind:ty),*);)*) => {$(
        #[inline(always)]
        pub fn $name(state: &mut [u32; STATE], buf: &mut [u8] $(, $more: $kind)*) -> Answer {
            // SAFETY: both are borrowed exclusively, so that they do not overlap, and the rest are numbers.
            unsafe { $call(state.as_mut_ptr(), STATE, buf.as_mut_ptr(), buf.len() $(, $more)*) }
        }
    )*};
}

streams! {
    stream_new_list = loughcable_stream_new_list(start: u32, most: u32);
    stream_append_empty_data = loughcable_stream_append_empty_data();
    stream_append_u8 = loughcable_stream_append_u8(n: u8);
    stream_append_u16 = loughcable_stream_append_u16(n: u16);
    stream_append_u32 = loughcable_stream_append_u32(n: u32);
    stream_append_u64 = loughcable_stream_append_u64(n: u64);
    stream_append_bool = loughcable_stream_append_bool(truth: u32);
    stream_begin_list = loughcable_stream_begin_list(most: u32);
    stream_begin_unbounded_list = loughcable_stream_begin_unbounded_list();
    stream_finalize_unbounded_list = loughcable_stream_finalize_unbounded_list();
}

/// Calls that write to a stream what a shared slice holds.
macro_rules! streams_from {
    ($($name:ident = $call:ident($($more:ident: $kind:ty),*);)*) => {$(
        #[inline(always)]
        pub fn $name(state: &mut [u32; STATE], buf: &mut [u8], src: &[u8] $(, $more: $kind)*) -> Answer {
            // SAFETY: state and buffer are borrowed exclusively, so that neither overlaps the other or `src`, a shared slice.
            unsafe { $call(state.as_mut_ptr(), STATE, buf.as_mut_ptr(), buf.len(), src.as_ptr(), src.len() $(, $more)*) }
        }
    )*};
}

streams_from! {
    stream_append = loughcable_stream_append();
    stream_append_raw = loughcable_stream_append_raw(items: usize);
    stream_append_raw_checked = loughcable_stream_append_raw_checked(items: usize, most: usize);
}

#[inline(always)]
pub fn stream_clear(state: &mut [u32; STATE], buf: &[u8]) -> Answer {
    // SAFETY: the state is borrowed exclusively, and the buffer, a shared slice, is only read.
    unsafe { loughcable_stream_clear(state.as_mut_ptr(), STATE, buf.as_ptr(), buf.len()) }
}

/// Calls that look at a stream.
macro_rules! looks {
    ($($name:ident = $call:ident($($more:ident: $kind:ty)?);)*) => {$(
        #[inline(always)]
        pub fn $name(state: &[u32; STATE], buf: &[u8] $(, $more: $kind)?) -> Answer {
            // SAFETY: pointers and lengths are those of shared slices, which the library only reads.
            unsafe { $call(state.as_ptr(), STATE, buf.as_ptr(), buf.len() $(, $more)?) }
        }
    )*};
}

looks! {
    stream_is_finished = loughcable_stream_is_finished();
    stream_is_empty = loughcable_stream_is_empty();
    stream_len = loughcable_stream_len();
    stream_estimate_size = loughcable_stream_estimate_size(n: usize);
    stream_as_raw = loughcable_stream_as_raw();
    stream_out = loughcable_stream_out();
}

#[inline(always)]
pub fn amend(buf: &mut [u8], n: usize, path: &[usize], replacement: &[u8]) -> Answer {
    // SAFETY: the buffer is borrowed exclusively, so that it overlaps neither path nor replacement, which are shared slices.
    unsafe { loughcable_amend(buf.as_mut_ptr(), buf.len(), n, path.as_ptr(), path.len(), replacement.as_ptr(), replacement.len()) }
}
