//! The stream and the one-shot encoders, by docs/RULES.md: what is written, and that a refusal changes nothing.

use loughcable::{encode, encode_bool, encode_bytes, encode_empty_data, encode_empty_list, encode_u16, encode_u32, encode_u64, encode_u8};
use loughcable::{Encodable, Refusal, RlpStream, EMPTY_LIST_RLP, LEVELS, LIMIT, NULL_RLP};

/// What a buffer of zeros holds after some calls that are all accepted.
fn written(room: usize, calls: impl FnOnce(&mut RlpStream) -> Result<(), Refusal>) -> Vec<u8> {
    let mut buf = vec![0; room];
    let mut s = RlpStream::new(&mut buf);
    calls(&mut s).unwrap();
    s.out().unwrap().to_vec()
}

/// A refused call: the refusal, after it is seen that what is written and how much stayed as it was.
fn refused<T>(s: &mut RlpStream, call: impl FnOnce(&mut RlpStream) -> Result<T, Refusal>) -> Refusal {
    let before = (s.as_raw().map(<[u8]>::to_vec), s.len(), s.is_finished());
    let refusal = call(s).err().expect("a refusal");
    assert_eq!((s.as_raw().map(<[u8]>::to_vec), s.len(), s.is_finished()), before);
    refusal
}

fn bytes_of<E: Encodable + ?Sized>(value: &E) -> Vec<u8> {
    let mut buf = [0xee; 300];
    let n = encode(value, &mut buf).unwrap();
    assert!(buf[n..].iter().all(|&byte| byte == 0xee), "the bytes behind are kept");
    let appended = written(300, |s| s.append(value).map(|_| ()));
    assert_eq!(appended, &buf[..n], "appended and encoded are the same");
    appended
}

#[test]
fn values() {
    assert_eq!(bytes_of(&0u8), NULL_RLP);
    assert_eq!(bytes_of(&0x7fu8), [0x7f]);
    assert_eq!(bytes_of(&0x80u8), [0x81, 0x80]);
    assert_eq!(bytes_of(&0u16), NULL_RLP);
    assert_eq!(bytes_of(&5u16), [0x05]);
    assert_eq!(bytes_of(&1052u16), [0x82, 0x04, 0x1c]);
    assert_eq!(bytes_of(&0x0001_0000u32), [0x83, 0x01, 0x00, 0x00]);
    assert_eq!(bytes_of(&u32::MAX), [0x84, 0xff, 0xff, 0xff, 0xff]);
    assert_eq!(bytes_of(&1_794_700_800_000u64), [0x86, 0x01, 0xa1, 0xdc, 0x80, 0xf0, 0x00]);
    assert_eq!(bytes_of(&u64::MAX), [0x88, 0xff, 0xff, 0xff, 0xff, 0xff, 0xff, 0xff, 0xff]);
    assert_eq!(bytes_of(&256usize), [0x82, 0x01, 0x00]);
    assert_eq!(bytes_of(&true), [0x01]);
    assert_eq!(bytes_of(&false), [0x80]);
    assert_eq!(bytes_of("cat"), b"\x83cat");
    assert_eq!(bytes_of(&"cat"), b"\x83cat");
    assert_eq!(bytes_of(b"cat"), b"\x83cat");
    assert_eq!(bytes_of(&b"cat"[..]), b"\x83cat");
    assert_eq!(bytes_of(""), NULL_RLP);
    assert_eq!(bytes_of(&[0x00u8]), [0x00], "one byte 00 is a string, and no number");
}

#[test]
fn lengths_where_the_form_changes() {
    assert_eq!(bytes_of(&[0x2a; 55][..]), [&[0xb7][..], &[0x2a; 55]].concat());
    assert_eq!(bytes_of(&[0x2a; 56][..]), [&[0xb8, 0x38][..], &[0x2a; 56]].concat());
    assert_eq!(bytes_of(&[0x2a; 256][..]), [&[0xb9, 0x01, 0x00][..], &[0x2a; 256]].concat());
    for (items, header) in [(55, &[0xf7][..]), (56, &[0xf8, 0x38]), (255, &[0xf8, 0xff]), (256, &[0xf9, 0x01, 0x00])] {
        let list = written(300, |s| {
            s.begin_list(items)?;
            (0..items).try_for_each(|_| s.append(&1u8).map(|_| ()))
        });
        assert_eq!(list, [header, &vec![0x01; items]].concat());
    }
}

#[test]
fn the_encoders_one_by_one() {
    let mut buf = [0; 9];
    assert_eq!((encode_bytes(b"cat", &mut buf), &buf[..4]), (Ok(4), &b"\x83cat"[..]));
    assert_eq!((encode_u8(0x80, &mut buf), &buf[..2]), (Ok(2), &[0x81, 0x80][..]));
    assert_eq!((encode_u16(0x0100, &mut buf), &buf[..3]), (Ok(3), &[0x82, 0x01, 0x00][..]));
    assert_eq!((encode_u32(7, &mut buf), buf[0]), (Ok(1), 0x07));
    assert_eq!((encode_u64(u64::MAX, &mut buf), buf[0], buf[8]), (Ok(9), 0x88, 0xff));
    assert_eq!((encode_bool(true, &mut buf), buf[0]), (Ok(1), 0x01));
    assert_eq!((encode_empty_data(&mut buf), buf[0]), (Ok(1), NULL_RLP[0]));
    assert_eq!((encode_empty_list(&mut buf), buf[0]), (Ok(1), EMPTY_LIST_RLP[0]));
}

#[test]
fn the_encoders_refuse() {
    let mut buf = [0xee; 3];
    assert_eq!(encode("cat", &mut buf), Err(Refusal::NoRoom));
    assert_eq!(encode(&u64::MAX, &mut buf), Err(Refusal::NoRoom));
    assert_eq!(buf, [0xee; 3]);
    assert_eq!(encode_empty_list(&mut []), Err(Refusal::NoRoom));
    assert_eq!(encode(&true, &mut vec![0; LIMIT + 1]), Err(Refusal::TooLarge));
    assert_eq!(encode(&vec![0; LIMIT + 1][..], &mut [0; 8]), Err(Refusal::TooLarge));
}

#[test]
fn the_examples_of_the_crate_rlp() {
    let two_nulls = written(8, |s| s.begin_list(2)?.append_empty_data()?.append_empty_data().map(|_| ()));
    assert_eq!(two_nulls, [0xc2, 0x80, 0x80]);
    let nested = written(16, |s| {
        s.begin_list(2)?.begin_list(2)?.append(&"cat")?.append(&"dog")?;
        s.append(&"")?;
        Ok(())
    });
    assert_eq!(nested, b"\xca\xc8\x83cat\x83dog\x80");
    let cleared = written(8, |s| {
        s.begin_list(3)?.append(&"cat")?;
        s.clear()?;
        s.append(&"dog")?;
        Ok(())
    });
    assert_eq!(cleared, b"\x83dog");
}

#[test]
fn a_list_that_begins_with_the_stream() {
    let mut buf = [0; 16];
    let mut s = RlpStream::new_list(&mut buf, 2).unwrap();
    s.append("cat").unwrap();
    assert_eq!((s.is_finished(), s.as_raw()), (Ok(false), Ok(&b"\x00\x83cat"[..])));
    s.append("dog").unwrap();
    assert_eq!((s.is_finished(), s.out()), (Ok(true), Ok(&b"\xc8\x83cat\x83dog"[..])));
    assert_eq!(RlpStream::new_list(&mut buf, 0).unwrap().out(), Ok(&EMPTY_LIST_RLP[..]));
}

#[test]
fn three_lists_that_fill_at_once() {
    let lists = written(8, |s| s.begin_list(1)?.begin_list(1)?.begin_list(1)?.append(&5u8).map(|_| ()));
    assert_eq!(lists, [0xc3, 0xc2, 0xc1, 0x05]);
}

#[test]
fn unbounded_lists_among_counted_ones() {
    let lists = written(16, |s| {
        s.begin_list(2)?.begin_unbounded_list()?.begin_list(0)?.append(&true)?.finalize_unbounded_list()?;
        s.append(&false)?;
        Ok(())
    });
    assert_eq!(lists, [0xc4, 0xc2, 0xc0, 0x01, 0x80]);
}

#[test]
fn items_side_by_side() {
    assert_eq!(written(8, |s| s.append(&1u8)?.append("cat")?.begin_list(0).map(|_| ())), b"\x01\x83cat\xc0");
}

#[test]
fn a_stream_that_starts_later() {
    let mut buf = [0xee; 10];
    let mut s = RlpStream::new_at(&mut buf, 3);
    assert_eq!((s.is_empty(), s.len(), s.as_raw()), (Ok(true), Ok(0), Ok(&[0xee; 3][..])));
    s.begin_list(1).unwrap().append("cat").unwrap();
    assert_eq!((s.is_empty(), s.len()), (Ok(false), Ok(5)));
    assert_eq!(s.out(), Ok(&b"\xee\xee\xee\xc4\x83cat"[..]));
    assert_eq!(&buf, b"\xee\xee\xee\xc4\x83cat\xee\xee");
    let mut s = RlpStream::new_list_at(&mut buf, 9, 1).unwrap();
    assert_eq!(refused(&mut s, |s| s.append(&1u8).map(|_| ())), Refusal::NoRoom);
}

#[test]
fn a_stream_that_starts_beyond_its_buffer() {
    for start in [5, LIMIT + 1, u32::MAX as usize, 1 << 32, usize::MAX] {
        let mut buf = [0xee; 4];
        let mut s = RlpStream::new_at(&mut buf, start);
        let refusals = [
            s.append(&1u8).map(|_| ()),
            s.append("cat").map(|_| ()),
            s.append_empty_data().map(|_| ()),
            s.append_raw(&[0x05], 1).map(|_| ()),
            s.append_raw_checked(&[0x05], 1, 0).map(|_| ()),
            s.begin_list(1).map(|_| ()),
            s.begin_unbounded_list().map(|_| ()),
            s.finalize_unbounded_list().map(|_| ()),
            s.clear().map(|_| ()),
            s.is_finished().map(|_| ()),
            s.is_empty().map(|_| ()),
            s.len().map(|_| ()),
            s.estimate_size(0).map(|_| ()),
            s.as_raw().map(|_| ()),
            s.out().map(|_| ()),
        ];
        assert_eq!(refusals, [Err(Refusal::StateMismatch); 15]);
        assert_eq!(RlpStream::new_list_at(&mut buf, start, 1).unwrap_err(), Refusal::StateMismatch);
        assert_eq!(buf, [0xee; 4]);
    }
}

#[test]
fn a_stream_that_starts_at_its_buffers_end() {
    let mut buf = [0xee; 4];
    let mut s = RlpStream::new_at(&mut buf, 4);
    assert_eq!(s.out(), Ok(&[0xee; 4][..]));
    assert_eq!(refused(&mut s, |s| s.append(&1u8).map(|_| ())), Refusal::NoRoom);
}

#[test]
fn buffers_and_strings_over_the_limit() {
    let mut buf = vec![0; LIMIT + 1];
    let mut s = RlpStream::new(&mut buf);
    assert_eq!(s.append(&1u8).unwrap_err(), Refusal::TooLarge);
    assert_eq!(s.len(), Err(Refusal::TooLarge));
    assert_eq!(RlpStream::new_at(&mut buf, usize::MAX).len(), Err(Refusal::TooLarge), "12 comes before 20");
    assert_eq!(RlpStream::new_list(&mut buf, 1).unwrap_err(), Refusal::TooLarge);
    let mut small = [0; 8];
    let mut s = RlpStream::new(&mut small);
    let large = vec![0; LIMIT + 1];
    assert_eq!(refused(&mut s, |s| s.append(&large[..]).map(|_| ())), Refusal::TooLarge);
    assert_eq!(refused(&mut s, |s| s.append_raw(&large, 1).map(|_| ())), Refusal::TooLarge);
    assert_eq!(s.estimate_size(LIMIT), Ok(LIMIT));
    assert_eq!(s.estimate_size(LIMIT + 1), Err(Refusal::TooLarge));
    assert_eq!(s.estimate_size(usize::MAX), Err(Refusal::TooLarge));
}

#[test]
fn the_whole_limit_is_there_to_be_written() {
    let mut buf = vec![0; LIMIT];
    let mut s = RlpStream::new(&mut buf);
    s.append(&vec![0x2a; LIMIT - 4][..]).unwrap();
    assert_eq!((s.len(), &s.out().unwrap()[..4]), (Ok(LIMIT), &[0xba, 0x0f, 0xff, 0xfc][..]));
    assert_eq!(refused(&mut s, |s| s.append_empty_data().map(|_| ())), Refusal::NoRoom);
}

#[test]
fn room_for_the_headers_of_lists_that_close() {
    let fifty_six = [0x01; 56];
    let mut buf = [0; 58];
    let mut s = RlpStream::new_list(&mut buf[..57], 57).unwrap();
    s.append_raw(&fifty_six, 56).unwrap();
    assert_eq!(refused(&mut s, |s| s.append(&1u8).map(|_| ())), Refusal::NoRoom);
    let mut s = RlpStream::new_list(&mut buf[..57], 56).unwrap();
    assert_eq!(refused(&mut s, |s| s.append_raw(&fifty_six, 56).map(|_| ())), Refusal::NoRoom, "two bytes of header and 56");
    let mut s = RlpStream::new_list(&mut buf, 56).unwrap();
    s.append_raw(&fifty_six, 56).unwrap();
    assert_eq!(s.out().unwrap(), [&[0xf8, 0x38][..], &fifty_six].concat());
}

#[test]
fn a_refused_call_leaves_the_buffer() {
    let mut buf = [0xee; 5];
    let mut s = RlpStream::new(&mut buf);
    s.append(&1u8).unwrap();
    assert_eq!(refused(&mut s, |s| s.append("barley").map(|_| ())), Refusal::NoRoom);
    assert_eq!(refused(&mut s, |s| s.append_raw(&[0x01, 0x81], 2).map(|_| ())), Refusal::RlpIsTooShort);
    s.append(&2u8).unwrap();
    assert_eq!(buf, [0x01, 0x02, 0xee, 0xee, 0xee]);
}

#[test]
fn sixteen_open_lists_and_no_more() {
    let mut buf = [0; 32];
    let mut s = RlpStream::new(&mut buf);
    for _ in 0..LEVELS {
        s.begin_list(1).unwrap();
    }
    assert_eq!(refused(&mut s, |s| s.begin_list(1).map(|_| ())), Refusal::TooDeep);
    assert_eq!(refused(&mut s, |s| s.begin_list(0).map(|_| ())), Refusal::TooDeep);
    assert_eq!(refused(&mut s, |s| s.begin_unbounded_list().map(|_| ())), Refusal::TooDeep);
    assert_eq!(refused(&mut s, |s| s.append_raw(&[0xc0], 1).map(|_| ())), Refusal::TooDeep);
    s.append_empty_data().unwrap();
    assert_eq!(s.out().unwrap(), [&(0xc1..=0xd0).rev().collect::<Vec<u8>>()[..], &[0x80]].concat());
}

#[test]
fn raw_items() {
    let mut buf = [0; 16];
    let mut s = RlpStream::new_list(&mut buf, 2).unwrap();
    let mut raw = |bytes: &[u8], items| refused(&mut s, |s| s.append_raw(bytes, items).map(|_| ()));
    assert_eq!(raw(&[0x81, 0x05], 1), Refusal::RlpInvalidIndirection);
    assert_eq!(raw(&[0x81], 0), Refusal::RlpIsTooShort);
    assert_eq!(raw(&[], 1), Refusal::CountMismatch);
    assert_eq!(raw(&[0x05], 2), Refusal::CountMismatch);
    assert_eq!(raw(&[0x05, 0x06, 0x07], 3), Refusal::TooManyItems);
    assert_eq!(raw(&[0x05], usize::MAX), Refusal::CountMismatch);
    s.append_raw(&[], 0).unwrap().append_raw(b"\x83cat\xc0", 2).unwrap();
    assert_eq!(s.out(), Ok(&b"\xc5\x83cat\xc0"[..]));
}

#[test]
fn raw_items_up_to_a_size() {
    let mut buf = [0; 16];
    let mut s = RlpStream::new_list(&mut buf, 2).unwrap();
    assert_eq!(s.append_raw_checked(b"\x83cat", 1, 4), Ok(false), "the reserved byte counts");
    assert_eq!(s.as_raw(), Ok(&[0x00][..]));
    assert_eq!(s.append_raw_checked(b"\x83cat", 1, 5), Ok(true));
    assert_eq!(s.append_raw_checked(&[0x81], 9, 5), Ok(false), "bytes that would be too many are not read");
    assert_eq!(s.append_raw_checked(&[0x81], 9, 6), Err(Refusal::RlpIsTooShort));
    assert_eq!(s.append_raw_checked(&[0x05], 1, 6), Ok(true));
    assert_eq!(s.out(), Ok(&b"\xc5\x83cat\x05"[..]));
}

#[test]
fn lists_that_cannot_be_finished() {
    let mut buf = [0; 4];
    let mut s = RlpStream::new(&mut buf);
    assert_eq!(refused(&mut s, |s| s.finalize_unbounded_list().map(|_| ())), Refusal::NoOpenList);
    s.begin_list(1).unwrap();
    assert_eq!(refused(&mut s, |s| s.finalize_unbounded_list().map(|_| ())), Refusal::ListTypeMismatch);
    assert_eq!(s.out(), Err(Refusal::Unfinished));
}

#[test]
fn a_list_of_more_items_than_any_buffer_holds() {
    for len in [LIMIT + 1, u32::MAX as usize, 1 << 32, usize::MAX] {
        let mut buf = [0; 4];
        let mut s = RlpStream::new(&mut buf);
        s.begin_list(len).unwrap().append(&1u8).unwrap().append(&2u8).unwrap().append(&3u8).unwrap();
        assert_eq!((s.is_finished(), s.as_raw()), (Ok(false), Ok(&[0x00, 0x01, 0x02, 0x03][..])));
    }
}

#[test]
fn sizes_with_open_lists() {
    let mut buf = [0; 300];
    let mut s = RlpStream::new(&mut buf);
    s.begin_unbounded_list().unwrap().begin_unbounded_list().unwrap();
    s.append_raw(&[0x01; 254], 254).unwrap();
    assert_eq!((s.as_raw().unwrap().len(), s.len()), (256, Ok(258)));
    assert_eq!(s.estimate_size(2), Ok(2 + 256 + 2 + 2));
    s.finalize_unbounded_list().unwrap().finalize_unbounded_list().unwrap();
    assert_eq!(s.out().unwrap().len(), 259);
}
