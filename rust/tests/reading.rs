//! Reading: headers, values and lists by docs/RULES.md, the departures from the crate rlp, and the walk over damage.

use loughcable::{decode, decode_usize, Decodable, PayloadInfo, Prototype, Refusal, Rlp};

fn lengths(info: Result<PayloadInfo, Refusal>) -> Result<(usize, usize), Refusal> {
    info.map(|info| (info.header_len, info.value_len))
}

/// What a walk gives: each item's bytes, and the refusal at its end if there is one.
fn walked(bytes: &[u8]) -> (Vec<&[u8]>, Option<Refusal>) {
    let mut items = Vec::new();
    let mut refused = None;
    let mut walk = Rlp::new(bytes).iter();
    for item in walk.by_ref() {
        assert_eq!(refused, None, "a refusal is the last");
        match item {
            Ok(item) => items.push(item.as_raw()),
            Err(refusal) => refused = Some(refusal),
        }
    }
    assert!(walk.next().is_none());
    (items, refused)
}

#[test]
fn headers() {
    let from = |bytes: &[u8]| lengths(PayloadInfo::from(bytes));
    assert_eq!(from(&[0x7f]), Ok((0, 1)));
    assert_eq!(from(&[0x80]), Ok((1, 0)));
    assert_eq!(from(&[0xb7]), Ok((1, 55)));
    assert_eq!(from(&[0xb8, 0x38]), Ok((2, 56)));
    assert_eq!(from(&[0xc0]), Ok((1, 0)));
    assert_eq!(from(&[0xf7]), Ok((1, 55)));
    assert_eq!(from(&[0xf9, 0x01, 0x00]), Ok((3, 256)));
    assert_eq!(from(&[]), Err(Refusal::RlpIsTooShort));
    assert_eq!(from(&[0xb8]), Err(Refusal::RlpIsTooShort));
    assert_eq!(from(&[0xb9, 0x01]), Err(Refusal::RlpIsTooShort));
    assert_eq!(from(&[0xb9, 0x00]), Err(Refusal::RlpDataLenWithZeroPrefix));
    assert_eq!(from(&[0xb8, 0x37]), Err(Refusal::RlpInvalidIndirection));
}

#[test]
fn headers_of_whole_items() {
    let info = |bytes: &[u8]| lengths(Rlp::new(bytes).payload_info());
    assert_eq!(info(&[0x81, 0x05]), Ok((1, 1)));
    assert_eq!(info(&[0x81]), Err(Refusal::RlpIsTooShort));
    assert_eq!(info(&[0xbf, 0xff, 0xff, 0xff, 0xff, 0xff, 0xff, 0xff, 0xff]), Err(Refusal::RlpIsTooShort));
}

#[test]
fn header_and_value_together() {
    let largest = PayloadInfo::from(&[0xbf, 0xff, 0xff, 0xff, 0xff, 0xff, 0xff, 0xff, 0xf6]).unwrap();
    assert_eq!(largest.total(), Ok(usize::MAX));
    let larger = PayloadInfo::from(&[0xbf, 0xff, 0xff, 0xff, 0xff, 0xff, 0xff, 0xff, 0xf7]).unwrap();
    assert_eq!(larger.total(), Err(Refusal::RlpIsTooShort));
}

#[test]
fn length_bytes() {
    assert_eq!(decode_usize(&[0xff; 8]), Ok(usize::MAX));
    assert_eq!(decode_usize(&[0xff; 9]), Err(Refusal::RlpIsTooBig));
    assert_eq!(decode_usize(&[0x00]), Err(Refusal::RlpInvalidIndirection));
    assert_eq!(decode_usize(&[]), Err(Refusal::RlpIsTooShort));
}

#[test]
fn strings() {
    let long = [&[0xb8, 56][..], &[0x2a; 56], &[0x99]].concat();
    assert_eq!(decode(&long), Ok(&[0x2a; 56][..]));
    assert_eq!(decode(&[0x00]), Ok(&[0x00][..]));
    assert_eq!(decode(&[0x80, 0x05]), Ok(&[][..]));
    assert_eq!(decode(&[0xb8, 0x01, 0x05]), Ok(&[0x05][..]), "a long form of 55 or less is not refused here");
    let refused = |bytes| decode::<&[u8]>(bytes).unwrap_err();
    assert_eq!(refused(&[]), Refusal::RlpIsTooShort);
    assert_eq!(refused(&[0x83, 0x01, 0x02]), Refusal::RlpInconsistentLengthAndData);
    assert_eq!(refused(&[0x81, 0x7f]), Refusal::RlpInvalidIndirection);
    assert_eq!(refused(&[0xb9, 0x01]), Refusal::RlpInconsistentLengthAndData);
    assert_eq!(refused(&[0xb8, 0x00]), Refusal::RlpInvalidIndirection);
    assert_eq!(refused(&[0xb8, 0x38, 0x01]), Refusal::RlpInconsistentLengthAndData);
    assert_eq!(refused(&[0xc0]), Refusal::RlpExpectedToBeData);
}

#[test]
fn text() {
    assert_eq!(decode(b"\x83cat"), Ok("cat"));
    assert_eq!(decode::<&str>(&[0x81, 0xff]), Err(Refusal::RlpExpectedToBeData));
    assert_eq!(decode::<&str>(&[0xc0]), Err(Refusal::RlpExpectedToBeData));
}

#[test]
fn numbers_from_their_shortest_bytes() {
    assert_eq!(decode::<u8>(&[0x80]), Ok(0));
    assert_eq!(decode::<u8>(&[0x7f]), Ok(127));
    assert_eq!(decode::<u8>(&[0x81, 0xff]), Ok(255));
    assert_eq!(decode::<u16>(&[0x82, 0x04, 0x1c]), Ok(1052));
    assert_eq!(decode::<u32>(&[0x84, 0xff, 0xff, 0xff, 0xff]), Ok(u32::MAX));
    assert_eq!(decode::<u64>(&[0x86, 0x01, 0xa1, 0xdc, 0x80, 0xf0, 0x00]), Ok(1_794_700_800_000));
    assert_eq!(decode::<u64>(&[0x88, 0xff, 0xff, 0xff, 0xff, 0xff, 0xff, 0xff, 0xff]), Ok(u64::MAX));
    assert_eq!(decode::<usize>(&[0x82, 0x01, 0x00]), Ok(256));
}

#[test]
fn numbers_refused() {
    fn refused<'a, T: Decodable<'a> + core::fmt::Debug>(bytes: &'a [u8]) -> Refusal {
        decode::<T>(bytes).unwrap_err()
    }
    assert_eq!(refused::<u8>(&[0x00]), Refusal::RlpInvalidIndirection);
    assert_eq!(refused::<u64>(&[0x00]), Refusal::RlpInvalidIndirection);
    assert_eq!(refused::<u16>(&[0x82, 0x00, 0x05]), Refusal::RlpInvalidIndirection);
    assert_eq!(refused::<u8>(&[0x82, 0x00, 0x05]), Refusal::RlpIsTooBig);
    assert_eq!(refused::<u16>(&[0x83, 0x01, 0x02, 0x03]), Refusal::RlpIsTooBig);
    assert_eq!(refused::<u32>(&[0x85, 0x01, 0x02, 0x03, 0x04, 0x05]), Refusal::RlpIsTooBig);
    assert_eq!(refused::<usize>(&[0x89, 0x01, 0x02, 0x03, 0x04, 0x05, 0x06, 0x07, 0x08, 0x09]), Refusal::RlpIsTooBig);
    assert_eq!(refused::<u32>(&[0xc0]), Refusal::RlpExpectedToBeData);
    assert_eq!(refused::<u32>(&[]), Refusal::RlpIsTooShort);
    assert_eq!(refused::<u32>(&[0x82, 0x01]), Refusal::RlpInconsistentLengthAndData);
}

#[test]
fn truths() {
    assert_eq!(decode(&[0x80]), Ok(false));
    assert_eq!(decode(&[0x01]), Ok(true));
    assert_eq!(decode::<bool>(&[0x02]), Err(Refusal::InvalidBoolean));
    assert_eq!(decode::<bool>(&[0x00]), Err(Refusal::RlpInvalidIndirection));
    assert_eq!(decode::<bool>(&[0x82, 0x01, 0x00]), Err(Refusal::RlpIsTooBig));
}

#[test]
fn what_an_item_is() {
    let flags = |bytes: &[u8]| {
        let rlp = Rlp::new(bytes);
        [rlp.is_null(), rlp.is_empty(), rlp.is_list(), rlp.is_data(), rlp.is_int()]
    };
    assert_eq!(flags(&[]), [true, false, false, false, false]);
    assert_eq!(flags(&[0x80, 0x05]), [false, true, false, true, true]);
    assert_eq!(flags(&[0xc0, 0x06]), [false, true, true, false, false]);
    assert_eq!(flags(&[0x00]), [false, false, false, true, true]);
    assert_eq!(flags(&[0x81]), [false, false, false, true, false]);
    assert_eq!(flags(&[0x82, 0x00, 0x05]), [false, false, false, true, false]);
    assert_eq!(flags(&[0xb9, 0x01, 0x00, 0x07]), [false, false, false, true, true]);
    assert_eq!(flags(&[0xc1, 0x05]), [false, false, true, false, false]);
}

#[test]
fn sizes_and_prototypes() {
    let both = |bytes| (Rlp::new(bytes).size(), Rlp::new(bytes).prototype());
    assert_eq!(both(&[]), (0, Ok(Prototype::Null)));
    assert_eq!(both(b"\x83cat"), (3, Ok(Prototype::Data(3))));
    assert_eq!(both(&[0x05]), (1, Ok(Prototype::Data(1))));
    assert_eq!(both(&[0x82, 0x01]), (0, Ok(Prototype::Data(0))), "damaged data");
    assert_eq!(both(b"\xc8\x83cat\x83dog"), (0, Ok(Prototype::List(2))));
    assert_eq!(both(&[0xc1, 0x00, 0x00]), (0, Ok(Prototype::List(1))), "bytes behind the list");
    assert_eq!(both(&[0xc1, 0x81]), (0, Err(Refusal::RlpIsTooShort)), "a damaged item");
}

#[test]
fn counts() {
    let count = |bytes| Rlp::new(bytes).item_count();
    assert_eq!(count(&[0xc0]), Ok(0));
    assert_eq!(count(&[0xc1, 0x05, 0x06]), Ok(1));
    assert_eq!(count(&[0xc1]), Err(Refusal::RlpIsTooShort));
    assert_eq!(count(&[0xc1, 0x81]), Err(Refusal::RlpIsTooShort));
    assert_eq!(count(&[0xc2, 0x00, 0x81, 0x00]), Err(Refusal::RlpIsTooShort));
    assert_eq!(count(&[0xc2, 0xb8, 0x00]), Err(Refusal::RlpDataLenWithZeroPrefix));
    assert_eq!(count(&[]), Err(Refusal::RlpExpectedToBeList));
    let rlp = Rlp::new(&[0xc2, 0x05, 0x06]);
    assert_eq!((rlp.item_count(), rlp.item_count()), (Ok(2), Ok(2)));
}

#[test]
fn an_item_and_its_offset() {
    let rlp = Rlp::new(b"\xc8\x83cat\x83dog");
    let (item, offset) = rlp.at_with_offset(1).unwrap();
    assert_eq!((item.as_raw(), offset), (&b"\x83dog"[..], 5));
    assert_eq!(rlp.at(2).unwrap_err(), Refusal::RlpIsTooShort);
    assert_eq!(Rlp::new(&[0x83]).at(0).unwrap_err(), Refusal::RlpExpectedToBeList);
    assert_eq!(Rlp::new(&[0xc1]).at(0).unwrap_err(), Refusal::RlpIsTooShort);
}

#[test]
fn items_in_any_order() {
    let rlp = Rlp::new(&[0xca, 0, 1, 2, 3, 4, 5, 6, 7, 8, 9]);
    for index in [5, 2, 2, 9, 10, 9, 0, 3, usize::MAX, 8] {
        let answer = rlp.at_with_offset(index).map(|(item, offset)| (item.as_raw(), offset));
        match index {
            0..=9 => assert_eq!(answer, Ok((&[index as u8][..], index + 1))),
            _ => assert_eq!(answer, Err(Refusal::RlpIsTooShort)),
        }
    }
}

#[test]
fn asked_again_a_walk_stays_in_its_list() {
    for bytes in [&[0xc1, 0x05, 0x06][..], &[0xc2, 0x00, 0x81, 0x00], &[0xc1, 0x00, 0xb8, 0x00], &[0xc1, 0x00, 0xb8, 0x01]] {
        let rlp = Rlp::new(bytes);
        assert_eq!(rlp.at(0).unwrap().as_raw(), &bytes[1..2]);
        assert_eq!(rlp.at(1).unwrap_err(), Refusal::RlpIsTooShort);
        assert_eq!(rlp.at(1).unwrap_err(), Refusal::RlpIsTooShort);
    }
    let rlp = Rlp::new(&[0xc0, 0x00]);
    assert_eq!(rlp.at(0).unwrap_err(), Refusal::RlpIsTooShort);
    assert_eq!(rlp.at(0).unwrap_err(), Refusal::RlpIsTooShort);
}

#[test]
fn a_walk_stops_at_the_first_damage() {
    let damaged = [0xc4, 0x05, 0xb8, 0x00, 0x06];
    let fresh = Rlp::new(&damaged);
    assert_eq!(fresh.at(usize::MAX).unwrap_err(), Refusal::RlpDataLenWithZeroPrefix);
    assert_eq!(fresh.at(0).unwrap().as_raw(), [0x05]);
    assert_eq!(fresh.at(1).unwrap_err(), Refusal::RlpDataLenWithZeroPrefix);
    assert_eq!(fresh.at(usize::MAX).unwrap_err(), Refusal::RlpDataLenWithZeroPrefix);
    assert_eq!(fresh.at(0).unwrap().as_raw(), [0x05]);
}

#[test]
fn iteration() {
    assert_eq!(walked(&[0xc0]), (vec![], None));
    assert_eq!(walked(b"\xc8\x83cat\x83dog"), (vec![&b"\x83cat"[..], b"\x83dog"], None));
    assert_eq!(walked(&[0xc1, 0x05, 0x06]), (vec![&[0x05][..]], None));
    let long = [&[0xf8, 56][..], &[0x01; 56]].concat();
    assert_eq!(walked(&long), (vec![&[0x01][..]; 56], None));
}

#[test]
fn iteration_over_damage() {
    assert_eq!(walked(&[]), (vec![], Some(Refusal::RlpExpectedToBeList)));
    assert_eq!(walked(b"\x83cat"), (vec![], Some(Refusal::RlpExpectedToBeList)));
    assert_eq!(walked(&[0xc2, 0x05]), (vec![], Some(Refusal::RlpIsTooShort)));
    assert_eq!(walked(&[0xf8, 0x01, 0x05]), (vec![], Some(Refusal::RlpInvalidIndirection)));
    assert_eq!(walked(&[0xc1, 0x81]), (vec![], Some(Refusal::RlpIsTooShort)));
    assert_eq!(walked(&[0xc2, 0x00, 0x81, 0x00]), (vec![&[0x00][..]], Some(Refusal::RlpIsTooShort)));
    assert_eq!(walked(&[0xc4, 0x05, 0xb8, 0x00, 0x06]), (vec![&[0x05][..]], Some(Refusal::RlpDataLenWithZeroPrefix)));
    assert_eq!(walked(&[0xc4, 0x05, 0xb8, 0x37, 0x06]), (vec![&[0x05][..]], Some(Refusal::RlpInvalidIndirection)));
}

#[test]
fn how_many_items_a_walk_may_have() {
    assert_eq!(Rlp::new(&[0xc0]).iter().size_hint(), (0, Some(0)));
    assert_eq!(Rlp::new(&[0xc3, 0x82, 0x01, 0x02]).iter().size_hint(), (1, Some(3)));
    let mut not_a_list = Rlp::new(&[0x05]).iter();
    assert_eq!(not_a_list.size_hint(), (1, Some(1)));
    assert!(not_a_list.next().unwrap().is_err());
    assert_eq!(not_a_list.size_hint(), (0, Some(0)));
}

#[test]
fn lists_of_one_type() {
    let list = [0xc4, 0x01, 0xc0, 0x80, 0x03];
    let values: Vec<Result<u8, Refusal>> = Rlp::new(&list).as_list().collect();
    assert_eq!(values, [Ok(1), Err(Refusal::RlpExpectedToBeData), Ok(0), Ok(3)]);
    let all: Result<Vec<u8>, Refusal> = Rlp::new(&list).as_list().collect();
    assert_eq!(all, Err(Refusal::RlpExpectedToBeData));
    let inner: Vec<Result<u8, Refusal>> = Rlp::new(&[0xc4, 0x05, 0xc2, 0x06, 0x07]).list_at(1).unwrap().collect();
    assert_eq!(inner, [Ok(6), Ok(7)]);
    assert_eq!(Rlp::new(&list).list_at::<u8>(4).unwrap_err(), Refusal::RlpIsTooShort);
}

#[test]
fn values_outlive_their_view() {
    let bytes = b"\xc8\x83cat\x83dog".to_vec();
    let (raw, cat, dog) = {
        let rlp = Rlp::new(&bytes);
        let item = rlp.at(1).unwrap();
        (rlp.as_raw(), rlp.val_at::<&[u8]>(0).unwrap(), item.data().unwrap())
    };
    assert_eq!((raw, cat, dog), (&bytes[..], &b"cat"[..], &b"dog"[..]));
}
