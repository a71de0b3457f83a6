//! Amending in place, by docs/RULES.md: the new sheet, the zeros behind it, and that a refusal changes nothing.

use loughcable::{amend, Refusal, LIMIT};

const CAT_AND_DOG: &[u8; 9] = b"\xc8\x83cat\x83dog";

/// A refused call on a sheet with so much room behind it: the refusal, after it is seen that no byte changed.
fn refused(sheet: &[u8], room: usize, path: &[usize], replacement: &[u8]) -> Refusal {
    let mut buf = [sheet, &vec![0xee; room]].concat();
    let before = buf.clone();
    let refusal = amend(&mut buf, sheet.len(), path, replacement).unwrap_err();
    assert_eq!(buf, before);
    refusal
}

#[test]
fn a_shorter_item() {
    let mut buf = [&CAT_AND_DOG[..], &[0xee; 3]].concat();
    assert_eq!(amend(&mut buf, 9, &[1], &[0x05]), Ok(6));
    assert_eq!(buf, b"\xc5\x83cat\x05\x00\x00\x00\xee\xee\xee");
}

#[test]
fn a_longer_item() {
    let mut buf = [&CAT_AND_DOG[..], &[0xee; 3]].concat();
    assert_eq!(amend(&mut buf, 9, &[0], b"\x84mice"), Ok(10));
    assert_eq!(buf, b"\xc9\x84mice\x83dog\xee\xee");
}

#[test]
fn a_list_whose_header_grows() {
    let sheet = [&[0xf7][..], &[0x01; 55]].concat();
    let mut buf = [&sheet[..], &[0xee; 2]].concat();
    assert_eq!(amend(&mut buf, 56, &[0], &[0x81, 0x80]), Ok(58));
    assert_eq!(buf, [&[0xf8, 0x38, 0x81, 0x80][..], &[0x01; 54]].concat());
    assert_eq!(refused(&sheet, 1, &[0], &[0x81, 0x80]), Refusal::NoRoom, "a buffer of 57 bytes");
}

#[test]
fn a_list_whose_header_shrinks() {
    let mut buf = [&[0xf8, 0x38, 0x81, 0x80][..], &[0x01; 54]].concat();
    assert_eq!(amend(&mut buf, 58, &[0], &[0x01]), Ok(56));
    assert_eq!(buf, [&[0xf7][..], &[0x01; 55], &[0x00; 2]].concat());
}

#[test]
fn an_item_deep_inside() {
    let mut buf = [0xc7, 0xc0, 0xc1, 0xc0, 0xc3, 0xc0, 0xc1, 0xc0, 0xee, 0xee];
    assert_eq!(amend(&mut buf, 8, &[2, 1, 0], b"\x82T1"), Ok(10));
    assert_eq!(&buf, b"\xc9\xc0\xc1\xc0\xc5\xc0\xc3\x82T1");
}

#[test]
fn the_whole_sheet() {
    let mut buf = *CAT_AND_DOG;
    assert_eq!(amend(&mut buf, 9, &[], &[0xc0]), Ok(1));
    assert_eq!(buf, [0xc0, 0, 0, 0, 0, 0, 0, 0, 0]);
}

#[test]
fn refusals() {
    assert_eq!(refused(CAT_AND_DOG, LIMIT, &[1], &[0x05]), Refusal::TooLarge);
    assert_eq!(refused(CAT_AND_DOG, 0, &[1], &vec![0; LIMIT + 1]), Refusal::TooLarge);
    assert_eq!(refused(&[0xc1, 0x05, 0x06], 9, &[0], &[0x05]), Refusal::TrailingBytes);
    assert_eq!(refused(CAT_AND_DOG, 9, &[1], &[0x81, 0x05]), Refusal::RlpInvalidIndirection);
    assert_eq!(refused(CAT_AND_DOG, 9, &[1], &[]), Refusal::RlpIsTooShort);
    assert_eq!(refused(CAT_AND_DOG, 9, &[2], &[0x05]), Refusal::NoSuchItem);
    assert_eq!(refused(CAT_AND_DOG, 9, &[0, 0], &[0x05]), Refusal::NoSuchItem);
    assert_eq!(refused(CAT_AND_DOG, 9, &[usize::MAX], &[0x05]), Refusal::NoSuchItem);
    assert_eq!(refused(CAT_AND_DOG, 9, &[0; 64], &[0x05]), Refusal::NoSuchItem);
    assert_eq!(refused(CAT_AND_DOG, 0, &[1], b"\x84mice"), Refusal::NoRoom);
}

#[test]
fn a_sheet_longer_than_its_buffer() {
    let mut buf = *CAT_AND_DOG;
    assert_eq!(amend(&mut buf, 10, &[1], &[0x05]), Err(Refusal::RlpIsTooShort));
    assert_eq!(amend(&mut buf, usize::MAX, &[1], &[0x05]), Err(Refusal::RlpIsTooShort));
    assert_eq!(&buf, CAT_AND_DOG);
}

#[test]
fn a_seventeenth_level() {
    let fifteen: Vec<u8> = (0xc0..=0xce).rev().collect();
    assert_eq!(refused(CAT_AND_DOG, 30, &[1], &(0xc0..=0xcf).rev().collect::<Vec<u8>>()), Refusal::TooDeep);
    let mut buf = [&CAT_AND_DOG[..], &[0xee; 20]].concat();
    assert_eq!(amend(&mut buf, 9, &[1], &fifteen), Ok(20));
    assert_eq!(buf[..20], [&b"\xd3\x83cat"[..], &fifteen].concat());
}
