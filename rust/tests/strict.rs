//! The strict check: the sheets to try, the edges and the limits of docs/RULES.md.

use loughcable::{check, check_items, Refusal, Rlp, Tally, LEVELS, LIMIT};

fn accepted(items: usize, depth: usize) -> Result<Tally, Refusal> {
    Ok(Tally { items, depth })
}

/// A header byte or more, then so many bytes 01.
fn ones(header: &[u8], n: usize) -> Vec<u8> {
    [header, &vec![0x01; n]].concat()
}

#[test]
fn the_sheets_to_try() {
    let cases: [(&[u8], Result<Tally, Refusal>); 14] = [
        (&[0x80], accepted(1, 0)),
        (&[0x00], accepted(1, 0)),
        (&[0x81, 0x05], Err(Refusal::RlpInvalidIndirection)),
        (&[0x81, 0x80], accepted(1, 0)),
        (&[0xc0], accepted(1, 1)),
        (b"\xc8\x83cat\x83dog", accepted(3, 1)),
        (&[0xc7, 0xc0, 0xc1, 0xc0, 0xc3, 0xc0, 0xc1, 0xc0], accepted(8, 4)),
        (&[], Err(Refusal::RlpIsTooShort)),
        (&[0xc1, 0x05, 0x06], Err(Refusal::TrailingBytes)),
        (&[0xb8, 0x00], Err(Refusal::RlpDataLenWithZeroPrefix)),
        (&[0xb8, 0x01, 0x05], Err(Refusal::RlpInvalidIndirection)),
        (&[0xc2, 0x81, 0x05], Err(Refusal::RlpInvalidIndirection)),
        (&[0xc2, 0x82, 0x01], Err(Refusal::RlpIsTooShort)),
        (&[0xbf, 0xff, 0xff, 0xff, 0xff, 0xff, 0xff, 0xff, 0xff], Err(Refusal::RlpIsTooShort)),
    ];
    for (n, (bytes, answer)) in cases.into_iter().enumerate() {
        assert_eq!(check(bytes), answer, "P{}", n + 1);
    }
}

#[test]
fn the_last_sheet_read_as_a_value() {
    let p14 = [0xbf, 0xff, 0xff, 0xff, 0xff, 0xff, 0xff, 0xff, 0xff];
    assert_eq!(Rlp::new(&p14).as_val::<&[u8]>(), Err(Refusal::RlpInvalidLength));
}

#[test]
fn a_day_sheet() {
    let sheet = std::fs::read(concat!(env!("CARGO_MANIFEST_DIR"), "/../crates/rlpcheck/data/day-sheet")).unwrap();
    assert_eq!(check(&sheet), accepted(13, 2));
}

#[test]
fn lengths_where_the_form_changes() {
    assert_eq!(check(&ones(&[0xb7], 55)), accepted(1, 0));
    assert_eq!(check(&ones(&[0xb8, 55], 55)), Err(Refusal::RlpInvalidIndirection));
    assert_eq!(check(&ones(&[0xb8, 56], 56)), accepted(1, 0));
    assert_eq!(check(&ones(&[0xb9, 1, 0], 256)), accepted(1, 0));
    assert_eq!(check(&ones(&[0xb9, 0, 255], 255)), Err(Refusal::RlpDataLenWithZeroPrefix));
    assert_eq!(check(&ones(&[0xf7], 55)), accepted(56, 1));
    assert_eq!(check(&ones(&[0xf8, 55], 55)), Err(Refusal::RlpInvalidIndirection));
    assert_eq!(check(&ones(&[0xf8, 56], 56)), accepted(57, 1));
    assert_eq!(check(&ones(&[0xf9, 1, 0], 256)), accepted(257, 1));
}

#[test]
fn sixteen_levels_and_no_more() {
    let deepest: Vec<u8> = (0xc0..=0xcf).rev().collect();
    assert_eq!(check(&deepest), accepted(16, LEVELS));
    assert_eq!(check_items(&deepest), accepted(1, LEVELS));
    let deeper: Vec<u8> = (0xc0..=0xd0).rev().collect();
    assert_eq!(check(&deeper), Err(Refusal::TooDeep));
    assert_eq!(check_items(&deeper), Err(Refusal::TooDeep));
}

#[test]
fn so_many_bytes_and_no_more() {
    let largest = ones(&[0xba, 0x0f, 0xff, 0xfc], LIMIT - 4);
    assert_eq!(check(&largest), accepted(1, 0));
    assert_eq!(check(&vec![0x01; LIMIT]), Err(Refusal::TrailingBytes));
    assert_eq!(check(&vec![0x01; LIMIT + 1]), Err(Refusal::TooLarge));
    assert_eq!(check_items(&vec![0x01; LIMIT]), accepted(LIMIT, 0));
    assert_eq!(check_items(&vec![0x01; LIMIT + 1]), Err(Refusal::TooLarge));
}

#[test]
fn items_in_a_row() {
    assert_eq!(check_items(&[]), accepted(0, 0));
    assert_eq!(check_items(&[0xc0, 0xc1, 0xc0, 0xc3, 0xc0, 0xc1, 0xc0]), accepted(3, 3));
    assert_eq!(check_items(&[0x05, 0x06]), accepted(2, 0));
    assert_eq!(check_items(&[0x05, 0x82, 0x01]), Err(Refusal::RlpIsTooShort));
}
