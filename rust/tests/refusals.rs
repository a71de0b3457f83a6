//! The refusals: every number once, by a call that gives it, and what is said of it.

use loughcable::{amend, check, decode, Refusal, Rlp, RlpStream, LIMIT};

/// For each number a call that is refused with it.
fn each() -> [Refusal; 20] {
    let value = |bytes: &[u8]| decode::<&[u8]>(bytes).unwrap_err();
    let mut counted_buf = [0; 4];
    let mut counted = RlpStream::new_list(&mut counted_buf, 1).unwrap();
    let mut empty_buf = [0; 1];
    let mut empty = RlpStream::new(&mut empty_buf);
    [
        check(&[]).unwrap_err(),
        check(&[0xb8, 0x00]).unwrap_err(),
        check(&[0x81, 0x05]).unwrap_err(),
        decode::<u8>(&[0x82, 0x01, 0x00]).unwrap_err(),
        value(&[0x82, 0x01]),
        value(&[0xbf, 0xff, 0xff, 0xff, 0xff, 0xff, 0xff, 0xff, 0xff]),
        value(&[0xc0]),
        Rlp::new(&[0x80]).item_count().unwrap_err(),
        decode::<bool>(&[0x02]).unwrap_err(),
        check(&[0xc1, 0x05, 0x06]).unwrap_err(),
        check(&(0xc0..=0xd0).rev().collect::<Vec<u8>>()).unwrap_err(),
        check(&vec![0; LIMIT + 1]).unwrap_err(),
        empty.append("cat").unwrap_err(),
        counted.append_raw(&[0x05, 0x06], 2).unwrap_err(),
        empty.finalize_unbounded_list().unwrap_err(),
        counted.finalize_unbounded_list().unwrap_err(),
        counted.out().unwrap_err(),
        counted.append_raw(&[0x05], 2).unwrap_err(),
        amend(&mut [0xc0], 1, &[0], &[0x05]).unwrap_err(),
        RlpStream::new_at(&mut [0], 2).len().unwrap_err(),
    ]
}

#[test]
fn every_number_by_a_call() {
    let numbers: Vec<u8> = each().iter().map(|refusal| refusal.number()).collect();
    assert_eq!(numbers, (1..=20).collect::<Vec<u8>>());
}

#[test]
fn numbers_and_refusals_are_the_same() {
    for refusal in each() {
        assert_eq!(Refusal::from_number(refusal.number()), Some(refusal));
    }
    assert_eq!([0, 21, 255].map(Refusal::from_number), [None; 3]);
}

#[test]
fn each_says_something_of_its_own() {
    let mut said: Vec<String> = each().iter().map(Refusal::to_string).collect();
    assert_eq!(said[0], "the bytes end before the item does, or the list has no such item");
    assert_eq!(said[12], "the buffer is too small for what is to be written");
    said.sort();
    said.dedup();
    assert_eq!(said.len(), 20);
}

#[test]
fn a_refusal_is_an_error() {
    fn gravity(bytes: &[u8]) -> Result<u16, Box<dyn std::error::Error>> {
        Ok(decode(bytes)?)
    }
    assert_eq!(gravity(&[0xc0]).unwrap_err().to_string(), "a string or a number was asked for, and something else is there");
}
