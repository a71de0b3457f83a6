//! One encoding at the front of a buffer, against R's `encode`. R's buffer grows, so the refusals are judged by the rules.

use crate::library::{self, Value};
use crate::random::Random;
use crate::report::{IN_NO_CLASS, NOT_THE_RULES, Report, cut};
use crate::said::Said;
use crate::wrong::{self, Wrong};
use line::written as hex;
use rules::MOST_BYTES;
use stream_rules::string;

/// What the buffer is filled with before.
const BEFORE: u8 = 0x77;

/// Lengths of strings at which the form changes, with their neighbours.
const LENGTHS: &[usize] = &[65_534, 65_535, 65_536, 65_537, 1_048_571, 1_048_572, 1_048_573, 1_048_576, 1_048_577];

/// What the rules write.
fn by_rules(value: &Value) -> Vec<u8> {
    let scalar = |number: u64| {
        let bytes = number.to_be_bytes();
        string(&bytes[number.leading_zeros() as usize / 8..])
    };
    match value {
        Value::Bytes(bytes) => string(bytes),
        Value::U8(n) => scalar((*n).into()),
        Value::U16(n) => scalar((*n).into()),
        Value::U32(n) => scalar((*n).into()),
        Value::U64(n) => scalar(*n),
        Value::Bool(truth) => vec![if *truth == 0 { 0x80 } else { 0x01 }],
        Value::EmptyData => vec![0x80],
        Value::EmptyList => vec![0xc0],
    }
}

/// What R writes.
fn by_r(value: &Value) -> Vec<u8> {
    match value {
        Value::Bytes(bytes) => rlp::encode(bytes).to_vec(),
        Value::U8(n) => rlp::encode(n).to_vec(),
        Value::U16(n) => rlp::encode(n).to_vec(),
        Value::U32(n) => rlp::encode(n).to_vec(),
        Value::U64(n) => rlp::encode(n).to_vec(),
        Value::Bool(truth) => rlp::encode(&(*truth != 0)).to_vec(),
        Value::EmptyData => rlp::NULL_RLP.to_vec(),
        Value::EmptyList => rlp::EMPTY_LIST_RLP.to_vec(),
    }
}

/// A value as the lines of a stream, docs/CASES.md, give it.
fn text(value: &Value) -> String {
    match value {
        Value::Bytes(bytes) => format!("bytes {}", hex(bytes)),
        Value::U8(n) => format!("put8 {n}"),
        Value::U16(n) => format!("put16 {n}"),
        Value::U32(n) => format!("put32 {n}"),
        Value::U64(n) => format!("put64 {n}"),
        Value::Bool(truth) => format!("putbool {truth}"),
        Value::EmptyData => "empty".to_string(),
        Value::EmptyList => "begin 0".to_string(),
    }
}

/// Compares one encoding in buffers that it just fits, that are a byte short, and that have bytes to spare.
fn compare(value: &Value, wrong: Option<Wrong>, report: &mut Report) {
    let (rules, r) = (by_rules(value), by_r(value));
    let r = wrong::bytes_of_r(wrong, Wrong::ByteOfREncoding, &r);
    for room in [rules.len(), rules.len() - 1, rules.len() + 3] {
        compare_in(room, value, (&rules, &r), wrong, report);
    }
}

fn compare_in(room: usize, value: &Value, (rules, r): (&[u8], &[u8]), wrong: Option<Wrong>, report: &mut Report) {
    let mut buffer = vec![BEFORE; room];
    let ours = wrong::encoding(wrong, library::encode(&mut buffer, value), &mut buffer);
    let told = expected(room, value, rules);
    let mut after = vec![BEFORE; room];
    if let Said::Ok(..) = told {
        after[..rules.len()].copy_from_slice(rules);
    }
    report.input();
    report.results(2, 1);
    report.refusal(ours);
    let sort = match (ours == told && buffer == after, rules == r) {
        (true, true) => return goes_on_in_r(room, value, told, report),
        (false, _) => NOT_THE_RULES,
        (true, false) => IN_NO_CLASS,
    };
    let text = || {
        format!(
            "{} in {room} bytes: {} | R: {} | library: {ours:?} {}",
            cut(&text(value)),
            told.text("encode"),
            cut(&hex(r)),
            cut(&hex(&buffer))
        )
    };
    report.unlisted(format!("{sort}: an encoding"), rules.len(), || (rules.len(), text()));
}

/// Where the rules refuse, R encodes all the same.
fn goes_on_in_r(room: usize, value: &Value, told: Said, report: &mut Report) {
    let what = match told {
        Said::No(12) => "an encoding of over 1,048,576 bytes, or in a buffer of so many: R has no limit. The rule: 12.",
        Said::No(_) => "an encoding that the buffer has no room for: R's buffer grows. The rule: 13.",
        _ => return,
    };
    report.listed(what, || (0, format!("{} in {room} bytes", cut(&text(value)))));
}

/// The order is 12, 13.
fn expected(room: usize, value: &Value, encoding: &[u8]) -> Said {
    let lent = if let Value::Bytes(bytes) = value { bytes.len() } else { 0 };
    if room.max(lent) as u128 > MOST_BYTES {
        return Said::No(12);
    }
    if encoding.len() > room { Said::No(13) } else { Said::one(encoding.len() as u64) }
}

/// All values of u8 and u16, strings of every length up to 300, and random ones.
pub fn encodings(number: usize, random: &mut Random, wrong: Option<Wrong>, report: &mut Report) {
    report.begin_part("Encodings, all u8 and u16, and random others");
    let mut one = |value: Value| compare(&value, wrong, report);
    (0..=u8::MAX).for_each(|n| one(Value::U8(n)));
    (0..=u16::MAX).for_each(|n| one(Value::U16(n)));
    [0, 1, 2, u32::MAX].into_iter().for_each(|truth| one(Value::Bool(truth)));
    one(Value::EmptyData);
    one(Value::EmptyList);
    (0..=u8::MAX).for_each(|byte| one(Value::Bytes(vec![byte])));
    (0..=300).for_each(|length| one(Value::Bytes(random.bytes(length))));
    LENGTHS.iter().for_each(|length| one(Value::Bytes(vec![0x61; *length])));
    for _ in 0..number {
        one(Value::U32(random.number_of(4) as u32));
        one(Value::U64(random.number_of(8)));
        let length = random.length();
        one(Value::Bytes(random.bytes(length)));
    }
    report.end_part();
}
