//! What the works work on: a day's readings and their sheet, and the buffers to write to.

use bytes::BytesMut;
use loughcable::LIMIT;
use rlp::RlpStream;

/// A reading: a list of a tank's name, a time and a gravity. Its encoding takes 17 bytes.
pub struct Reading {
    pub name: [u8; 5],
    pub time: u64,
    pub gravity: u16,
}

/// The form of the sheet that a work reads. Each has 17 bytes for a reading, and a few more.
#[derive(Clone, Copy)]
pub enum Shape {
    /// A list of readings.
    Readings,
    /// The same, in 14 lists of one item more: 16 levels.
    Deep,
    /// A list of one-byte items.
    OneByte,
    /// A list of empty lists.
    EmptyLists,
}

pub struct Day {
    pub readings: Vec<Reading>,
    pub sheet: Vec<u8>,
    /// What the reading in the middle is exchanged for, and one that is longer by a byte.
    pub same: Reading,
    pub longer: Reading,
    /// These two as bytes.
    pub same_bytes: Vec<u8>,
    pub longer_bytes: Vec<u8>,
    /// A string of 5 bytes, a u64 of 6 bytes and a u16 of 2 bytes, as items.
    pub name_item: Vec<u8>,
    pub time_item: Vec<u8>,
    pub gravity_item: Vec<u8>,
}

const FIRST_TIME: u64 = 1_794_700_800_000;

fn reading(index: usize) -> Reading {
    let name = format!("T{:04}", index % 10_000).into_bytes().try_into().unwrap();
    Reading { name, time: FIRST_TIME + 60_000 * index as u64, gravity: 1000 + (index % 100) as u16 }
}

fn append(stream: &mut RlpStream, reading: &Reading) {
    stream.begin_list(3).append(&&reading.name[..]).append(&reading.time).append(&reading.gravity);
}

fn encoded(reading: &Reading) -> Vec<u8> {
    let mut stream = RlpStream::new();
    append(&mut stream, reading);
    stream.out().to_vec()
}

fn sheet_of(readings: &[Reading]) -> Vec<u8> {
    let mut stream = RlpStream::new_list(readings.len());
    readings.iter().for_each(|reading| append(&mut stream, reading));
    stream.out().to_vec()
}

/// A list of these items.
fn list(items: &[u8], count: usize) -> Vec<u8> {
    let mut stream = RlpStream::new_list(count);
    stream.append_raw(items, count);
    stream.out().to_vec()
}

fn sheet(readings: &[Reading], shape: Shape) -> Vec<u8> {
    let bytes = 17 * readings.len();
    match shape {
        Shape::Readings => sheet_of(readings),
        Shape::Deep => (0..14).fold(sheet_of(readings), |sheet, _| list(&sheet, 1)),
        Shape::OneByte => list(&vec![0x01; bytes], bytes),
        Shape::EmptyLists => list(&vec![0xc0; bytes], bytes),
    }
}

impl Day {
    pub fn new(count: usize, shape: Shape) -> Day {
        let readings: Vec<Reading> = (0..count).map(reading).collect();
        let sheet = sheet(&readings, shape);
        assert!(sheet.len() < LIMIT, "the sheet is too large");
        let same = reading(count);
        let longer = Reading { time: FIRST_TIME << 8, ..reading(count) };
        Day {
            same_bytes: encoded(&same),
            longer_bytes: encoded(&longer),
            name_item: rlp::encode(&&same.name[..]).to_vec(),
            time_item: rlp::encode(&same.time).to_vec(),
            gravity_item: rlp::encode(&same.gravity).to_vec(),
            readings,
            sheet,
            same,
            longer,
        }
    }

    pub fn middle(&self) -> usize {
        self.readings.len() / 2
    }
}

/// The buffers to write to, both of the largest size and both written to before, so that none has to grow and no page is new.
pub struct Desk {
    /// The library's: the sheet, and zeros.
    pub buf: Vec<u8>,
    /// R's: empty.
    pub stream: BytesMut,
}

impl Desk {
    pub fn new(day: &Day) -> Desk {
        let mut buf = day.sheet.clone();
        buf.resize(LIMIT, 0);
        let mut stream = BytesMut::with_capacity(LIMIT);
        stream.resize(LIMIT, 0);
        stream.clear();
        Desk { buf, stream }
    }
}
