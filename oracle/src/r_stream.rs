//! R's answers to the lines of a stream. R has neither a room nor a state that can be shown or set: it answers `none` to `show`
//! and to `state`. After a panic its stream is in an unknown state, and after `state` in another than the asked one: from there
//! on it answers `none`, until the next line `stream`.

use bytes::BytesMut;
use line::{Start, StreamLine, Work, hex, stream_line};
use rlp::RlpStream;
use std::panic::{AssertUnwindSafe, catch_unwind};

/// What became of the last line `stream`.
pub enum Streams {
    /// There was none yet.
    None,
    /// Its stream cannot be asked, or not any more.
    Lost,
    Stream(Asked),
}

impl Streams {
    pub fn answer(&mut self, words: &[&str]) -> Option<String> {
        let work = match stream_line(words)? {
            StreamLine::New(start) => return Some(self.start(start)),
            StreamLine::Of(work) => work,
        };
        match self {
            Streams::None => None,
            Streams::Lost => Some(NONE.to_string()),
            Streams::Stream(asked) => match asked.answer(work) {
                Ok(answer) => Some(answer),
                Err(last) => {
                    *self = Streams::Lost;
                    Some(last.to_string())
                }
            },
        }
    }

    /// R writes behind the bytes that it is given. So it cannot start behind the end of the buffer.
    fn start(&mut self, start: Start) -> String {
        if start.start > start.room as u64 {
            *self = Streams::Lost;
            return NONE.to_string();
        }
        *self = Streams::Stream(Asked { stream: new(&start), start, works: vec![] });
        "ok".to_string()
    }
}

const NONE: &str = "none";

/// A stream of R, and the work done on it, for the making of a second one like it.
pub struct Asked {
    start: Start,
    works: Vec<Work>,
    stream: RlpStream,
}

impl Asked {
    /// `Err` is the last answer that this stream can give.
    fn answer(&mut self, work: Work) -> Result<String, &'static str> {
        let call = || match work {
            Work::State(_) => Err(NONE),
            Work::Show => Ok(NONE.to_string()),
            Work::Out => Ok(format!("ok {}", hex(&self.second().out()))),
            _ => Ok(done(&mut self.stream, &work)),
        };
        let answer = catch_unwind(AssertUnwindSafe(call)).unwrap_or(Err("panic"));
        self.works.push(work);
        answer
    }

    /// A stream like this one: R's `out` takes the stream with it.
    fn second(&self) -> RlpStream {
        let mut second = new(&self.start);
        for work in &self.works {
            done(&mut second, work);
        }
        second
    }
}

fn new(start: &Start) -> RlpStream {
    RlpStream::new_with_buffer(BytesMut::from(&vec![start.byte; start.start as usize][..]))
}

/// The calls of R, one arm for each.
fn done(stream: &mut RlpStream, work: &Work) -> String {
    match work {
        Work::Begin(most) => ok(stream.begin_list(*most as usize)),
        Work::Unbounded => ok(stream.begin_unbounded_list()),
        Work::Empty => ok(stream.append_empty_data()),
        Work::Bytes(b) => ok(stream.append(b)),
        Work::Put8(n) => ok(stream.append(n)),
        Work::Put16(n) => ok(stream.append(n)),
        Work::Put32(n) => ok(stream.append(n)),
        Work::Put64(n) => ok(stream.append(n)),
        Work::PutBool(truth) => ok(stream.append(truth)),
        Work::Raw(b, count) => ok(stream.append_raw(b, *count as usize)),
        Work::Checked(b, count, most) => {
            let taken = stream.append_raw_checked(b, *count as usize, *most as usize);
            format!("ok {}", if taken { "yes" } else { "no" })
        }
        Work::Finalize => ok(stream.finalize_unbounded_list()),
        Work::Clear => ok(stream.clear()),
        Work::Len => format!("ok {}", stream.len()),
        Work::Estimate(added) => format!("ok {}", stream.estimate_size(*added as usize)),
        Work::Finished => format!("ok {}", u8::from(stream.is_finished())),
        Work::IsEmpty => format!("ok {}", u8::from(stream.is_empty())),
        Work::Raws => format!("ok {}", hex(stream.as_raw())),
        Work::Out | Work::Show | Work::State(_) => NONE.to_string(),
    }
}

/// A call was done; what it gives back says nothing.
fn ok<T>(_: T) -> String {
    "ok".to_string()
}
