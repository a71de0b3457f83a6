//! The model's answers to the lines of a stream. The case maker and the classes of departures follow streams by it too.

use line::{LISTS, Start, State, StreamLine, Work, hex, stream_line};
use rules::Answer;
use stream_rules::Stream;

/// The stream of the last line `stream`, if there was one.
#[derive(Default)]
pub struct Streams(pub Option<Stream>);

impl Streams {
    pub fn answer(&mut self, words: &[&str]) -> Option<String> {
        match stream_line(words)? {
            StreamLine::New(Start { start, room, byte }) => {
                self.0 = Some(Stream::new(start, vec![byte; room]));
                Some("ok".to_string())
            }
            StreamLine::Of(work) => Some(answer(self.0.as_mut()?, work)),
        }
    }
}

/// The lines, one arm for each.
fn answer(stream: &mut Stream, work: Work) -> String {
    match work {
        Work::Begin(most) => step(stream, |stream| stream.begin_list(most)),
        Work::Unbounded => step(stream, Stream::begin_unbounded_list),
        Work::Empty => step(stream, Stream::append_empty_data),
        Work::Bytes(b) => step(stream, |stream| stream.append(&b)),
        Work::Put8(n) => step(stream, |stream| stream.append_scalar(n.into())),
        Work::Put16(n) => step(stream, |stream| stream.append_scalar(n.into())),
        Work::Put32(n) => step(stream, |stream| stream.append_scalar(n.into())),
        Work::Put64(n) => step(stream, |stream| stream.append_scalar(n)),
        Work::PutBool(truth) => step(stream, |stream| stream.append_bool(truth)),
        Work::Raw(b, count) => step(stream, |stream| stream.append_raw(&b, count)),
        Work::Checked(b, count, most) => checked(stream, &b, count, most),
        Work::Finalize => step(stream, Stream::finalize_unbounded_list),
        Work::Clear => step(stream, Stream::clear),
        Work::Len => said(stream.len(), |size| size.to_string()),
        Work::Estimate(added) => said(stream.estimate_size(added), |size| size.to_string()),
        Work::Finished => said(stream.is_finished(), digit),
        Work::IsEmpty => said(stream.is_empty(), digit),
        Work::Out => said(stream.out(), hex),
        Work::Raws => said(stream.as_raw(), hex),
        Work::Show => show(stream),
        Work::State(state) => set(stream, state),
    }
}

/// A call that leaves another stream, or refuses and leaves it as it was.
fn step(stream: &mut Stream, call: impl Fn(&Stream) -> Answer<Stream>) -> String {
    match call(stream) {
        Ok(after) => {
            *stream = after;
            "ok".to_string()
        }
        Err(number) => format!("no {number}"),
    }
}

fn checked(stream: &mut Stream, bytes: &[u8], count: u64, most: u64) -> String {
    match stream.append_raw_checked(bytes, count, most) {
        Ok(Some(after)) => {
            *stream = after;
            "ok yes".to_string()
        }
        Ok(None) => "ok no".to_string(),
        Err(number) => format!("no {number}"),
    }
}

fn said<T>(answer: Answer<T>, accepted: impl Fn(T) -> String) -> String {
    match answer {
        Ok(value) => format!("ok {}", accepted(value)),
        Err(number) => format!("no {number}"),
    }
}

fn digit(truth: bool) -> String {
    u8::from(truth).to_string()
}

/// The state, of whose lists no more than the first 16 can be shown, and the buffer.
fn show(stream: &Stream) -> String {
    let Stream { start, end, opened, positions, currents, maxima, buffer } = stream;
    let shown = usize::try_from(*opened).map_or(LISTS, |opened| opened.min(LISTS));
    let list = |index: usize| {
        let most = if maxima[index] == 0 { "-".to_string() } else { maxima[index].to_string() };
        format!(" {}:{}:{most}", positions[index], currents[index])
    };
    let lists: String = (0..shown).map(list).collect();
    format!("state {start} {end} {opened}{lists} {}", hex(buffer))
}

fn set(stream: &mut Stream, state: State) -> String {
    let State { start, end, opened, positions, currents, maxima } = state;
    let buffer = std::mem::take(&mut stream.buffer);
    *stream = Stream { start, end, opened, positions, currents, maxima, buffer };
    "ok".to_string()
}
