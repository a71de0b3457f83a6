//! The calls on a stream, docs/CASES.md "A stream", as each side does them.

use crate::library::Stream as Ours;
use crate::said::{Said, UNNUMBERED};
use line::{State, Work};
use rlp::RlpStream;
use rules::Answer;
use stream_rules::Stream;

pub fn truth(answer: Answer<bool>) -> Said {
    answer.map(u128::from).into()
}

pub fn length(answer: Answer<&[u8]>) -> Said {
    answer.map(|bytes| bytes.len() as u128).into()
}

pub fn library_does(stream: &mut Ours, work: &Work) -> Said {
    match work {
        Work::Begin(most) => stream.begin_list(*most),
        Work::Unbounded => stream.begin_unbounded_list(),
        Work::Empty => stream.append_empty_data(),
        Work::Bytes(b) => stream.append(b),
        Work::Put8(n) => stream.append_u8(*n),
        Work::Put16(n) => stream.append_u16(*n),
        Work::Put32(n) => stream.append_u32(*n),
        Work::Put64(n) => stream.append_u64(*n),
        Work::PutBool(truth) => stream.append_bool(*truth),
        Work::Raw(b, count) => stream.append_raw(b, *count as usize),
        Work::Checked(b, count, most) => stream.append_raw_checked(b, *count as usize, *most as usize),
        Work::Finalize => stream.finalize_unbounded_list(),
        Work::Clear => stream.clear(),
        Work::Len => stream.len(),
        Work::Estimate(added) => stream.estimate_size(*added as usize),
        Work::Finished => stream.is_finished(),
        Work::IsEmpty => stream.is_empty(),
        Work::Out => stream.out(),
        Work::Raws => stream.as_raw(),
        Work::State(state) => set_ours(stream, state),
        Work::Show => panic!("a state is compared after each call"),
    }
}

fn set_ours(stream: &mut Ours, state: &State) -> Said {
    let heads = [state.start, state.end, state.opened].map(|number| number as u32);
    stream.state = [&heads[..], &state.positions, &state.currents, &state.maxima].concat();
    Said::DONE
}

pub fn rules_do(stream: &mut Stream, work: &Work) -> Said {
    let after = match work {
        Work::Begin(most) => stream.begin_list(*most),
        Work::Unbounded => stream.begin_unbounded_list(),
        Work::Empty => stream.append_empty_data(),
        Work::Bytes(b) => stream.append(b),
        Work::Put8(n) => stream.append_scalar((*n).into()),
        Work::Put16(n) => stream.append_scalar((*n).into()),
        Work::Put32(n) => stream.append_scalar((*n).into()),
        Work::Put64(n) => stream.append_scalar(*n),
        Work::PutBool(truth) => stream.append_bool(*truth),
        Work::Raw(b, count) => stream.append_raw(b, *count),
        Work::Checked(b, count, most) => match stream.append_raw_checked(b, *count, *most) {
            Ok(Some(after)) => {
                *stream = after;
                return Said::yes_or_no(true);
            }
            Ok(None) => return Said::yes_or_no(false),
            Err(number) => Err(number),
        },
        Work::Finalize => stream.finalize_unbounded_list(),
        Work::Clear => stream.clear(),
        Work::Len => return stream.len().into(),
        Work::Estimate(added) => return stream.estimate_size(*added).into(),
        Work::Finished => return truth(stream.is_finished()),
        Work::IsEmpty => return truth(stream.is_empty()),
        Work::Out => return length(stream.out()),
        Work::Raws => return length(stream.as_raw()),
        Work::State(state) => {
            let State { start, end, opened, positions, currents, maxima } = *state;
            Ok(Stream { start, end, opened, positions, currents, maxima, buffer: std::mem::take(&mut stream.buffer) })
        }
        Work::Show => panic!("a state is compared after each call"),
    };
    match after {
        Ok(after) => {
            *stream = after;
            Said::DONE
        }
        Err(number) => Said::No(number.into()),
    }
}

/// The calls of R, one arm for each. `out` takes the stream with it.
pub fn r_does(stream: &mut RlpStream, work: &Work) -> Said {
    match work {
        Work::Begin(most) => done(stream.begin_list(*most as usize)),
        Work::Unbounded => done(stream.begin_unbounded_list()),
        Work::Empty => done(stream.append_empty_data()),
        Work::Bytes(b) => done(stream.append(b)),
        Work::Put8(n) => done(stream.append(n)),
        Work::Put16(n) => done(stream.append(n)),
        Work::Put32(n) => done(stream.append(n)),
        Work::Put64(n) => done(stream.append(n)),
        Work::PutBool(truth) => done(stream.append(truth)),
        Work::Raw(b, count) => done(stream.append_raw(b, *count as usize)),
        Work::Checked(b, count, most) => Said::yes_or_no(stream.append_raw_checked(b, *count as usize, *most as usize)),
        Work::Finalize => done(stream.finalize_unbounded_list()),
        Work::Clear => done(stream.clear()),
        Work::Len => Said::one(stream.len() as u64),
        Work::Estimate(added) => Said::one(stream.estimate_size(*added as usize) as u64),
        Work::Finished => Said::yes_or_no(stream.is_finished()),
        Work::IsEmpty => Said::yes_or_no(stream.is_empty()),
        Work::Raws => Said::one(stream.as_raw().len() as u64),
        Work::Out => {
            let shown = stream.as_raw().to_vec();
            let out = std::mem::take(stream).out();
            if out == shown { Said::one(out.len() as u64) } else { Said::No(UNNUMBERED) }
        }
        Work::Show | Work::State(_) => panic!("R has no state to show or to set"),
    }
}

/// A call was done; what it gives back says nothing.
fn done<T>(_: T) -> Said {
    Said::DONE
}
