//! The case maker: `cases SEED ALL PICKED STREAMS STREAMS_PICKED AMENDINGS AMENDINGS_PICKED` writes every case of the reading
//! calls to the file ALL, and to the file PICKED the numbers of the lines that are picked for the sample; the others get the same
//! for the streams and for the amender. Only the random cases depend on the seed. `cases --three-bytes` writes the cases over all
//! inputs of three bytes to standard output.

mod amend_bounds;
mod amend_refusals;
mod amendings;
mod bad_states;
mod case_set;
mod encode;
mod full_streams;
mod items;
mod lists;
mod places;
mod random;
mod random_amendings;
mod random_streams;
mod raw_streams;
mod short_inputs;
mod stream_set;
mod streams;
mod trees;
mod values;

use case_set::{CaseSet, NO_CALLS};
use encode::List;
use random::Random;
use std::io::{self, BufWriter, Write};
use stream_set::StreamSet;

/// How many times each sort of random input is made.
const RANDOM_INPUTS: usize = 2_500;

/// How often a random list is asked for an item of a fresh view, and from a place.
const RANDOM_QUESTIONS: usize = 4;

/// The calls of which the sample gets random inputs.
const RANDOM_CALLS_IN_SAMPLE: &[&str] = &["from", "info", "value", "u64", "count", "prototype", "strict"];

/// One in so many random inputs of each sort goes into the sample.
const RANDOM_INPUTS_FOR_ONE_PICKED: usize = 110;

/// Longer random inputs than this are left out of the sample.
const LONGEST_RANDOM_IN_SAMPLE: usize = 100;

fn main() -> io::Result<()> {
    let arguments: Vec<String> = std::env::args().skip(1).collect();
    match &arguments[..] {
        [seed, all, picked, streams, streams_picked, amendings, amendings_picked] => {
            let mut random = Random(seed.parse().expect("the seed is a decimal number below 2^64"));
            let mut set = CaseSet::create(all)?;
            every_case(&mut set, &mut random)?;
            set.finish(picked)?;
            let mut set = StreamSet::create(streams)?;
            every_stream(&mut set, &mut random)?;
            set.finish(streams_picked)?;
            let mut set = CaseSet::create(amendings)?;
            every_amending(&mut set, &mut random)?;
            set.finish(amendings_picked)
        }
        [option] if option == "--three-bytes" => {
            let mut output = BufWriter::with_capacity(line::BLOCK, io::stdout().lock());
            short_inputs::write_three(&mut output)?;
            output.flush()
        }
        _ => panic!("usage: cases SEED and six files, or cases --three-bytes"),
    }
}

fn every_case(set: &mut CaseSet, random: &mut Random) -> io::Result<()> {
    by_hand_lines(set, "The format itself.", &by_hand::format_lines())?;
    by_hand_lines(set, "Cases with answers written by hand.", &by_hand::cases())?;
    short_inputs::shortest(set)?;
    short_inputs::of_boundary_bytes(set)?;
    items::length_bytes(set)?;
    items::short_forms(set)?;
    items::long_forms(set)?;
    values::numbers(set)?;
    lists::lists(set)?;
    places::small_places(set)?;
    trees::nests(set)?;
    random_inputs(set, random)?;
    trees::random_trees(set, random)
}

fn every_stream(set: &mut StreamSet, random: &mut Random) -> io::Result<()> {
    set.heading("Streams with answers written by hand.")?;
    for sequence in by_hand::streams() {
        let short = sequence.iter().all(|(line, _)| line.len() <= by_hand::LONGEST_IN_SAMPLE);
        set.sequence(sequence.into_iter().map(|(line, _)| line).collect(), short)?;
    }
    streams::streams(set)?;
    raw_streams::raw_streams(set)?;
    full_streams::full_streams(set)?;
    bad_states::states(set)?;
    random_streams::random_streams(set, random)
}

fn every_amending(set: &mut CaseSet, random: &mut Random) -> io::Result<()> {
    by_hand_lines(set, "Amendings with answers written by hand.", &by_hand::amendings())?;
    amendings::amendings(set)?;
    amend_bounds::bounds(set)?;
    amend_refusals::refusals(set)?;
    random_amendings::random_amendings(set, random)
}

fn by_hand_lines(set: &mut CaseSet, heading: &str, lines: &[by_hand::Line]) -> io::Result<()> {
    set.heading(heading)?;
    lines.iter().try_for_each(|(line, _)| set.case(line.clone(), line.len() <= by_hand::LONGEST_IN_SAMPLE))
}

fn random_inputs(set: &mut CaseSet, random: &mut Random) -> io::Result<()> {
    set.heading("Random inputs.")?;
    for number in 0..RANDOM_INPUTS {
        let pick = number % RANDOM_INPUTS_FOR_ONE_PICKED == 0;
        let good = random.encoding(2);
        let damaged = random.damaged(&good);
        for bytes in [random.any_bytes(), random.long_start(), damaged, good] {
            random_input(set, &bytes, pick)?;
        }
        set.call("length", &random.length_bytes(), pick)?;
        random_lists(set, random, pick)?;
    }
    Ok(())
}

fn random_input(set: &mut CaseSet, bytes: &[u8], pick: bool) -> io::Result<()> {
    let pick = pick && bytes.len() <= LONGEST_RANDOM_IN_SAMPLE;
    set.every_call(bytes, if pick { RANDOM_CALLS_IN_SAMPLE } else { NO_CALLS })
}

/// A random list, alone and followed by other bytes, whole and damaged.
fn random_lists(set: &mut CaseSet, random: &mut Random, pick: bool) -> io::Result<()> {
    let list = random.list(2);
    let followed = list.followed_by(&random.encoding(1));
    let damaged = list.with_bytes(random.damaged(&list.bytes));
    let damaged_followed = list.with_bytes(random.damaged(&followed.bytes));
    for list in [list, followed, damaged, damaged_followed] {
        random_input(set, &list.bytes, pick)?;
        random_questions(set, random, &list, pick)?;
    }
    Ok(())
}

fn random_questions(set: &mut CaseSet, random: &mut Random, list: &List, pick: bool) -> io::Result<()> {
    let pick = pick && list.bytes.len() <= LONGEST_RANDOM_IN_SAMPLE;
    for _ in 0..RANDOM_QUESTIONS {
        set.at(&list.bytes, random.index(list), pick)?;
        set.at_from(&list.bytes, random.index(list), random.place(list), pick)?;
    }
    Ok(())
}
