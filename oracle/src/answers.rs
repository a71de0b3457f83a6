//! The cases beside the answers of every side, read in step from files or pipes.

use line::{AMEND, BLOCK, STREAM_WORDS, next_line};
use std::borrow::Cow;
use std::fs::File;
use std::io::{self, BufReader};

/// What stands for an answer that a side did not give.
const NO_ANSWER: &str = "(no answer)";

/// A case and what each side answered to it.
#[derive(Default)]
pub struct Answered {
    /// The number of its line, counted from 1.
    pub number: usize,
    pub case: String,
    pub debug: String,
    pub release: String,
    pub model: String,
    /// The library's answer, if it is compared.
    pub library: Option<String>,
    /// The lines of a stream before this one, from the line `stream` on.
    pub before: Vec<String>,
    /// Whether R has lost that stream: it answered one of these lines otherwise than the rules, or could not be told it. Then
    /// its answers are no longer about the same stream, and `none` stands for them.
    pub lost: bool,
}

impl Answered {
    /// Whether R, in one of its builds, answers otherwise than the rules.
    pub fn departs(&self) -> bool {
        !self.without_r() && (self.debug != self.model || self.release != self.model)
    }

    /// Whether R cannot be asked this.
    pub fn without_r(&self) -> bool {
        self.debug == "none" && self.release == "none"
    }

    /// Whether a side did not answer at all.
    pub fn lacks_answer(&self) -> bool {
        let sides = [Some(&self.debug), Some(&self.release), Some(&self.model), self.library.as_ref()];
        sides.into_iter().flatten().any(|answer| answer == NO_ANSWER)
    }

    /// The case, on a stream with the lines before it, and the answers of R and of the rules.
    pub fn written(&self) -> String {
        let Answered { debug, release, model, .. } = self;
        let case = self.sequence();
        format!("{case} | R debug: {debug} | R release: {release} | rules: {model}")
    }

    /// The first word of the case, or what stands for it where the line is malformed.
    pub fn call(&self) -> &str {
        if self.model == "bad line" { "(bad line)" } else { self.first_word() }
    }

    fn first_word(&self) -> &str {
        self.case.split(' ').next().unwrap_or_default()
    }

    /// Whether the case is a line of a stream.
    pub fn of_stream(&self) -> bool {
        STREAM_WORDS.contains(&self.first_word())
    }

    /// Whether it is an amending that the rules refuse. Then R has no say: it has no amender, only a stream that writes the changed
    /// tree anew.
    pub fn is_refused_amending(&self) -> bool {
        self.call() == AMEND && self.model.starts_with("no ")
    }

    /// The case, on a stream with the lines before it.
    pub fn sequence(&self) -> Cow<'_, str> {
        if self.before.is_empty() || !self.of_stream() {
            return Cow::Borrowed(&self.case);
        }
        Cow::Owned(self.before.join(BETWEEN_LINES) + BETWEEN_LINES + &self.case)
    }

    /// Makes ready for the next line, which may go on with the stream of this one.
    fn pass(&mut self) {
        if self.of_stream() {
            self.lost |= self.departs() || (self.without_r() && self.call() != "show");
            self.before.push(std::mem::take(&mut self.case));
        }
    }

    /// Takes R's answers for what they are on this line.
    fn follow(&mut self) {
        if self.call() == "stream" {
            self.before.clear();
            self.lost = false;
        }
        let lost = self.lost && self.of_stream() && self.model != "bad line";
        if lost || self.is_refused_amending() {
            self.debug = "none".to_string();
            self.release = "none".to_string();
        }
    }
}

/// What stands between the lines of a stream in one text.
pub const BETWEEN_LINES: &str = "; ";

type Side = BufReader<File>;

/// The cases of one run and the answers to them.
pub struct Answers {
    cases: Side,
    debug: Side,
    release: Side,
    model: Side,
    library: Option<Side>,
}

impl Answers {
    /// Opens the files of the cases, of R's answers in the debug and in the release build, of the model's answers and, if
    /// there is one more, of the library's.
    pub fn open(paths: &[String]) -> io::Result<Answers> {
        let [cases, debug, release, model, library @ ..] = paths else { panic!("files are missing: {paths:?}") };
        let open = |path: &String| File::open(path).map(|file| BufReader::with_capacity(BLOCK, file));
        Ok(Answers {
            cases: open(cases)?,
            debug: open(debug)?,
            release: open(release)?,
            model: open(model)?,
            library: library.first().map(open).transpose()?,
        })
    }

    /// Puts the next line that asks something, with its answers, into the place of the last one. `false`: there is none.
    pub fn next(&mut self, answered: &mut Answered) -> io::Result<bool> {
        answered.pass();
        while next_text(&mut self.cases, &mut answered.case)? {
            answered.number += 1;
            if line::asks(answered.case.as_bytes()) {
                self.answers_to(answered)?;
                answered.follow();
                return Ok(true);
            }
        }
        Ok(false)
    }

    fn answers_to(&mut self, answered: &mut Answered) -> io::Result<()> {
        next_answer(&mut self.debug, &mut answered.debug)?;
        next_answer(&mut self.release, &mut answered.release)?;
        next_answer(&mut self.model, &mut answered.model)?;
        match &mut self.library {
            Some(library) => next_answer(library, answered.library.get_or_insert_default()),
            None => Ok(()),
        }
    }

    /// Whether a side has answers left after the last case.
    pub fn surplus(&mut self) -> io::Result<bool> {
        let sides = [Some(&mut self.debug), Some(&mut self.release), Some(&mut self.model), self.library.as_mut()];
        let mut surplus = false;
        for side in sides.into_iter().flatten() {
            surplus |= next_text(side, &mut String::new())?;
        }
        Ok(surplus)
    }
}

fn next_answer(side: &mut Side, answer: &mut String) -> io::Result<()> {
    if !next_text(side, answer)? {
        answer.push_str(NO_ANSWER);
    }
    Ok(())
}

/// Puts the next line into the place of the last one. `false`: there is none. What is no text is shown as well as it goes.
fn next_text(side: &mut Side, text: &mut String) -> io::Result<bool> {
    let mut line = std::mem::take(text).into_bytes();
    let there = next_line(side, &mut line)?;
    *text = String::from_utf8(line).unwrap_or_else(|error| String::from_utf8_lossy(error.as_bytes()).into_owned());
    Ok(there)
}
