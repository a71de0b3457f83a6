//! The table in Markdown, made of lines `WORK READINGS SIDE WHAT NUMBER`, WHAT being `instructions` or `nanoseconds`.

use std::collections::BTreeMap;

use crate::works::WORKS;

type Numbers<'a> = BTreeMap<(&'a str, u64, &'a str, &'a str), f64>;

fn read(lines: &str) -> Numbers<'_> {
    let mut numbers = Numbers::new();
    for line in lines.lines() {
        let words: Vec<&str> = line.split_whitespace().collect();
        let [work, readings, side, what, number] = words[..] else { panic!("not a line of the table: {line}") };
        numbers.insert((work, readings.parse().unwrap(), side, what), number.parse().unwrap());
    }
    numbers
}

/// 1234567 as 1,234,567.
fn grouped(number: f64) -> String {
    let digits = format!("{number:.0}");
    let mut text = String::new();
    for (index, digit) in digits.chars().enumerate() {
        if index > 0 && (digits.len() - index) % 3 == 0 {
            text.push(',');
        }
        text.push(digit);
    }
    text
}

/// What a work costs from 10,000 to 61,000 readings, divided by 6.1: 1.00 is growth with the readings.
fn growth(numbers: &Numbers, work: &str, readings: u64, side: &str) -> String {
    match (readings, numbers.get(&(work, 10_000, side, "instructions")), numbers.get(&(work, 61_000, side, "instructions"))) {
        (61_000, Some(less), Some(more)) => format!("{:.2}", more / less / 6.1),
        _ => String::new(),
    }
}

/// The cells of both sides' numbers and their ratio; none where this was not measured.
fn cells(numbers: &Numbers, work: &str, readings: u64, what: &str, shown: fn(f64) -> String) -> Option<String> {
    let r = numbers.get(&(work, readings, "r", what))?;
    let here = numbers.get(&(work, readings, "here", what))?;
    Some(format!(" {} | {} | {:.2} |", shown(*r), shown(*here), here / r))
}

/// The parts of a table beside the counts.
struct Columns {
    growth: bool,
    time: bool,
}

impl Columns {
    fn of(numbers: &Numbers) -> Columns {
        Columns {
            growth: [10_000, 61_000].iter().all(|&readings| numbers.keys().any(|key| key.1 == readings)),
            time: numbers.keys().any(|key| key.3 == "nanoseconds"),
        }
    }

    fn head(&self) -> String {
        let mut names = vec!["Work", "Readings", "R", "here", "here/R"];
        if self.growth {
            names.extend(["growth R", "growth here"]);
        }
        if self.time {
            names.extend(["R, µs", "here, µs", "here/R"]);
        }
        format!("| {} |\n|---|{}\n", names.join(" | "), "--:|".repeat(names.len() - 1))
    }

    fn row(&self, numbers: &Numbers, work: &str, title: &str, readings: u64) -> Option<String> {
        let mut row = format!("| {title} | {} |", grouped(readings as f64));
        row += &cells(numbers, work, readings, "instructions", grouped)?;
        if self.growth {
            row += &format!(" {} | {} |", growth(numbers, work, readings, "r"), growth(numbers, work, readings, "here"));
        }
        if self.time {
            row += &cells(numbers, work, readings, "nanoseconds", |time| format!("{:.1}", time / 1000.0))?;
        }
        Some(row + "\n")
    }
}

/// A work's title stands in its first row alone.
pub fn made(lines: &str) -> String {
    let numbers = read(lines);
    let columns = Columns::of(&numbers);
    let mut text = columns.head();
    for work in WORKS {
        let mut title = work.title;
        for key in numbers.keys().filter(|key| (key.0, key.2, key.3) == (work.name, "r", "instructions")) {
            if let Some(row) = columns.row(&numbers, work.name, title, key.1) {
                text += &row;
                title = "";
            }
        }
    }
    text
}
