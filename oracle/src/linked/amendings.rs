//! Amendings in place, against what R makes of them: it decodes the sheet, the item is exchanged, and its stream encodes the tree
//! anew. Which amendings are refused is judged by the rules: R has neither their limits nor their order.

use crate::caught::caught;
use crate::library;
use crate::random::{Random, list, string};
use crate::report::{IN_NO_CLASS, NOT_THE_RULES, Report, cut, cuts, shrunk};
use crate::said::Said;
use crate::wrong::{self, Wrong};
use line::written as hex;
use rlp::{Rlp, RlpStream};
use rules::payload_info;

#[derive(Clone)]
struct Amending {
    buffer: Vec<u8>,
    n: usize,
    path: Vec<usize>,
    replacement: Vec<u8>,
}

/// What each side answers, with the buffer after the call.
struct Amended {
    ours: Said,
    our_buffer: Vec<u8>,
    rules: Said,
    rules_buffer: Vec<u8>,
    /// What R encodes, where the rules accept.
    r: Option<Vec<u8>>,
}

impl Amending {
    /// As docs/CASES.md writes it.
    fn text(&self) -> String {
        let path: Vec<String> = self.path.iter().map(usize::to_string).collect();
        let path = if path.is_empty() { "-".to_string() } else { path.join("/") };
        format!("amend {} {} {path} {}", hex(&self.buffer), self.n, hex(&self.replacement))
    }

    fn length(&self) -> usize {
        self.buffer.len() + self.path.len() + self.replacement.len()
    }

    fn done(&self, wrong: Option<Wrong>) -> Amended {
        let Amending { buffer, n, path, replacement } = self;
        let mut our_buffer = buffer.clone();
        let ours = library::amend(&mut our_buffer, *n, path, replacement);
        let ours = wrong::amending(wrong, *n, ours, &mut our_buffer);
        let indexes: Vec<u64> = path.iter().map(|index| *index as u64).collect();
        match amend_rules::amend(buffer, *n as u64, &indexes, replacement) {
            Ok((m, rules_buffer)) => {
                let r = caught(|| by_r(&buffer[..*n], path, replacement));
                let r = r.flatten().unwrap_or_default();
                let r = Some(wrong::bytes_of_r(wrong, Wrong::ByteOfRSheet, &r).to_vec());
                Amended { ours, our_buffer, rules: Said::one(m as u64), rules_buffer, r }
            }
            Err(number) => {
                Amended { ours, our_buffer, rules: Said::No(number.into()), rules_buffer: buffer.clone(), r: None }
            }
        }
    }

    fn smaller(&self) -> Vec<Amending> {
        let buffers = cuts(&self.buffer).into_iter().map(|buffer| Amending {
            n: self.n.min(buffer.len()),
            buffer,
            ..self.clone()
        });
        let replacements =
            cuts(&self.replacement).into_iter().map(|replacement| Amending { replacement, ..self.clone() });
        let shorter_path = self.path.split_last().map(|(_, path)| Amending { path: path.to_vec(), ..self.clone() });
        buffers.chain(replacements).chain(shorter_path).collect()
    }
}

impl Amended {
    fn unlisted(&self) -> Option<String> {
        if self.ours != self.rules {
            return Some(format!("{NOT_THE_RULES}: `amend`"));
        }
        if self.our_buffer != self.rules_buffer {
            return Some(format!("{NOT_THE_RULES}: the buffer of `amend`"));
        }
        let Said::Ok(m, _) = self.ours else { return None };
        let same = self.r.as_deref() == Some(&self.our_buffer[..m as usize]);
        (!same).then(|| format!("{IN_NO_CLASS}: `amend`"))
    }

    fn text(&self) -> String {
        let r = self.r.as_ref().map_or("none".to_string(), |r| hex(r));
        let (ours, rules) = (self.ours.text("amend"), self.rules.text("amend"));
        let (our_buffer, rules_buffer) = (hex(&self.our_buffer), hex(&self.rules_buffer));
        format!("R: {} | rules: {rules} {} | library: {ours} {}", cut(&r), cut(&rules_buffer), cut(&our_buffer))
    }
}

/// A tree as R reads it.
enum Tree {
    Data(Vec<u8>),
    List(Vec<Tree>),
}

/// The sheet with another item at the end of the path, encoded anew. `None`: R cannot do it.
fn by_r(sheet: &[u8], path: &[usize], replacement: &[u8]) -> Option<Vec<u8>> {
    let replacement = decoded(&Rlp::new(replacement))?;
    let tree = exchanged(decoded(&Rlp::new(sheet))?, path, replacement)?;
    let mut stream = RlpStream::new();
    append(&mut stream, &tree);
    Some(stream.out().to_vec())
}

fn decoded(item: &Rlp) -> Option<Tree> {
    if !item.is_list() {
        return Some(Tree::Data(item.as_val().ok()?));
    }
    item.payload_info().ok()?;
    item.iter().map(|item| decoded(&item)).collect::<Option<Vec<Tree>>>().map(Tree::List)
}

fn exchanged(tree: Tree, path: &[usize], replacement: Tree) -> Option<Tree> {
    let [index, rest @ ..] = path else { return Some(replacement) };
    let Tree::List(mut items) = tree else { return None };
    let item = items.get_mut(*index)?;
    *item = exchanged(std::mem::replace(item, Tree::List(vec![])), rest, replacement)?;
    Some(Tree::List(items))
}

fn append(stream: &mut RlpStream, tree: &Tree) {
    match tree {
        Tree::Data(value) => drop(stream.append(value)),
        Tree::List(items) => {
            stream.begin_list(items.len());
            items.iter().for_each(|item| append(stream, item));
        }
    }
}

pub fn amendings(number: usize, random: &mut Random, wrong: Option<Wrong>, report: &mut Report) {
    report.begin_part("Amendings");
    for _ in 0..number {
        compare(&random.amending(), wrong, report);
    }
    report.end_part();
}

fn compare(amending: &Amending, wrong: Option<Wrong>, report: &mut Report) {
    let amended = amending.done(wrong);
    report.input();
    report.results(2, amended.r.iter().count() as u64);
    report.refusal(amended.ours);
    if let Some(sort) = amended.unlisted() {
        report.unlisted(sort.clone(), amending.length(), || smallest(amending.clone(), &sort, wrong));
    }
}

fn smallest(amending: Amending, sort: &str, wrong: Option<Wrong>) -> (usize, String) {
    let is_one = |amending: &Amending| amending.done(wrong).unlisted().as_deref() == Some(sort);
    let amending = shrunk(amending, Amending::smaller, is_one);
    (amending.length(), format!("{} | {}", cut(&amending.text()), amending.done(wrong).text()))
}

/// Amendings of bytes at the limit and above it, and with headers that grow and shrink on the far bounds.
pub fn large_amendings(wrong: Option<Wrong>, report: &mut Report) {
    report.begin_part("Amendings, at the limit of bytes and on the far bounds");
    for length in [253, 254, 255, 256, 65_530, 65_531, 65_532, 65_533, 65_534, 65_535, 1_048_560] {
        for (old, new) in [(1, 2), (2, 1), (1, 3), (3, 1), (1, 60), (60, 1)] {
            let sheet =
                list(&[list(&[string(&vec![0x61; length]), string(&vec![0x62; old])].concat()), vec![0x05]].concat());
            for room in [sheet.len(), sheet.len() + 70, 1_048_576, 1_048_577] {
                let mut buffer = sheet.clone();
                buffer.resize(room, 0x77);
                let amending =
                    Amending { buffer, n: sheet.len(), path: vec![0, 1], replacement: string(&vec![0x63; new]) };
                compare(&amending, wrong, report);
            }
        }
    }
    report.end_part();
}

impl Random {
    fn amending(&mut self) -> Amending {
        let mut sheet = self.sheet();
        let path = self.path(&sheet);
        let mut replacement = if self.one_in(6) { self.any_tree() } else { self.tree(1) };
        if self.one_in(24) {
            sheet = self.damaged(sheet);
        }
        if self.one_in(24) {
            replacement = self.damaged(replacement);
        }
        let room = match self.below(4) {
            0 => sheet.len() + self.below(4),
            1 => sheet.len() + replacement.len(),
            _ => sheet.len() + replacement.len() + 8 + self.below(20),
        };
        let n = if self.one_in(30) { self.below(room + 3) } else { sheet.len() };
        let mut buffer = sheet;
        buffer.resize(room, 0x77);
        Amending { buffer, n, path, replacement }
    }

    /// A list of a few trees, or any tree.
    fn sheet(&mut self) -> Vec<u8> {
        if self.one_in(3) {
            return self.any_tree();
        }
        let payload: Vec<u8> = (0..self.below(6)).flat_map(|_| self.tree(3)).collect();
        list(&payload)
    }

    /// A path to an item of the sheet, now and then past one.
    fn path(&mut self, sheet: &[u8]) -> Vec<usize> {
        let mut path = Vec::new();
        let mut item = sheet;
        while !self.one_in(6) {
            let items = items_of(item);
            if items.is_empty() {
                break;
            }
            let index = self.below(items.len());
            path.push(index);
            item = items[index];
        }
        match self.below(20) {
            0 => path.push(self.below(3)),
            1 => path.iter_mut().last().into_iter().for_each(|index| *index += 1),
            2 if self.one_in(4) => path.push(usize::MAX),
            _ => (),
        }
        path
    }
}

/// The items of a list, none of what is no list.
fn items_of(item: &[u8]) -> Vec<&[u8]> {
    let mut items = Vec::new();
    let (Some(0xc0..), Ok((header, value))) = (item.first(), payload_info(item)) else { return items };
    let mut rest = &item[header as usize..(header + value) as usize];
    while let Ok((header, value)) = payload_info(rest) {
        let (first, behind) = rest.split_at((header + value) as usize);
        items.push(first);
        rest = behind;
    }
    items
}
