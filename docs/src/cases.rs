//! The case file: one call a line, and the answer that is printed for it. README.md beside this file says how a line is written.
use crate::lineages::Rooting;
use crate::reader::Kind;
use crate::sheet::{sheet, Entry};
use crate::shelf::{Lent, NUMBERS};
use crate::trees::{Mask, Record};
use crate::{counts, lineages, plain, reader, report, roster, search, stand, writer, Refusal};
use std::fmt::Write;

/// What lent buffers hold before a call.
const BYTE: u8 = 238;
const SCORE: u32 = 7;
const SPLIT: u16 = 9;
const TIE: u64 = 5;
const ENTRY_NUMBER: u32 = 5;
const ENTRY_SCORE: usize = 6;
const ON_SHELF: u16 = 9;

fn decimal(s: &[u8], at: &mut usize) -> usize {
    let mut value = 0;
    while *at < s.len() && s[*at].is_ascii_digit() {
        value = value * 10 + (s[*at] - b'0') as usize;
        *at += 1;
    }
    value
}

fn hex(b: u8) -> u8 {
    if b.is_ascii_digit() {
        b - b'0'
    } else {
        b - b'a' + 10
    }
}

/// Bytes stand for themselves; `\hh` is a byte in hexadecimal, `\*N.` the byte before N times more.
fn bytes(field: &[u8]) -> Vec<u8> {
    let mut out = Vec::new();
    let mut at = 0;
    while at < field.len() {
        if field[at] != b'\\' {
            out.push(field[at]);
            at += 1;
        } else if field[at + 1] == b'*' {
            at += 2;
            let times = decimal(field, &mut at);
            let last = *out.last().unwrap();
            out.extend(std::iter::repeat(last).take(times));
            at += 1;
        } else {
            out.push(hex(field[at + 1]) * 16 + hex(field[at + 2]));
            at += 3;
        }
    }
    out
}

/// Numbers with a space before each but the first; `*N` is the number before N times more, `#N` the record before, of so many numbers, N times more.
fn unfolded(field: &[u8], length: usize) -> Vec<usize> {
    let mut out: Vec<usize> = Vec::new();
    let mut at = 0;
    while at < field.len() {
        match field[at] {
            b'*' => {
                at += 1;
                let times = decimal(field, &mut at);
                let last = *out.last().unwrap();
                out.extend(std::iter::repeat(last).take(times));
            }
            b'#' => {
                at += 1;
                let times = decimal(field, &mut at);
                let last = out[out.len() - length..].to_vec();
                for _ in 0..times {
                    out.extend_from_slice(&last);
                }
            }
            b' ' => at += 1,
            _ => out.push(decimal(field, &mut at)),
        }
    }
    out
}

fn numbers(field: &[u8]) -> Vec<u16> {
    unfolded(field, 32).into_iter().map(|x| x as u16).collect()
}

fn wide_numbers(field: &[u8]) -> Vec<u32> {
    unfolded(field, 64).into_iter().map(|x| x as u32).collect()
}

fn number(field: &[u8]) -> usize {
    decimal(field, &mut 0)
}

fn record(field: &[u8]) -> Record {
    numbers(field).try_into().unwrap()
}

/// Bytes, each written as a number.
fn flags(field: &[u8]) -> Vec<u8> {
    numbers(field).into_iter().map(|x| x as u8).collect()
}

/// A buffer's fingerprint.
fn mixed<T: Copy + Into<u64>>(entries: &[T]) -> u64 {
    entries.iter().fold(7, |h, &x| (h * 31 + x.into() + 1) % 1_000_003)
}

fn reply(line: &mut String, answer: &Result<usize, Refusal>) {
    match answer {
        Ok(value) => write!(line, "0 0 {value}").unwrap(),
        Err((number, place)) => write!(line, "{number} {place} 0").unwrap(),
    }
}

/// A record's numbers up to its last that is not 0.
fn listed<M: Mask>(line: &mut String, r: &[M]) {
    let upto = r.iter().rposition(|&x| x != M::from(0)).map_or(0, |i| i + 1);
    for x in &r[..upto] {
        write!(line, " {x:?}").unwrap();
    }
}

/// The offset behind a tree and its record, or the refusal with the offset that the reader was given.
fn tree_read<M: Mask, const LENGTH: usize>(line: &mut String, start: usize, answer: Result<([M; LENGTH], usize), Refusal>) {
    match answer {
        Ok((record, next)) => {
            write!(line, "0 0 {next}").unwrap();
            listed(line, &record);
        }
        Err((number, place)) => write!(line, "{number} {place} {start}").unwrap(),
    }
}

fn found(line: &mut String, answer: Result<(usize, Record), Refusal>) {
    match answer {
        Ok((score, record)) => {
            write!(line, "0 0 {score}").unwrap();
            listed(line, &record);
        }
        Err((number, place)) => write!(line, "{number} {place} 0").unwrap(),
    }
}

/// A text's length, the fingerprint of the bytes that it was written into, and the text.
fn written(line: &mut String, out: &[u8], answer: &Result<usize, Refusal>) {
    reply(line, answer);
    write!(line, " {} ", mixed(out)).unwrap();
    line.push_str(std::str::from_utf8(&out[..answer.unwrap_or(0)]).unwrap());
}

fn checked(line: &mut String, field: &[&[u8]]) {
    let (mut scores, mut splits) = (vec![SCORE; number(field[5])], vec![SPLIT; number(field[6])]);
    reply(line, &counts::check(&bytes(field[0]), &bytes(field[1]), number(field[2]), &numbers(field[3]), number(field[4]), &mut scores, &mut splits));
    write!(line, " : {} {}", mixed(&scores), mixed(&splits)).unwrap();
}

fn searched(line: &mut String, rooting: Rooting, field: &[&[u8]]) {
    let (mut scores, mut splits) = (vec![SCORE; number(field[4])], vec![SPLIT; number(field[5])]);
    found(line, search::search(rooting, number(field[0]), &numbers(field[1]), number(field[2]), &flags(field[3]), &mut scores, &mut splits));
    write!(line, " : {} {}", mixed(&scores), mixed(&splits)).unwrap();
}

/// The calls on a stand (02, #110), which have both rosters and the mapping first.
fn on_a_stand(line: &mut String, call: u8, field: &[&[u8]]) {
    let stand = stand::judge(&bytes(field[0]), &bytes(field[1]), &bytes(field[2]));
    let genes = || (wide_numbers(field[3]), number(field[4]));
    match call {
        b'I' => reply(line, &stand.map(|stand| stand.individuals)),
        b'X' => {
            let (genes, count) = genes();
            reply(line, &stand.and_then(|stand| stand.weight(&genes, count, number(field[5]))));
        }
        b'Y' => {
            let (genes, count) = genes();
            reply(line, &stand.and_then(|stand| stand.score(&genes, count, &record(field[5]))));
        }
        _ => {
            let (genes, count) = genes();
            let (mut scores, mut splits) = (vec![SCORE; number(field[6])], vec![SPLIT; number(field[7])]);
            found(line, stand.and_then(|stand| stand.search(&genes, count, &flags(field[5]), &mut scores, &mut splits)));
            write!(line, " : {} {}", mixed(&scores), mixed(&splits)).unwrap();
        }
    }
}

fn searched_with_ties(line: &mut String, rooting: Rooting, field: &[&[u8]]) {
    let (mut scores, mut splits, mut ties) = (vec![SCORE; number(field[4])], vec![SPLIT; number(field[5])], vec![TIE; number(field[6])]);
    match search::search_ties(rooting, number(field[0]), &numbers(field[1]), number(field[2]), &flags(field[3]), &mut scores, &mut splits, &mut ties) {
        Ok((score, count, record)) => {
            write!(line, "0 0 {score} {count}").unwrap();
            listed(line, &record);
        }
        Err((number, place)) => write!(line, "{number} {place} 0 0").unwrap(),
    }
    write!(line, " : {} {} {}", mixed(&scores), mixed(&splits), mixed(&ties)).unwrap();
}

fn filled(line: &mut String, rooting: Rooting, field: &[&[u8]]) {
    let positions = field[4].split(|&b| b == b' ').filter(|word| !word.is_empty()).map(number);
    let mut entries: Vec<Entry> = positions.map(|position| Entry { position, number: ENTRY_NUMBER, score: ENTRY_SCORE }).collect();
    let answer = sheet(rooting, number(field[0]), &numbers(field[1]), number(field[2]), &numbers(field[3]), &mut entries);
    reply(line, &answer.map(|()| 0));
    for entry in entries {
        write!(line, " {}:{}:{}", entry.position, entry.number, entry.score).unwrap();
    }
}

/// A step on a shelf (02, #112) is done; the answer, which lending and writing a number have not.
fn step_done(lent: &mut Lent, step: &[u8]) -> Option<String> {
    let mut at = 2;
    let first = decimal(step, &mut at);
    // most steps are a bench's
    let bench = first;
    let rest = &step[(at + 1).min(step.len())..];
    let mut line = String::new();
    match step[0] {
        b'l' => {
            lent.length = first;
            return None;
        }
        b'w' => {
            lent.numbers()[first] = number(rest) as u16;
            return None;
        }
        b'o' => reply(&mut line, &lent.open(first).map(|()| 0)),
        b'a' => reply(&mut line, &lent.shelf(bench).and_then(|shelf| shelf.add(bench, &record(rest)))),
        b'r' => match lent.shelf(bench).and_then(|shelf| shelf.read(bench, number(rest))) {
            Ok(record) => {
                line.push_str("0 0");
                listed(&mut line, &record);
            }
            Err((number, place)) => write!(line, "{number} {place}").unwrap(),
        },
        b'd' => reply(&mut line, &lent.shelf(bench).and_then(|shelf| shelf.remove(bench, number(rest))).map(|()| 0)),
        b's' => reply(&mut line, &lent.shelf(bench).and_then(|shelf| shelf.score(bench, &record(rest)))),
        b'f' => {
            let entries = if (1..=10).contains(&lent.species()) { 1 << lent.species() } else { 16 };
            let (mut scores, mut splits) = (vec![SCORE; entries], vec![SPLIT; entries]);
            found(&mut line, lent.shelf(bench).and_then(|shelf| shelf.search(bench, &flags(rest), &mut scores, &mut splits)));
            write!(line, " : {} {}", mixed(&scores), mixed(&splits)).unwrap();
        }
        other => panic!("no step is named {}", other as char),
    }
    Some(line)
}

/// Steps on one shelf, which at first has three numbers more than it needs; then its fingerprint.
fn on_a_shelf(line: &mut String, steps: &[&[u8]]) {
    let mut lent = Lent::new(vec![ON_SHELF; NUMBERS + 3]);
    for (i, step) in steps.iter().enumerate() {
        let (step, times) = if step[0] == b'x' { (steps[i - 1], number(&step[2..])) } else { (*step, 1) };
        let last = (0..times).map(|_| step_done(&mut lent, step)).last();
        if let Some(Some(answer)) = last {
            write!(line, "{answer} ; ").unwrap();
        }
    }
    write!(line, "{}", mixed(lent.numbers())).unwrap();
}

/// The answer to a case, with its line feed.
pub fn answer(case: &[u8]) -> Vec<u8> {
    let field: Vec<&[u8]> = case[1..].split(|&b| b == b'|').collect();
    let mut line = String::new();
    let rooting = if case[0].is_ascii_lowercase() { Rooting::Unrooted } else { Rooting::Rooted };
    match case[0] {
        b'J' => reply(&mut line, &roster::names(&bytes(field[0])).map(|names| names.len())),
        b'R' | b'G' | b'T' => {
            let kind = if case[0] == b'R' { Kind::Species } else { Kind::Gene };
            let start = number(field[2]);
            let threshold = (case[0] == b'T').then(|| number(field[3]));
            tree_read(&mut line, start, reader::read(kind, threshold, &bytes(field[0]), &bytes(field[1]), start));
        }
        b'N' => tree_read(&mut line, number(field[2]), stand::read(&bytes(field[0]), &bytes(field[1]), number(field[2]))),
        b'I' | b'X' | b'Y' | b'Z' => on_a_stand(&mut line, case[0], &field),
        b'W' => {
            let mut out = vec![BYTE; number(field[2])];
            let answer = writer::write(&bytes(field[0]), &record(field[1]), &mut out);
            written(&mut line, &out, &answer);
        }
        b'K' | b'k' => reply(&mut line, &lineages::weight(rooting, number(field[0]), &numbers(field[1]), number(field[2]), number(field[3]))),
        b'S' | b's' => reply(&mut line, &lineages::score(rooting, number(field[0]), &numbers(field[1]), number(field[2]), &record(field[3]))),
        b'M' | b'm' => {
            let mut out = vec![BYTE; number(field[3])];
            let answer = lineages::mark(rooting, number(field[0]), &numbers(field[1]), number(field[2]), &mut out);
            reply(&mut line, &answer.map(|()| 0));
            write!(line, " {}", mixed(&out)).unwrap();
        }
        b'F' | b'f' => searched(&mut line, rooting, &field),
        b'E' | b'e' => searched_with_ties(&mut line, rooting, &field),
        b'L' | b'l' => found(&mut line, plain::plain(rooting, number(field[0]), &numbers(field[1]), number(field[2]), &flags(field[3]))),
        b'H' | b'h' => filled(&mut line, rooting, &field),
        b'C' => checked(&mut line, &field),
        b'O' => {
            let mut out = vec![BYTE; number(field[4])];
            let answer = counts::write_counts(&bytes(field[0]), &numbers(field[1]), number(field[2]), &record(field[3]), &mut out);
            written(&mut line, &out, &answer);
        }
        b'B' => on_a_shelf(&mut line, &field),
        b'P' => return report::report(&bytes(field[0])),
        other => panic!("no call is named {}", other as char),
    }
    line.push('\n');
    line.into_bytes()
}
