//! The program: input bytes to output bytes.
use crate::lineages::{self, Rooting};
use crate::reader::{read, Kind};
use crate::roster::names;
use crate::search::search_ties;
use crate::writer::text;
use crate::{Refusal, TEXT};

fn line_end(input: &[u8], from: usize) -> Option<usize> {
    input[from..].iter().position(|&b| b == b'\n').map(|i| from + i)
}

fn solve(input: &[u8]) -> Result<Vec<u8>, Refusal> {
    if input.len() > TEXT {
        return Err((2, TEXT));
    }
    let first = line_end(input, 0);
    let line = &input[..first.unwrap_or(input.len())];
    let names = names(line)?;
    let n = names.len();
    if n > 12 {
        return Err((17, 0));
    }
    let missing = (10, input.len());
    let mode_at = first.ok_or(missing)? + 1;
    let mode_end = line_end(input, mode_at).ok_or(missing)?;
    let (all, rooting) = match &input[mode_at..mode_end] {
        b"all" => (true, Rooting::Rooted),
        b"genes" => (false, Rooting::Rooted),
        b"all unrooted" => (true, Rooting::Unrooted),
        b"genes unrooted" => (false, Rooting::Unrooted),
        _ => return Err((3, mode_at)),
    };
    let mut at = mode_end + 1;
    let mut genes: Vec<u16> = Vec::new();
    let mut starts = Vec::new();
    loop {
        while at < input.len() && matches!(input[at], b' ' | b'\t' | b'\n' | b'\r') {
            at += 1;
        }
        if at == input.len() {
            break;
        }
        if starts.len() == 512 {
            return Err((17, at));
        }
        let (record, next) = read(Kind::Gene, None, line, input, at)?;
        genes.extend_from_slice(&record);
        starts.push(at);
        at = next;
    }
    let count = starts.len();
    if count == 0 {
        return Err((11, 0));
    }
    // 19 has the tree's first byte in place of its index
    let in_input = |(number, place)| (number, if number == 19 { starts[place] } else { place });
    let mut allowed = vec![1u8; 1 << n];
    if !all {
        lineages::mark(rooting, n, &genes, count, &mut allowed).map_err(in_input)?;
    }
    let (mut scores, mut splits, mut table) = (vec![0; 1 << n], vec![0; 1 << n], vec![0; 1 << n]);
    let (score, ties, record) = search_ties(rooting, n, &genes, count, &allowed, &mut scores, &mut splits, &mut table).map_err(in_input)?;
    let tree = String::from_utf8(text(&names, &record)).unwrap();
    Ok(format!("taxa {n} genes {count}\nscore {score}\nties {ties}\n{tree}\n").into_bytes())
}

pub fn report(input: &[u8]) -> Vec<u8> {
    solve(input).unwrap_or_else(|(number, place)| format!("refused {number} at {place}\n").into_bytes())
}
