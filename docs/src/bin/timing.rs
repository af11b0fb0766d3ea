//! The sets of ./bench, and this version's search timed on one: `timing draw SET RECORDS` writes the gene records of a set,
//! `timing search SET RECORDS ANSWER` searches them with all clusters allowed, writes the answer and prints the microseconds of processor time.
//! In the set `ties` it is the search with ties (#111), on the gene trees of `binary`. Both files are numbers with the low byte first: sixteen
//! bits each in RECORDS; in ANSWER the score (64), the number of ties (64), the record (16), the score table (32), the split table (16) and the
//! table of ties (64), with 0 for all ties in the other sets. docs/src/timing.c writes the same of the proved search.
use reference::lineages::Rooting;
use reference::search::{search, search_ties};
use reference::seeded::Seeded;
use reference::trees::{record, whole};
use reference::SPECIES;
use std::ffi::c_long;

extern "C" {
    /// C's own: the processor time of this process, in microseconds on Linux.
    fn clock() -> c_long;
}

/// The clusters of a random binary tree: two of the parts are joined until one is left. The cluster before the last is a child of the root.
fn binary_on(s: &mut Seeded, species: Vec<u16>) -> Vec<u16> {
    let mut parts = species;
    let mut clusters = parts.clone();
    while parts.len() > 1 {
        let at = s.below(parts.len());
        let a = parts.swap_remove(at);
        let at = s.below(parts.len());
        let b = parts.swap_remove(at);
        parts.push(a | b);
        clusters.push(a | b);
    }
    clusters
}

fn all() -> Vec<u16> {
    (0..SPECIES).map(|i| 1 << i).collect()
}

fn binary(s: &mut Seeded) -> Vec<u16> {
    binary_on(s, all())
}

/// Each inner branch is contracted with one chance in three.
fn unresolved(s: &mut Seeded) -> Vec<u16> {
    let mut clusters = binary(s);
    clusters.retain(|&x| x.count_ones() == 1 || x == whole(SPECIES) || !s.one_in(3));
    clusters
}

/// Each species is lost with one chance in five; where all would be, they are drawn again.
fn lost(s: &mut Seeded) -> Vec<u16> {
    loop {
        let mut kept = all();
        kept.retain(|_| !s.one_in(5));
        if !kept.is_empty() {
            return binary_on(s, kept);
        }
    }
}

/// The root is drawn on a branch or, with one chance in two, at a node, where it has three children.
fn unrooted(s: &mut Seeded) -> Vec<u16> {
    let mut clusters = binary(s);
    if s.one_in(2) {
        clusters.remove(clusters.len() - 2);
    }
    clusters
}

fn draw(set: &str) -> Vec<u16> {
    let (trees, tree): (usize, fn(&mut Seeded) -> Vec<u16>) = match set {
        "binary" | "ties" => (2000, binary),
        "unresolved" => (2000, unresolved),
        "lost" => (2000, lost),
        "unrooted" => (2000, unrooted),
        "many" => (4096, binary),
        _ => panic!("there is no set {set}"),
    };
    let mut s = Seeded::new(20_261_115);
    (0..trees).flat_map(|_| record(&tree(&mut s))).collect()
}

/// The answer as bytes, and the microseconds.
fn timed(set: &str, genes: &[u16]) -> (Vec<u8>, c_long) {
    let rooting = if set == "unrooted" { Rooting::Unrooted } else { Rooting::Rooted };
    let allowed = vec![1u8; 1 << SPECIES];
    let (mut scores, mut splits, mut table) = (vec![0u32; 1 << SPECIES], vec![0u16; 1 << SPECIES], vec![0u64; 1 << SPECIES]);
    let count = genes.len() / 32;
    let begin = unsafe { clock() };
    let found = if set == "ties" {
        search_ties(rooting, SPECIES, genes, count, &allowed, &mut scores, &mut splits, &mut table)
    } else {
        search(rooting, SPECIES, genes, count, &allowed, &mut scores, &mut splits).map(|(score, record)| (score, 0, record))
    };
    let time = unsafe { clock() } - begin;
    let (score, ties, record) = found.unwrap();
    let mut answer = [score as u64, ties].map(u64::to_le_bytes).concat();
    answer.extend(record.iter().flat_map(|x| x.to_le_bytes()));
    answer.extend(scores.iter().flat_map(|x| x.to_le_bytes()));
    answer.extend(splits.iter().flat_map(|x| x.to_le_bytes()));
    answer.extend(table.iter().flat_map(|x| x.to_le_bytes()));
    (answer, time)
}

fn main() {
    let words: Vec<String> = std::env::args().skip(1).collect();
    match words.iter().map(String::as_str).collect::<Vec<_>>()[..] {
        ["draw", set, records] => {
            let bytes: Vec<u8> = draw(set).iter().flat_map(|x| x.to_le_bytes()).collect();
            std::fs::write(records, bytes).unwrap();
        }
        ["search", set, records, answer] => {
            let bytes = std::fs::read(records).unwrap();
            let genes: Vec<u16> = bytes.chunks(2).map(|b| u16::from_le_bytes([b[0], b[1]])).collect();
            let (found, time) = timed(set, &genes);
            std::fs::write(answer, found).unwrap();
            println!("{time}");
        }
        _ => panic!("usage: timing draw SET RECORDS, or timing search SET RECORDS ANSWER"),
    }
}
