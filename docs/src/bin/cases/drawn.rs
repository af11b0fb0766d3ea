//! Cases from a seed: good and damaged rosters, texts, records and inputs.
use crate::lines::Cases;
use reference::lineages::Rooting;
use reference::reader::Kind;
use reference::roster::joined;
use reference::seeded::Seeded;
use reference::writer;

pub fn drawn(c: &mut Cases, s: &mut Seeded) {
    (0..400).for_each(|_| roster(c, s));
    (0..1500).for_each(|_| text(c, s));
    (0..400).for_each(|_| record(c, s));
    (0..300).for_each(|_| counts(c, s));
    (0..250).for_each(|_| search(c, s));
    for n in [12usize, 16] {
        let genes: Vec<u16> = (0..20).flat_map(|_| s.gene(n, true)).collect();
        c.search(n, &genes, 20, &vec![1; 1 << n], 1 << n, 1 << n);
    }
    (0..150).for_each(|_| input(c, s));
    full_inputs(c, s);
    (0..150).for_each(|_| unresolved(c, s));
}

fn roster(c: &mut Cases, s: &mut Seeded) {
    let n = 1 + s.below(18);
    let names = s.names(n);
    let line = joined(&names);
    let line = if s.one_in(2) { s.damaged(line) } else { line };
    c.judge(&line);
}

fn text(c: &mut Cases, s: &mut Seeded) {
    let n = 1 + s.below(16);
    let names = s.names(n);
    // one in eight draws all species but the last, and one in eight the first in place of the last
    let mut drawn = names.clone();
    match s.below(8) {
        0 if n > 1 => drop(drawn.pop()),
        1 => drawn[n - 1] = names[0].clone(),
        _ => (),
    }
    let good = s.text(&drawn);
    let text = if s.one_in(4) { good } else { s.damaged(good) };
    let before = s.below(4);
    let text = [&b"(;)x"[..before], &text, b"(a"].concat();
    c.read(Kind::Species, &joined(&names), &text, before);
}

fn record(c: &mut Cases, s: &mut Seeded) {
    let n = 1 + s.below(16);
    let names = s.names(n);
    let line = joined(&names);
    let binary = s.one_in(2);
    let good = s.gene(n, binary);
    let r = if s.one_in(4) { s.spoiled(good) } else { good };
    let length = names.iter().map(|name| name.len()).sum::<usize>() + 2 * good[0] as usize - n;
    let out = (length + s.below(4)).saturating_sub(1);
    c.write(&line, &r, out);
}

/// A weight, a score and, up to ten species, the marks of the same gene trees.
fn counts(c: &mut Cases, s: &mut Seeded) {
    let n = 1 + s.below(16);
    let count = 1 + s.below(6);
    let binary = s.one_in(2);
    let mut genes: Vec<u16> = (0..count).flat_map(|_| s.gene(n, binary)).collect();
    if s.one_in(6) {
        let at = 32 * s.below(count);
        let bad = s.spoiled(genes[at..at + 32].try_into().unwrap());
        genes[at..at + 32].copy_from_slice(&bad);
    }
    let species = s.gene(n, true);
    let species = if s.one_in(8) { s.spoiled(species) } else { species };
    let cluster = if s.one_in(8) { s.below(1 << 17) } else { 1 + s.below((1 << n) - 1) };
    c.weight(n, &genes, count, cluster);
    c.score(n, &genes, count, &species);
    if n <= 10 {
        c.mark(n, &genes, count, (1 << n) + 3);
    }
}

/// Unresolved gene trees (#101): the weight of a cluster, and the score of a species tree.
fn unresolved(c: &mut Cases, s: &mut Seeded) {
    let n = 3 + s.below(14);
    let count = 1 + s.below(3);
    let genes: Vec<u16> = (0..count).flat_map(|_| s.gene(n, false)).collect();
    let cluster = 1 + s.below((1 << n) - 1);
    c.weight(n, &genes, count, cluster);
    c.score(n, &genes, count, &s.gene(n, true));
}

fn search(c: &mut Cases, s: &mut Seeded) {
    let n = 1 + s.below(8);
    let count = 1 + s.below(5);
    let genes: Vec<u16> = (0..count).flat_map(|_| s.gene(n, false)).collect();
    let dense = 1 + s.below(6);
    let allowed: Vec<u16> = (0..1 << n).map(|_| if s.one_in(dense) { 1 } else { (dense == 1) as u16 }).collect();
    c.search(n, &genes, count, &allowed, (1 << n) + 2, (1 << n) + 1);
}

fn input(c: &mut Cases, s: &mut Seeded) {
    let n = 1 + s.below(6);
    let names = s.names(n);
    let mode = if s.one_in(2) { &b"\nall\n"[..] } else { b"\ngenes\n" };
    let mut input = [&joined(&names), mode].concat();
    for _ in 0..s.below(6) {
        let text = s.text(&names);
        input.extend_from_slice(&text);
        s.blanks(&mut input);
    }
    let input = if s.one_in(3) { s.damaged(input) } else { input };
    c.report(&input);
}

/// The program at its limits: twelve species with 512 gene trees and with 513, then with names of fifteen bytes as many as 65,536 bytes hold.
fn full_inputs(c: &mut Cases, s: &mut Seeded) {
    let names: Vec<Vec<u8>> = (b'a'..=b'l').map(|b| vec![b]).collect();
    let mut input = [&joined(&names)[..], b"\nall\n"].concat();
    for trees in 1..=513 {
        input.extend_from_slice(&writer::text(&names, &s.gene(12, true)));
        if trees >= 512 {
            c.report(&input);
        }
    }
    let long: Vec<Vec<u8>> = names.iter().map(|name| [&name[..], b"ofFifteenBytes"].concat()).collect();
    let mut input = [&joined(&long)[..], b"\ngenes\n"].concat();
    loop {
        let text = writer::text(&long, &s.gene(12, true));
        if input.len() + text.len() > 65_536 {
            return c.report(&input);
        }
        input.extend_from_slice(&text);
    }
}

/// The records of gene trees that may be counted by the rooting; one time in eight one of them is spoiled.
pub fn genes_by_rooting(rooting: Rooting, s: &mut Seeded, n: usize, count: usize) -> Vec<u16> {
    let unrooted = rooting == Rooting::Unrooted;
    let mut genes: Vec<u16> = (0..count).flat_map(|_| if unrooted { s.unrooted(n).record() } else { s.gene_on_kept(n, false) }).collect();
    if s.one_in(8) {
        let at = 32 * s.below(count);
        let bad = s.spoiled(genes[at..at + 32].try_into().unwrap());
        genes[at..at + 32].copy_from_slice(&bad);
    }
    genes
}
