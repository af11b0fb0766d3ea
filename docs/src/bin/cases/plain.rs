//! The slow engine (#108): the borders by hand, then cases from a seed.
use crate::drawn::genes_by_rooting;
use crate::lines::Cases;
use reference::lineages::mark;
use reference::lineages::Rooting::{Rooted, Unrooted};
use reference::seeded::Seeded;
use reference::trees::{record, whole, Record};

pub fn plain(c: &mut Cases, s: &mut Seeded) {
    for rooting in [Rooted, Unrooted] {
        c.rooting = rooting;
        borders(c);
        examples(c);
        (0..50).for_each(|_| drawn(c, s));
        seven(c, s);
    }
    for rooting in [Rooted, Unrooted] {
        c.rooting = rooting;
        behind(c);
        last_trees(c);
        (0..60).for_each(|_| drawn(c, s));
        (0..4).for_each(|_| seven(c, s));
    }
    c.rooting = Rooted;
}

fn comb(n: usize) -> Record {
    let mut clusters: Vec<u16> = (0..n).map(|i| 1 << i).collect();
    clusters.extend((2..=n).map(whole));
    record(&clusters)
}

/// Each refusal with and without those behind it in the order 1, 17, 11, 12, 15, 19, 13, 14.
fn borders(c: &mut Cases) {
    let bad = record(&[1, 2, 3, 5, 8, 15]);
    let unresolved = record(&[1, 2, 4, 8, 15]);
    let good = comb(4);
    let mut strange = [1u16; 17];
    strange[9] = 2;
    for n in [0, 1, 4, 5, 7, 8, 12, 16, 17, usize::MAX] {
        for genes in [&bad[..], &unresolved, &good, &good[..31]] {
            for count in [0, 1, 2, 4097] {
                c.plain(n, genes, count, &strange);
            }
        }
    }
    for allowed in [15, 16, 17] {
        c.plain(4, &bad, 1, &vec![2; allowed]);
        c.plain(4, &unresolved, 1, &vec![2; allowed]);
        c.plain(4, &good, 1, &vec![1; allowed]);
        c.plain(4, &[good, bad].concat(), 2, &vec![1; allowed]);
    }
    for byte in [0, 1, 2, 255] {
        let mut first = [0u16; 16];
        first[0] = byte;
        c.plain(4, &good, 1, &first);
    }
    for n in 7..=9 {
        c.plain(n, &comb(n), 1, &vec![1; 1 << n]);
    }
    // 17 before 11, 12, 15 and 13; 1 before 17
    for n in [8, 16, 17] {
        c.plain(n, &[], 0, &[]);
        c.plain(n, &[9; 32], 1, &[7; 300]);
    }
}

/// Sets that leave one tree, some and none; trees that tie, so that the first must win.
fn examples(c: &mut Cases) {
    let (ab, ac, bc) = (record(&[1, 2, 3, 4, 7]), record(&[1, 2, 4, 5, 7]), record(&[1, 2, 4, 6, 7]));
    for genes in [vec![ab], vec![ac], vec![bc], vec![ab, ac], vec![ac, bc], vec![bc, ab], vec![ab, ac, bc], vec![bc, bc, ac]] {
        for allowed in 0..16u16 {
            // the bytes of ab, ac, bc and of the single species a
            let bytes: Vec<u16> = [0, 8, 0, 1, 0, 2, 4, 0].iter().map(|&bit| (bit & allowed != 0) as u16).collect();
            c.plain(3, &genes.concat(), genes.len(), &bytes);
        }
    }
    c.plain(1, &record(&[1]), 1, &[1, 1]);
    c.plain(1, &record(&[1]), 1, &[0, 0]);
    c.plain(2, &record(&[1, 2, 3]), 1, &[0; 4]);
    let crossed = record(&[1, 2, 4, 5, 8, 10, 15]);
    c.plain(4, &crossed, 1, &[1; 16]);
    c.plain(4, &[crossed; 4096].concat(), 4096, &[1; 16]);
    c.plain(4, &[crossed; 4097].concat(), 4097, &[1; 16]);
}

fn drawn(c: &mut Cases, s: &mut Seeded) {
    let n = 1 + s.below(6);
    let count = 1 + s.below(4);
    let genes = genes_by_rooting(c.rooting, s, n, count);
    let dense = 1 + s.below(4);
    let mut allowed: Vec<u16> = (0..1 << n).map(|_| (s.one_in(dense)) as u16).collect();
    if s.one_in(3) {
        let mut marked = vec![0; 1 << n];
        if mark(c.rooting, n, &genes, count, &mut marked).is_ok() {
            allowed = marked.into_iter().map(u16::from).collect();
        }
    }
    if s.one_in(12) {
        let at = s.below(1 << n);
        allowed[at] = 2 + s.below(254) as u16;
    }
    c.plain(n, &genes, count, &allowed);
}

/// Seven species: all 10,395 trees visited, all scored or few.
fn seven(c: &mut Cases, s: &mut Seeded) {
    for dense in [1, 1, 2] {
        let genes: Vec<u16> = (0..3).flat_map(|_| if c.rooting == Unrooted { s.unrooted(7).record() } else { s.gene(7, true) }).collect();
        let allowed: Vec<u16> = (0..128).map(|_| s.one_in(dense) as u16).collect();
        c.plain(7, &genes, 3, &allowed);
    }
}

/// More of each refusal with nothing or little behind it: 15 behind a tree that is 19, 19 alone, 17 alone and before 13.
fn behind(c: &mut Cases) {
    let bad = record(&[1, 2, 3, 5, 8, 15]);
    let unresolved = record(&[1, 2, 4, 8, 15]);
    if c.rooting == Unrooted {
        c.plain(4, &[unresolved, bad].concat(), 2, &[1; 16]);
        c.plain(4, &unresolved, 1, &[1; 16]);
    }
    for n in [8, 16] {
        let mut strange = vec![0; 1 << n];
        c.plain(n, &comb(n), 1, &strange);
        strange[9] = 2;
        c.plain(n, &comb(n), 1, &strange);
    }
}

/// Seven species where the last of all trees is found, the only one over its clusters, and where none is.
fn last_trees(c: &mut Cases) {
    // a with g, then f, e, d, c, b: the largest low parts throughout
    let inner = [65, 97, 113, 121, 125];
    let mut clusters: Vec<u16> = (0..7).map(|i| 1 << i).collect();
    clusters.extend(inner);
    clusters.push(127);
    c.plain(7, &record(&clusters), 1, &[1; 128]);
    let own: Vec<u16> = (0..128).map(|a| inner.contains(&a) as u16).collect();
    c.plain(7, &comb(7), 1, &own);
    c.plain(7, &comb(7), 1, &[0; 128]);
}
