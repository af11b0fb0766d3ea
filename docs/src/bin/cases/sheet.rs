//! A sheet of candidate trees (#107): the borders by hand, then cases from a seed.
use crate::drawn::genes_by_rooting;
use crate::lines::Cases;
use reference::lineages::Rooting::{Rooted, Unrooted};
use reference::seeded::Seeded;
use reference::trees::record;

pub fn sheet(c: &mut Cases, s: &mut Seeded) {
    for rooting in [Rooted, Unrooted] {
        c.rooting = rooting;
        borders(c);
        fifteen_and_nineteen(c);
        (0..60).for_each(|_| drawn(c, s));
    }
    c.rooting = Rooted;
}

fn borders(c: &mut Cases) {
    let (balanced, comb, star) = (record(&[1, 2, 3, 4, 8, 12, 15]), record(&[1, 2, 3, 4, 7, 8, 15]), record(&[1, 2, 4, 8, 15]));
    let bad = record(&[1, 2, 3, 5, 8, 15]);
    let rivals = [balanced, comb, star, bad, balanced].concat();
    // what refuses the whole call, with and without what stands behind it
    for (n, genes, count) in [(0, &bad[..], 0), (17, &balanced, 1), (4, &bad, 0), (4, &bad, 4097), (4, &balanced[..31], 1), (4, &bad, 1), (4, &star, 1), (4, &balanced, 1), (4, &balanced, 2), (3, &comb, 1), (5, &comb, 1)] {
        for positions in [&[][..], &[0], &[0, 1, 2, 3, 4, 5], &[9, 4, 0]] {
            c.sheet(n, genes, count, &rivals, positions);
        }
    }
    // records that do not lie wholly within the lent ones, for every position a machine can hold
    let far = [0, 1, 3, 4, 5, 31, 32, 1 << 58, (1 << 59) - 1, 1 << 59, (1 << 59) + 1, usize::MAX - 1, usize::MAX];
    for lent in [0, 1, 31, 32, 33, 63, 64, 65, 127, 128, 159, 160] {
        c.sheet(4, &comb, 1, &rivals[..lent], &far);
    }
    // one position twice, before and behind entries that are refused
    c.sheet(4, &balanced, 1, &rivals, &[1, 3, 1, 7, 1, 2, 1]);
    // forty rivals, and one position over and over
    c.sheet(4, &[balanced, comb].concat(), 2, &rivals.repeat(8), &(0..42).collect::<Vec<usize>>());
    c.sheet(4, &[balanced; 4096].concat(), 4096, &rivals, &[4; 40]);
    c.sheet(1, &record(&[1]), 1, &record(&[1]), &[0, 1]);
}

fn drawn(c: &mut Cases, s: &mut Seeded) {
    let n = 1 + s.below(16);
    let count = 1 + s.below(3);
    let genes = genes_by_rooting(c.rooting, s, n, count);
    let rivals = 1 + s.below(4);
    let mut records: Vec<u16> = Vec::new();
    for _ in 0..rivals {
        let good = s.gene(n, true);
        let one = match s.below(6) {
            0 => s.spoiled(good),
            1 => s.gene(n, false),
            2 => s.gene_on_kept(n, true),
            _ => good,
        };
        records.extend_from_slice(&one);
    }
    if s.one_in(4) {
        records.truncate(32 * rivals - 1 - s.below(32));
    }
    let positions: Vec<usize> = (0..s.below(6)).map(|_| if s.one_in(10) { usize::MAX - s.below(40) } else { s.below(rivals + 1) }).collect();
    c.sheet(n, &genes, count, &records, &positions);
}

/// 15 behind a tree that is 19, 19 behind a good tree, 12 before 15, and a bad record that is not counted.
fn fifteen_and_nineteen(c: &mut Cases) {
    let (balanced, star, bad) = (record(&[1, 2, 3, 4, 8, 12, 15]), record(&[1, 2, 4, 8, 15]), record(&[1, 2, 3, 5, 8, 15]));
    for (genes, count) in [([star, bad].concat(), 2), ([balanced, star].concat(), 2), (bad.to_vec(), 2), ([balanced, bad].concat(), 1)] {
        c.sheet(4, &genes, count, &balanced, &[0, 1]);
    }
}
