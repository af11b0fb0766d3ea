//! The slow engine (02, #108): every binary tree on the species is drawn, those over allowed clusters are scored, at most seven species.
use crate::lineages::{records, shape, weight_of, Rooting};
use crate::search::{trees_over, zeros_and_ones};
use crate::trees::{record, Record};
use crate::{Refusal, SPECIES};

/// The most species that it takes.
pub const PLAIN: usize = 7;

/// The number of binary trees on 1 to 16 species: 1 for one and two, then the product of the odd numbers up to 2n - 3.
pub fn tree_counts() -> Vec<u64> {
    (1..=SPECIES as u64).map(|n| (1..=(2 * n).saturating_sub(3)).step_by(2).product()).collect()
}

/// The score and the record of the first least-scoring tree over the allowed clusters.
pub fn plain(rooting: Rooting, n: usize, genes: &[u16], count: usize, allowed: &[u8]) -> Result<(usize, Record), Refusal> {
    if (PLAIN + 1..=SPECIES).contains(&n) {
        return Err((17, 0));
    }
    shape(n, genes, count, &[allowed.len()])?;
    let genes = records(rooting, n, genes, count)?;
    zeros_and_ones(n, allowed)?;
    let mut best: Option<(usize, Vec<usize>)> = None;
    for tree in trees_over(n, allowed, (1 << n) - 1) {
        let score = tree.iter().map(|&a| weight_of(rooting, &genes, a as u16)).sum();
        // of equals the first stays
        if best.as_ref().map_or(true, |(least, _)| score < *least) {
            best = Some((score, tree));
        }
    }
    let (score, tree) = best.ok_or((14, 0))?;
    Ok((score, record(&tree.iter().map(|&a| a as u16).collect::<Vec<_>>())))
}
