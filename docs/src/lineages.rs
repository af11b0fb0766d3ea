//! Extra lineages: the weight of a cluster, the score of a species tree, the clusters that gene trees show.
use crate::trees::{binary, children, clusters, largest, maximal, may_unroot, valid, valid_gene, Mask, Record};
use crate::{Refusal, GENES, SPECIES};
use Rooting::{Rooted, Unrooted};

/// How gene trees are taken: with the root that was drawn, or without one (02, #106).
#[derive(Clone, Copy, Debug, Default, PartialEq)]
pub enum Rooting {
    #[default]
    Rooted,
    Unrooted,
}

/// The clusters of a gene tree: its record's, and without a root the complement of each but the whole, each once.
pub fn shown<M: Mask>(rooting: Rooting, gene: &[M]) -> Vec<M> {
    let mut all = clusters(gene).to_vec();
    if rooting == Unrooted {
        let whole = largest(gene);
        all.extend(clusters(gene).iter().filter(|&&x| x != whole).map(|&x| whole - x));
        all.sort();
        all.dedup();
    }
    all
}

/// How many lineages of a gene tree a cluster a has: one where a holds all its species.
pub fn k<M: Mask>(rooting: Rooting, gene: &[M], a: M) -> usize {
    let all = shown(rooting, gene);
    if all.iter().all(|&x| x & a == x) {
        return 1;
    }
    let within = maximal(&all, |x| x & a == x);
    match rooting {
        // unresolved nodes counted as unknown (02, #101): the nodes of the gene tree with a child whose cluster is maximal within a
        Rooted => all.iter().filter(|&&p| children(&all, p).iter().any(|child| within.contains(child))).count(),
        // without a root the maximal ones (02, #106)
        Unrooted => within.len(),
    }
}

/// The same by passes over the record.
pub fn k_by_pass<M: Mask>(rooting: Rooting, gene: &[M], a: M) -> usize {
    match rooting {
        Rooted => k_upward(gene, a),
        Unrooted => k_around(gene, a),
    }
}

/// From the smallest cluster up: one that is not within a is counted when it is the first to hold some species of a.
fn k_upward<M: Mask>(gene: &[M], a: M) -> usize {
    let (mut count, mut loose, mut all) = (0, a, true);
    for &x in clusters(gene) {
        if x & a != x {
            all = false;
            if x & loose != M::from(0) {
                count += 1;
                loose = loose & !x;
            }
        }
    }
    if all {
        1
    } else {
        count
    }
}

/// Without a root: what lies outside the smallest cluster that holds all species that a lacks is one lineage; what a has of that cluster is
/// taken apart from the largest cluster down.
fn k_around<M: Mask>(gene: &[M], a: M) -> usize {
    let whole = largest(gene);
    if a == whole {
        return 1;
    }
    let lacked = whole & !a;
    let around = *clusters(gene).iter().find(|&&x| x & lacked == lacked).unwrap();
    let (mut count, mut left) = ((around != whole) as usize, a & around);
    for &x in clusters(gene).iter().rev() {
        if x & left == x {
            count += 1;
            left = left - x;
        }
    }
    count
}

/// The extra lineages of a in a gene tree (02, #104): none where no cluster of it lies within a, else k less one.
pub fn extra<M: Mask>(rooting: Rooting, gene: &[M], a: M) -> usize {
    if shown(rooting, gene).iter().any(|&x| x & a == x) {
        k(rooting, gene, a) - 1
    } else {
        0
    }
}

/// The same by the passes, which count nothing where a has no species of the gene tree.
pub fn extra_by_pass<M: Mask>(rooting: Rooting, gene: &[M], a: M) -> usize {
    k_by_pass(rooting, gene, a).saturating_sub(1)
}

pub fn weight_of<M: Mask, const LENGTH: usize>(rooting: Rooting, genes: &[[M; LENGTH]], a: M) -> usize {
    genes.iter().map(|gene| extra(rooting, gene, a)).sum()
}

/// 1 and 11, then 12 for the gene records and for each slice with its need, which is known only behind 1.
pub fn shape(n: usize, genes: &[u16], count: usize, lent: &[usize]) -> Result<(), Refusal> {
    if !(1..=SPECIES).contains(&n) {
        return Err((1, 0));
    }
    counted(n, genes.len() / 32, count, lent)
}

/// 11, then 12 for the gene records, of which so many are lent whole, and for each slice of 2^n entries.
pub fn counted(n: usize, whole_records: usize, count: usize, lent: &[usize]) -> Result<(), Refusal> {
    if !(1..=GENES).contains(&count) {
        return Err((11, 0));
    }
    if whole_records < count || lent.iter().any(|&length| length < 1 << n) {
        return Err((12, 0));
    }
    Ok(())
}

/// The gene records, or 15 at the first that is not a valid one, or, without a root, 19 at the first that is unresolved or incomplete (02, #106).
pub fn records(rooting: Rooting, n: usize, genes: &[u16], count: usize) -> Result<Vec<Record>, Refusal> {
    let all: Vec<Record> = valid_genes(n, genes, count)?;
    match all.iter().position(|r| rooting == Unrooted && !may_unroot(n, r)) {
        Some(index) => Err((19, index)),
        None => Ok(all),
    }
}

/// The gene records on n species, or on n individuals, or 15 at the first that is not a valid one.
pub fn valid_genes<M: Mask, const LENGTH: usize>(n: usize, genes: &[M], count: usize) -> Result<Vec<[M; LENGTH]>, Refusal> {
    let all: Vec<[M; LENGTH]> = genes.chunks_exact(LENGTH).take(count).map(|r| r.try_into().unwrap()).collect();
    match all.iter().position(|r| !valid_gene(n, r)) {
        Some(index) => Err((15, index)),
        None => Ok(all),
    }
}

pub fn weight(rooting: Rooting, n: usize, genes: &[u16], count: usize, cluster: usize) -> Result<usize, Refusal> {
    shape(n, genes, count, &[])?;
    let genes = records(rooting, n, genes, count)?;
    if cluster < 1 || cluster >= 1 << n {
        return Err((13, cluster));
    }
    Ok(weight_of(rooting, &genes, cluster as u16))
}

pub fn score(rooting: Rooting, n: usize, genes: &[u16], count: usize, species: &Record) -> Result<usize, Refusal> {
    shape(n, genes, count, &[])?;
    if !valid(n, species) || !binary(n, species) {
        return Err((16, 0));
    }
    let genes = records(rooting, n, genes, count)?;
    Ok(clusters(species).iter().map(|&a| weight_of(rooting, &genes, a)).sum())
}

pub fn mark(rooting: Rooting, n: usize, genes: &[u16], count: usize, out: &mut [u8]) -> Result<(), Refusal> {
    shape(n, genes, count, &[out.len()])?;
    let genes = records(rooting, n, genes, count)?;
    out[..1 << n].fill(0);
    for a in genes.iter().flat_map(|gene| shown(rooting, gene)) {
        out[a as usize] = 1;
    }
    Ok(())
}
