//! The least species tree: brute force over all binary trees up to six species, and a plain dynamic program.
use crate::lineages::{extra_by_pass, records, shape, weight_of, Rooting};
use crate::trees::{record, Mask, Record};
use crate::Refusal;

pub const NO_TREE: u32 = u32::MAX;

fn allowed_in(n: usize, allowed: &[u8], a: usize) -> bool {
    a.count_ones() == 1 || a == (1 << n) - 1 || allowed[a] == 1
}

/// The low parts of a, the smaller number first.
fn lows(a: usize) -> impl Iterator<Item = usize> {
    let low = a & a.wrapping_neg();
    let rest = a - low;
    // the parts of the rest from 0 up, but for the rest itself
    std::iter::successors(Some(0), move |s: &usize| Some(s.wrapping_sub(rest) & rest)).take_while(move |&s| s != rest).map(move |s| low + s)
}

/// Both tables of 2^n entries, by the dynamic program.
pub fn tables(n: usize, weights: &[u32], allowed: &[u8]) -> (Vec<u32>, Vec<u16>) {
    let size = 1 << n;
    let (mut scores, mut splits) = (vec![NO_TREE; size], vec![0u16; size]);
    for a in 1..size {
        if !allowed_in(n, allowed, a) {
            continue;
        }
        if a.count_ones() == 1 {
            scores[a] = weights[a];
            continue;
        }
        let low = a & a.wrapping_neg();
        let rest = a - low;
        let (mut best, mut split) = (NO_TREE, 0);
        let mut s = rest;
        while s > 0 {
            s = (s - 1) & rest;
            let part = low + s;
            let (x, y) = (scores[part], scores[a - part]);
            if x != NO_TREE && y != NO_TREE && x + y <= best {
                best = x + y;
                split = part;
            }
        }
        if best != NO_TREE {
            scores[a] = best + weights[a];
            splits[a] = split as u16;
        }
    }
    (scores, splits)
}

/// All binary trees on a, as their clusters, in 01's order.
fn trees_on(a: usize) -> Vec<Vec<usize>> {
    if a.count_ones() == 1 {
        return vec![vec![a]];
    }
    let mut all = Vec::new();
    for part in lows(a) {
        for t in trees_on(part) {
            for u in trees_on(a - part) {
                all.push([&[a][..], &t, &u].concat());
            }
        }
    }
    all
}

/// All binary trees on a over allowed clusters, in 01's order.
pub fn trees_over(n: usize, allowed: &[u8], a: usize) -> Vec<Vec<usize>> {
    trees_on(a).into_iter().filter(|t| t.iter().all(|&x| allowed_in(n, allowed, x))).collect()
}

fn score_of(weights: &[u32], t: &[usize]) -> u32 {
    t.iter().map(|&x| weights[x]).sum()
}

/// Both tables by brute force: the first least of all trees over allowed clusters, for each cluster.
pub fn brute(n: usize, weights: &[u32], allowed: &[u8]) -> (Vec<u32>, Vec<u16>) {
    let size = 1 << n;
    let (mut scores, mut splits) = (vec![NO_TREE; size], vec![0u16; size]);
    for a in 1..size {
        // min_by_key answers the first of equals
        if let Some(t) = trees_over(n, allowed, a).iter().min_by_key(|t| score_of(weights, t)) {
            scores[a] = score_of(weights, t);
            splits[a] = if t.len() == 1 { 0 } else { t[1] as u16 };
        }
    }
    (scores, splits)
}

/// How many trees over allowed clusters reach the least score, for each cluster (02, #111): they are counted one by one.
pub fn brute_ties(n: usize, weights: &[u32], allowed: &[u8]) -> Vec<u64> {
    let mut ties = vec![0; 1 << n];
    for (a, count) in ties.iter_mut().enumerate().skip(1) {
        let scores: Vec<u32> = trees_over(n, allowed, a).iter().map(|t| score_of(weights, t)).collect();
        let least = scores.iter().min();
        *count = scores.iter().filter(|&score| Some(score) == least).count() as u64;
    }
    ties
}

/// The same by the score table: a split that reaches the least score has a tree for each pair of least trees on its two parts.
pub fn ties_by_splits(weights: &[u32], scores: &[u32]) -> Vec<u64> {
    let mut ties = vec![0; scores.len()];
    for a in 1..scores.len() {
        if scores[a] == NO_TREE {
            continue;
        }
        if a.count_ones() == 1 {
            ties[a] = 1;
            continue;
        }
        for part in lows(a) {
            let (x, y) = (scores[part], scores[a - part]);
            if x != NO_TREE && y != NO_TREE && x + y + weights[a] == scores[a] {
                ties[a] += ties[part] * ties[a - part];
            }
        }
    }
    ties
}

fn collect(splits: &[u16], a: usize, found: &mut Vec<u16>) {
    found.push(a as u16);
    let low = splits[a] as usize;
    if low != 0 {
        collect(splits, low, found);
        collect(splits, a - low, found);
    }
}

/// The weight of every cluster: by the definition up to six species, by passes over each gene tree above.
pub fn weights(rooting: Rooting, n: usize, genes: &[Record]) -> Vec<u32> {
    weights_on(rooting, n, genes, |a| a)
}

/// The same where the gene trees are on other things than species, of which each cluster has a set.
pub fn weights_on<M: Mask, const LENGTH: usize>(rooting: Rooting, n: usize, genes: &[[M; LENGTH]], set_of: impl Fn(u16) -> M) -> Vec<u32> {
    let mut all = vec![0; 1 << n];
    for (a, w) in all.iter_mut().enumerate().skip(1) {
        let set = set_of(a as u16);
        *w = if n <= 6 {
            weight_of(rooting, genes, set) as u32
        } else {
            genes.iter().map(|gene| extra_by_pass(rooting, gene, set) as u32).sum()
        };
    }
    all
}

/// The score and the record of the tree; both tables are filled where the tree is looked for, also on 14.
pub fn search(rooting: Rooting, n: usize, genes: &[u16], count: usize, allowed: &[u8], scores: &mut [u32], splits: &mut [u16]) -> Result<(usize, Record), Refusal> {
    let weights = checked(rooting, n, genes, count, allowed, &[allowed.len(), scores.len(), splits.len()])?;
    fill(n, &weights, allowed, scores, splits);
    tree(n, scores, splits)
}

/// The score, how many trees reach it, and the record of the first; a third table is filled as the other two (02, #111).
pub fn search_ties(
    rooting: Rooting, n: usize, genes: &[u16], count: usize, allowed: &[u8], scores: &mut [u32], splits: &mut [u16], ties: &mut [u64],
) -> Result<(usize, u64, Record), Refusal> {
    let weights = checked(rooting, n, genes, count, allowed, &[allowed.len(), scores.len(), splits.len(), ties.len()])?;
    fill(n, &weights, allowed, scores, splits);
    let size = 1 << n;
    let counted = if n <= 6 { brute_ties(n, &weights, allowed) } else { ties_by_splits(&weights, &scores[..size]) };
    ties[..size].copy_from_slice(&counted);
    let (score, record) = tree(n, scores, splits)?;
    Ok((score, ties[size - 1], record))
}

/// The weights of all clusters, or a refusal that comes before 14; `lent` has the lengths of the allowed set and of the tables.
fn checked(rooting: Rooting, n: usize, genes: &[u16], count: usize, allowed: &[u8], lent: &[usize]) -> Result<Vec<u32>, Refusal> {
    shape(n, genes, count, lent)?;
    let genes = records(rooting, n, genes, count)?;
    zeros_and_ones(n, allowed)?;
    Ok(weights(rooting, n, &genes))
}

/// 13 at the first allowed byte that is neither 0 nor 1.
pub fn zeros_and_ones(n: usize, allowed: &[u8]) -> Result<(), Refusal> {
    match allowed[..1 << n].iter().position(|&b| b > 1) {
        Some(index) => Err((13, index)),
        None => Ok(()),
    }
}

pub fn fill(n: usize, weights: &[u32], allowed: &[u8], scores: &mut [u32], splits: &mut [u16]) {
    let (s, p) = if n <= 6 { brute(n, weights, allowed) } else { tables(n, weights, allowed) };
    scores[..1 << n].copy_from_slice(&s);
    splits[..1 << n].copy_from_slice(&p);
}

/// The tree that the tables choose for all species.
pub fn tree(n: usize, scores: &[u32], splits: &[u16]) -> Result<(usize, Record), Refusal> {
    let all = (1 << n) - 1;
    if scores[all] == NO_TREE {
        return Err((14, 0));
    }
    let mut found = Vec::new();
    collect(splits, all, &mut found);
    Ok((scores[all] as usize, record(&found)))
}
