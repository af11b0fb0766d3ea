//! Records of trees, of either width.
use std::fmt::Debug;
use std::ops::{BitAnd, BitOr, Not, Shl, Sub};

/// A set of species as the ones of a number: sixteen bits, or the thirty-two that individuals take (02, #110).
pub trait Mask:
    Copy + Debug + Ord + From<u8> + Into<u32> + BitAnd<Output = Self> + BitOr<Output = Self> + Not<Output = Self> + Shl<usize, Output = Self> + Sub<Output = Self>
{
}

impl Mask for u16 {}
impl Mask for u32 {}

pub type Record = [u16; 32];

/// The record of a tree on individuals (02, #110).
pub type WideRecord = [u32; 64];

/// The record of a set of clusters.
pub fn record(clusters: &[u16]) -> Record {
    counted_and_sorted(clusters)
}

pub fn wide_record(clusters: &[u32]) -> WideRecord {
    counted_and_sorted(clusters)
}

fn counted_and_sorted<M: Mask, const LENGTH: usize>(clusters: &[M]) -> [M; LENGTH] {
    let mut sorted = clusters.to_vec();
    sorted.sort();
    let mut r = [M::from(0); LENGTH];
    r[0] = M::from(sorted.len() as u8);
    r[1..=sorted.len()].copy_from_slice(&sorted);
    r
}

/// The count that a record begins with, whether it has so many clusters or not.
fn count<M: Mask>(r: &[M]) -> usize {
    let m: u32 = r[0].into();
    m as usize
}

pub fn clusters<M: Mask>(r: &[M]) -> &[M] {
    &r[1..=count(r)]
}

/// The set of the first n.
pub fn first<M: Mask>(n: usize) -> M {
    (0..n).fold(M::from(0), |set, i| set | M::from(1) << i)
}

/// The whole set of n species.
pub fn whole(n: usize) -> u16 {
    first(n)
}

/// The largest cluster: the set of the tree's species. 0 where the count is 0 or no count of clusters.
pub fn largest<M: Mask>(r: &[M]) -> M {
    let listed = r.get(1..=count(r)).unwrap_or_default();
    listed.iter().copied().max().unwrap_or(M::from(0))
}

/// 01's sentence on a valid record, clause by clause, for the species of a set.
fn valid_on<M: Mask>(species: M, r: &[M]) -> bool {
    let Some(list) = r.get(1..=count(r)) else {
        return false;
    };
    let none = M::from(0);
    list.windows(2).all(|w| w[0] < w[1])
        && r[1 + list.len()..].iter().all(|&x| x == none)
        && (0..r.len() / 2).map(|i| M::from(1) << i).filter(|&single| single & species == single).all(|single| list.contains(&single))
        && list.contains(&species)
        && list.iter().all(|&a| a != none && a & species == a)
        && list.iter().all(|&a| list.iter().all(|&b| a & b == none || a & b == a || a & b == b))
}

/// A species record has every species.
pub fn valid(n: usize, r: &Record) -> bool {
    valid_on(whole(n), r)
}

/// A gene record may lack species (02, #104): it is a valid record on its largest cluster, which lies in 1 to 2^n - 1.
pub fn valid_gene<M: Mask>(n: usize, r: &[M]) -> bool {
    (M::from(1)..=first(n)).contains(&largest(r)) && valid_on(largest(r), r)
}

pub fn binary(n: usize, r: &Record) -> bool {
    r[0] as usize == 2 * n - 1
}

/// The clusters that are maximal among those that pass the test.
pub fn maximal<M: Mask>(all: &[M], test: impl Fn(M) -> bool) -> Vec<M> {
    let passed: Vec<M> = all.iter().copied().filter(|&x| test(x)).collect();
    passed.iter().copied().filter(|&x| !passed.iter().any(|&y| y != x && x & y == x)).collect()
}

/// The children of a cluster of a tree: maximal among the tree's clusters properly within it.
pub fn children<M: Mask>(all: &[M], p: M) -> Vec<M> {
    maximal(all, |x| x != p && x & p == x)
}

/// A gene record that may be taken without its root (02, #106): it has every species, and each inner cluster has two children, the whole two or three.
pub fn may_unroot(n: usize, r: &Record) -> bool {
    let inner = |p: &u16| p.count_ones() > 1;
    let resolved = |p: &u16| {
        let count = children(clusters(r), *p).len();
        count == 2 || *p == whole(n) && count == 3
    };
    largest(r) == whole(n) && clusters(r).iter().filter(|p| inner(p)).all(resolved)
}
