//! Trees that come with branch counts (02, #114): checked, and written.
use crate::lineages::{records, shape, weight_of, Rooting};
use crate::reader::{read_nodes, Kind, Node};
use crate::roster::names;
use crate::search::{fill, weights};
use crate::trees::{binary, clusters, valid, Record};
use crate::{writer, Refusal};

/// The whole number behind a node: digits alone, and no second number.
fn count_of(node: &Node) -> Option<usize> {
    let digits = node.numbers.distance.as_ref().filter(|d| !node.numbers.supported && !d.contains(&b'.'))?;
    Some(digits.iter().fold(0, |value, b| value * 10 + (b - b'0') as usize))
}

/// The distance of the tree's score above the least one, where every count is the weight of its node's cluster; both tables are filled as by the search over all clusters.
pub fn check(line: &[u8], text: &[u8], start: usize, genes: &[u16], count: usize, scores: &mut [u32], splits: &mut [u16]) -> Result<usize, Refusal> {
    let (record, _, nodes) = read_nodes(Kind::Species, None, line, text, start)?;
    let n = names(line)?.len();
    shape(n, genes, count, &[scores.len(), splits.len()])?;
    if !binary(n, &record) {
        return Err((16, 0));
    }
    let genes = records(Rooting::Rooted, n, genes, count)?;
    let weight = |a| weight_of(Rooting::Rooted, &genes, a);
    if let Some(wrong) = nodes.iter().find(|node| count_of(node) != Some(weight(node.cluster as u16))) {
        return Err((23, wrong.behind));
    }
    fill(n, &weights(Rooting::Rooted, n, &genes), &vec![1; 1 << n], scores, splits);
    let score: usize = clusters(&record).iter().map(|&a| weight(a)).sum();
    Ok(score - scores[(1 << n) - 1] as usize)
}

/// Writes the text of the species tree with `:` and its weight behind each node, and answers its length.
pub fn write_counts(line: &[u8], genes: &[u16], count: usize, species: &Record, out: &mut [u8]) -> Result<usize, Refusal> {
    let names = names(line)?;
    let n = names.len();
    shape(n, genes, count, &[])?;
    if !valid(n, species) || !binary(n, species) {
        return Err((16, 0));
    }
    let genes = records(Rooting::Rooted, n, genes, count)?;
    let written = writer::noted(&names, species, &|a| format!(":{}", weight_of(Rooting::Rooted, &genes, a)).into_bytes());
    if out.len() < written.len() {
        return Err((12, 0));
    }
    out[..written.len()].copy_from_slice(&written);
    Ok(written.len())
}
