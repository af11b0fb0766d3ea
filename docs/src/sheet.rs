//! A sheet of candidate trees (02, #107): entries that name species records by their positions, each filled with what the single call gives.
use crate::lineages::{self, records, shape, Rooting};
use crate::Refusal;

#[derive(Clone, Copy)]
pub struct Entry {
    pub position: usize,
    pub number: u32,
    pub score: usize,
}

pub fn sheet(rooting: Rooting, n: usize, genes: &[u16], count: usize, species: &[u16], entries: &mut [Entry]) -> Result<(), Refusal> {
    shape(n, genes, count, &[])?;
    records(rooting, n, genes, count)?;
    for entry in entries {
        let single = match species.chunks_exact(32).nth(entry.position) {
            Some(record) => lineages::score(rooting, n, genes, count, record.try_into().unwrap()),
            None => Err((12, 0)),
        };
        match single {
            Ok(score) => (entry.number, entry.score) = (0, score),
            Err((number, _)) => (entry.number, entry.score) = (number, 0),
        }
    }
    Ok(())
}
