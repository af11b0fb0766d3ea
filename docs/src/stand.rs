//! Several individuals of a species (02, #110): the mapping read, gene trees on individuals read, and counted for clusters of species.
use crate::lineages::{counted, valid_genes, weight_of, Rooting::Rooted};
use crate::reader::{drawn, Kind, Rules};
use crate::roster::{names, names_up_to};
use crate::search::{fill, tree, weights_on, zeros_and_ones};
use crate::trees::{binary, clusters, first, valid, wide_record, Record, WideRecord};
use crate::{label, Refusal, INDIVIDUALS, OPEN_ON_A_STAND};

/// What both rosters and a mapping say: how many individuals there are, and the set of those of each species.
#[derive(Debug, PartialEq)]
pub struct Stand {
    pub individuals: usize,
    pub groups: Vec<u32>,
}

/// 1 for the first roster, 1 for the second, then 20: what every call on a stand says first.
pub fn judge(line: &[u8], individuals: &[u8], mapping: &[u8]) -> Result<Stand, Refusal> {
    let species = names(line)?;
    let individuals = names_up_to(INDIVIDUALS, individuals)?;
    let groups = Mapping { text: mapping, at: 0 }.groups(&species, &individuals)?;
    Ok(Stand { individuals: individuals.len(), groups })
}

/// A mapping, and how far it has been read. Every fault lies at or behind the beginning of what is read next, so the first that is met is the first byte at fault.
struct Mapping<'a> {
    text: &'a [u8],
    at: usize,
}

impl Mapping<'_> {
    fn groups(mut self, species: &[Vec<u8>], individuals: &[Vec<u8>]) -> Result<Vec<u32>, Refusal> {
        let (mut groups, mut seen) = (Vec::new(), 0);
        for expected in species {
            let (name, place) = self.label()?;
            if name != *expected {
                return Err((20, place));
            }
            self.byte(b":")?;
            let group = self.individuals(individuals, seen)?;
            seen |= group;
            groups.push(group);
        }
        // what stands behind the last line is at fault at its first byte; a whole mapping that leaves one out, at its length
        if self.at < self.text.len() || seen != first(individuals.len()) {
            return Err((20, self.at));
        }
        Ok(groups)
    }

    /// The individuals of a line, none of which has been seen before, up to and with the line feed.
    fn individuals(&mut self, individuals: &[Vec<u8>], seen: u32) -> Result<u32, Refusal> {
        let mut group = 0;
        loop {
            let (name, place) = self.label()?;
            let single = individuals.iter().position(|known| *known == name).map_or(0, |i| 1 << i);
            if single == 0 || (seen | group) & single != 0 {
                return Err((20, place));
            }
            group |= single;
            if self.byte(b",\n")? == b'\n' {
                return Ok(group);
            }
        }
    }

    /// The name of the label that begins here, and its place; one that is too long is at fault at its first byte.
    fn label(&mut self) -> Result<(Vec<u8>, usize), Refusal> {
        let from = self.at;
        if from == self.text.len() || !label::begins(self.text[from]) {
            return Err((20, from));
        }
        let (name, behind) = label::scan(self.text, from).map_err(|(number, place)| (20, if number == 4 { from } else { place }))?;
        self.at = behind;
        Ok((name, from))
    }

    /// Takes the next byte, which is to be one of these.
    fn byte(&mut self, may_stand: &[u8]) -> Result<u8, Refusal> {
        let byte = *self.text.get(self.at).filter(|b| may_stand.contains(b)).ok_or((20, self.at))?;
        self.at += 1;
        Ok(byte)
    }
}

/// The record of the gene tree on individuals that begins at `start`, and the offset behind its `;`.
pub fn read(individuals: &[u8], text: &[u8], start: usize) -> Result<(WideRecord, usize), Refusal> {
    let names = names_up_to(INDIVIDUALS, individuals)?;
    let tree = drawn(&Rules { names: &names, open: OPEN_ON_A_STAND, kind: Kind::Gene, threshold: None }, text, start)?;
    Ok((wide_record(&tree.clusters), tree.next))
}

impl Stand {
    fn species(&self) -> usize {
        self.groups.len()
    }

    /// The set of all individuals of a cluster's species.
    pub fn individuals_of(&self, cluster: u16) -> u32 {
        (0..self.species()).filter(|i| cluster >> i & 1 == 1).map(|i| self.groups[i]).sum()
    }

    /// The gene records, or 11, 12 or 15; 12 also for each slice of 2^n entries that is too short, and 16 for a species record, where there is one.
    fn records(&self, genes: &[u32], count: usize, lent: &[usize], species: Option<&Record>) -> Result<Vec<WideRecord>, Refusal> {
        let n = self.species();
        counted(n, genes.len() / 64, count, lent)?;
        if species.is_some_and(|r| !valid(n, r) || !binary(n, r)) {
            return Err((16, 0));
        }
        valid_genes(self.individuals, genes, count)
    }

    fn weight_of(&self, genes: &[WideRecord], cluster: u16) -> usize {
        weight_of(Rooted, genes, self.individuals_of(cluster))
    }

    pub fn weight(&self, genes: &[u32], count: usize, cluster: usize) -> Result<usize, Refusal> {
        let genes = self.records(genes, count, &[], None)?;
        if cluster < 1 || cluster >= 1 << self.species() {
            return Err((13, cluster));
        }
        Ok(self.weight_of(&genes, cluster as u16))
    }

    pub fn score(&self, genes: &[u32], count: usize, species: &Record) -> Result<usize, Refusal> {
        let genes = self.records(genes, count, &[], Some(species))?;
        Ok(clusters(species).iter().map(|&a| self.weight_of(&genes, a)).sum())
    }

    /// The score and the record of the tree, as by the search over gene trees on species; a single species may weigh more than 0.
    pub fn search(&self, genes: &[u32], count: usize, allowed: &[u8], scores: &mut [u32], splits: &mut [u16]) -> Result<(usize, Record), Refusal> {
        let n = self.species();
        let genes = self.records(genes, count, &[allowed.len(), scores.len(), splits.len()], None)?;
        zeros_and_ones(n, allowed)?;
        fill(n, &weights_on(Rooted, n, &genes, |a| self.individuals_of(a)), allowed, scores, splits);
        tree(n, scores, splits)
    }
}
