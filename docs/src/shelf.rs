//! Two benches on one shelf of gene records (02, #112): a plain list of slots, which is written out to the numbers that are lent only where someone looks at them.
use crate::lineages::{self, Rooting::Rooted};
use crate::search;
use crate::trees::{valid_gene, Record};
use crate::{Refusal, SPECIES};

pub const SLOTS: usize = 4096;
/// Each bench is assured so many slots; the others go to whoever comes.
pub const ASSURED: usize = 1024;
pub const COMMON: usize = SLOTS - 2 * ASSURED;
/// The numbers of a shelf: that of the species, then for each slot whose it is and a record.
pub const NUMBERS: usize = 1 + SLOTS * 33;

/// A slot: free, or a bench and the record that it put there.
type Slot = Option<(usize, Record)>;

#[derive(Clone, Debug, PartialEq)]
pub struct Shelf {
    species: usize,
    slots: Vec<Slot>,
}

fn is_bench(bench: usize) -> bool {
    bench == 1 || bench == 2
}

impl Shelf {
    pub fn open(n: usize) -> Result<Shelf, Refusal> {
        if !(1..=SPECIES).contains(&n) {
            return Err((1, 0));
        }
        Ok(Shelf { species: n, slots: vec![None; SLOTS] })
    }

    /// A bench's records in slot order.
    pub fn held(&self, bench: usize) -> Vec<Record> {
        self.slots.iter().flatten().filter(|(owner, _)| *owner == bench).map(|(_, record)| *record).collect()
    }

    fn holding(&self, bench: usize) -> usize {
        self.slots.iter().flatten().filter(|(owner, _)| *owner == bench).count()
    }

    /// How many slots both benches hold beyond those that each is assured.
    fn beyond(&self) -> usize {
        [1, 2].map(|bench| self.holding(bench).saturating_sub(ASSURED)).iter().sum()
    }

    /// Puts a record into the lowest free slot, and answers which it is.
    pub fn add(&mut self, bench: usize, tree: &Record) -> Result<usize, Refusal> {
        if !valid_gene(self.species, tree) {
            return Err((15, 0));
        }
        if self.holding(bench) >= ASSURED && self.beyond() == COMMON {
            return Err((21, 0));
        }
        let slot = self.slots.iter().position(Slot::is_none).unwrap();
        self.slots[slot] = Some((bench, *tree));
        Ok(slot)
    }

    pub fn read(&self, bench: usize, slot: usize) -> Result<Record, Refusal> {
        match self.slots.get(slot) {
            Some(Some((owner, record))) if *owner == bench => Ok(*record),
            _ => Err((22, slot)),
        }
    }

    pub fn remove(&mut self, bench: usize, slot: usize) -> Result<(), Refusal> {
        self.read(bench, slot)?;
        self.slots[slot] = None;
        Ok(())
    }

    pub fn score(&self, bench: usize, species: &Record) -> Result<usize, Refusal> {
        let genes = self.held(bench);
        lineages::score(Rooted, self.species, &genes.concat(), genes.len(), species)
    }

    pub fn search(&self, bench: usize, allowed: &[u8], scores: &mut [u32], splits: &mut [u16]) -> Result<(usize, Record), Refusal> {
        let genes = self.held(bench);
        search::search(Rooted, self.species, &genes.concat(), genes.len(), allowed, scores, splits)
    }

    pub fn written_out(&self) -> Vec<u16> {
        let mut numbers = vec![self.species as u16];
        for slot in &self.slots {
            let (owner, record) = slot.unwrap_or((0, [0; 32]));
            numbers.push(owner as u16);
            numbers.extend(record);
        }
        numbers
    }

    /// The shelf of which these are the numbers, where calls could have left it.
    pub fn taken_in(numbers: &[u16]) -> Option<Shelf> {
        let species = numbers[0] as usize;
        let slot = |numbers: &[u16]| -> Option<Slot> {
            let owner = numbers[0] as usize;
            let record: Record = numbers[1..].try_into().unwrap();
            if is_bench(owner) && valid_gene(species, &record) {
                return Some(Some((owner, record)));
            }
            (owner == 0 && record == [0; 32]).then_some(None)
        };
        if !(1..=SPECIES).contains(&species) {
            return None;
        }
        let slots = numbers[1..].chunks_exact(33).map(slot).collect::<Option<Vec<Slot>>>()?;
        Some(Shelf { species, slots }).filter(|shelf| shelf.beyond() <= COMMON)
    }
}

/// What is lent: numbers, and once a call has looked at them the shelf that they are, which then stands for the first of them.
pub struct Lent {
    numbers: Vec<u16>,
    /// How many of the numbers are lent.
    pub length: usize,
    shelf: Option<Shelf>,
}

impl Lent {
    pub fn new(numbers: Vec<u16>) -> Lent {
        let length = numbers.len();
        Lent { numbers, length, shelf: None }
    }

    /// The numbers as they stand, for whoever looks at them or writes one.
    pub fn numbers(&mut self) -> &mut [u16] {
        if let Some(shelf) = self.shelf.take() {
            self.numbers[..NUMBERS].copy_from_slice(&shelf.written_out());
        }
        &mut self.numbers
    }

    /// The number of species that stands there, whether it is one or not.
    pub fn species(&self) -> usize {
        self.shelf.as_ref().map_or(self.numbers[0] as usize, |shelf| shelf.species)
    }

    pub fn open(&mut self, n: usize) -> Result<(), Refusal> {
        let opened = Shelf::open(n)?;
        if self.length < NUMBERS {
            return Err((12, 0));
        }
        self.shelf = Some(opened);
        Ok(())
    }

    /// The shelf for a call of a bench: 24 for one that is neither, 12 where too little is lent, 15 at 4,096 where no calls could have left it.
    pub fn shelf(&mut self, bench: usize) -> Result<&mut Shelf, Refusal> {
        if !is_bench(bench) {
            return Err((24, 0));
        }
        if self.length < NUMBERS {
            return Err((12, 0));
        }
        if self.shelf.is_none() {
            self.shelf = Shelf::taken_in(&self.numbers[..NUMBERS]);
        }
        self.shelf.as_mut().ok_or((15, SLOTS))
    }
}
