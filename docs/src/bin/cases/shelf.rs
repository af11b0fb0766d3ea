//! Two benches on one shelf (#112): the borders by hand, then walks from a seed.
use crate::lines::{Cases, Steps};
use crate::lost::raw;
use crate::unrooted::tree;
use reference::seeded::Seeded;
use reference::shelf::{Shelf, ASSURED, NUMBERS, SLOTS};
use reference::trees::{record, Record};

pub fn shelf(c: &mut Cases, s: &mut Seeded) {
    opened(c);
    neither_bench(c);
    too_little_lent(c);
    lowest_free_slots(c);
    slots_that_are_not_ones_own(c);
    records_that_are_added(c);
    shelves_written_wrong(c);
    each_bench_on_its_own(c);
    scores_and_searches_refused(c);
    one_bench_alone(c);
    both_benches_alike(c);
    (0..18).for_each(|_| walk(c, s, 2, &[]));
    (0..6).for_each(|_| walk(c, s, 4, &[]));
    // near the borders: both at what they are assured; one with all that is common; both with half of it
    for holdings in [[1021, 1022], [3069, 1021], [2046, 2045]] {
        walk(c, s, 2, &holdings);
    }
    (0..12).for_each(|_| searches_among_others(c, s));
}

/// Where a slot's numbers begin: whose it is, then the record.
fn index(slot: usize) -> usize {
    1 + 33 * slot
}

/// Every call of a bench: an addition, reading, removing, a score and a search on three species.
fn every_call(steps: &mut Steps, bench: usize) {
    let ab = tree(3, &[3]);
    steps.add(bench, &ab).read(bench, 0).remove(bench, 1).score(bench, &ab).search(bench, &[1; 8]);
}

/// Shelves for each number of species and beyond, and one that was never opened.
fn opened(c: &mut Cases) {
    for n in [0, 1, 2, 9, 10, 11, 16, 17, 65_537, usize::MAX] {
        c.shelf(Steps::default().open(n).add(1, &record(&[1])).add(2, &record(&[2])).add(1, &record(&[1 << 15])).search(1, &[1; 16]).search(2, &[1; 1024]));
    }
    c.shelf(Steps::default().lend(NUMBERS));
    let mut never = Steps::default();
    every_call(&mut never, 1);
    every_call(&mut never, 2);
    c.shelf(&never);
    // opened again it is empty, and a refused opening leaves it as it was
    let ab = tree(3, &[3]);
    c.shelf(Steps::default().open(3).add(1, &ab).add(2, &ab).open(17).read(1, 0).open(0).read(2, 1).open(4).read(1, 0).add(2, &ab).read(2, 0));
}

/// 24 comes before all else.
fn neither_bench(c: &mut Cases) {
    for bench in [0, 3, 4, 65_537, usize::MAX] {
        let mut steps = Steps::default();
        every_call(&mut steps, bench);
        steps.open(3).add(1, &tree(3, &[3]));
        every_call(&mut steps, bench);
        steps.add(bench, &[0; 32]).read(bench, SLOTS).lend(0);
        every_call(&mut steps, bench);
        c.shelf(&steps);
    }
}

/// 12 for a shelf that is one number short, behind 1 and 24 and before 15 at 4,096; what lies behind is not touched.
fn too_little_lent(c: &mut Cases) {
    for lent in [0, 1, 34, NUMBERS - 1, NUMBERS, NUMBERS + 1, NUMBERS + 3] {
        let mut steps = Steps::default();
        steps.lend(lent).open(0).open(17).open(3);
        every_call(&mut steps, 2);
        steps.add(3, &tree(3, &[3])).write(0, 0).add(1, &tree(3, &[3])).write(0, 3).add(1, &tree(3, &[3]));
        c.shelf(&steps);
    }
    let ab = tree(3, &[3]);
    c.shelf(Steps::default().open(3).add(1, &ab).lend(NUMBERS - 1).add(1, &ab).read(1, 0).remove(1, 0).score(1, &ab).search(1, &[1; 8]).open(4).lend(NUMBERS).read(1, 0).remove(1, 0).read(1, 0));
    // the numbers behind the shelf are of no account
    c.shelf(Steps::default().open(2).write(NUMBERS, 7).write(NUMBERS + 2, 65_535).add(1, &tree(2, &[])).read(1, 0).remove(1, 0).write(NUMBERS - 1, 1).add(1, &tree(2, &[])));
}

/// An addition takes the lowest free slot, whoever freed it.
fn lowest_free_slots(c: &mut Cases) {
    let (a, b, ab) = (record(&[1]), record(&[2]), tree(2, &[]));
    c.shelf(Steps::default().open(2).add(1, &a).add(2, &b).add(1, &ab).add(2, &a).remove(2, 1).remove(1, 0).add(2, &ab).add(1, &b).add(1, &a).read(2, 0).read(1, 1).read(1, 4));
    c.shelf(Steps::default().open(2).add(1, &a).again(9).remove(1, 7).remove(1, 3).remove(1, 5).add(2, &b).add(2, &ab).add(1, &ab).add(2, &a).read(2, 3).read(2, 5).read(1, 7).read(2, 10));
    // what was added is read back; removed, the shelf is as before
    c.shelf(Steps::default().open(2).add(2, &ab));
    c.shelf(Steps::default().open(2).add(2, &ab).add(1, &a).read(1, 1).remove(1, 1).read(1, 1).remove(1, 1).read(2, 0));
    c.shelf(Steps::default().open(2).add(1, &a).again(4).remove(1, 0).again(1).remove(1, 4).remove(1, 3).add(2, &b).again(5));
}

/// 22 at the slot: the other's, a free one, and one that there is not.
fn slots_that_are_not_ones_own(c: &mut Cases) {
    let ab = tree(2, &[]);
    for slot in [0, 1, 2, 3, 4094, 4095, 4096, 4097, 65_536, 1 << 32, usize::MAX - 1, usize::MAX] {
        let mut steps = Steps::default();
        steps.open(2).add(1, &ab).add(2, &record(&[2])).add(1, &record(&[1]));
        steps.read(1, slot).read(2, slot).remove(2, slot).read(1, slot).remove(1, slot).read(1, slot).read(2, 1);
        c.shelf(&steps);
    }
}

/// 15 at 0 for a record that is no gene tree on the shelf's species, and before 21; incomplete and unresolved trees go on it.
fn records_that_are_added(c: &mut Cases) {
    let mut steps = Steps::default();
    steps.open(3);
    for front in [&[][..], &[0, 1], &[1], &[1, 8], &[2, 1, 2], &[1, 3], &[3, 1, 3, 2], &[32, 1], &[65_535, 1], &[5, 1, 2, 3, 6, 7], &[1, 1, 2], &[7, 1, 2, 3, 4, 8, 12, 15]] {
        steps.add(1, &raw(front)).add(2, &raw(front));
    }
    let mut behind = tree(3, &[3]);
    behind[31] = 1;
    steps.add(1, &behind).add(3, &behind).add(1, &record(&[4])).add(2, &record(&[1, 4, 5])).add(1, &tree(3, &[])).add(2, &tree(3, &[5])).read(1, 0).read(2, 1).read(1, 2).read(2, 3);
    c.shelf(&steps);
}

/// 15 at 4,096: each number that no calls leave, between a call before it, every call, and the number put right.
fn shelves_written_wrong(c: &mut Cases) {
    let ab = tree(3, &[3]);
    let (mine, yours, free, last) = (index(0), index(1), index(2), index(SLOTS - 1));
    for (at, wrong, right) in [
        (0, 0, 3), (0, 17, 3), (0, 65_535, 3), (0, 2, 3), (0, 1, 3), (0, 4, 3), (0, 16, 3), // the number of species: none, or one that the records do not fit or fit
        (mine, 0, 1), (mine, 2, 1), (mine, 3, 1), (mine, 65_535, 1), (yours, 1, 2), // whose a slot is: nobody's though it has a record, the other's, a third's
        (mine + 1, 0, 5), (mine + 1, 6, 5), (mine + 1, 4, 5), (mine + 3, 4, 2), (mine + 5, 0, 4), (mine + 5, 8, 4), (mine + 32, 1, 0), // a record's numbers
        (free, 1, 0), (free, 3, 0), (free + 1, 1, 0), (free + 32, 7, 0), (last, 2, 0), (last + 32, 1, 0), // a free slot's
    ] {
        let mut steps = Steps::default();
        steps.open(3).add(1, &ab).add(2, &tree(3, &[5])).write(at, wrong);
        every_call(&mut steps, 1);
        steps.read(2, 1).read(2, 0).add(3, &ab).add(2, &[0; 32]).write(at, right).read(1, 0).add(2, &ab);
        c.shelf(&steps);
    }
    // a shelf that is written number by number is one that calls could leave
    let mut steps = Steps::default();
    steps.open(2).write(last, 2).write(last + 1, 1).write(last + 2, 2).read(2, SLOTS - 1).read(1, SLOTS - 1).score(2, &tree(2, &[])).add(1, &record(&[1])).remove(2, SLOTS - 1);
    c.shelf(&steps);
}

/// Records of both benches on one shelf: what each scores and finds, and the library's own calls on the same records.
fn each_bench_on_its_own(c: &mut Cases) {
    let lots = [vec![tree(3, &[3]), tree(3, &[3]), tree(3, &[5])], vec![tree(3, &[6]), tree(3, &[]), record(&[1, 4, 5])]];
    let mut steps = Steps::default();
    steps.open(3);
    for i in 0..3 {
        steps.add(1, &lots[0][i]).add(2, &lots[1][i]);
    }
    for (bench, lot) in [(1, &lots[0]), (2, &lots[1])] {
        for species in [tree(3, &[3]), tree(3, &[5]), tree(3, &[6])] {
            steps.score(bench, &species);
            c.score(3, &lot.concat(), 3, &species);
        }
        for allowed in [[1; 8], [0; 8], [0, 0, 0, 0, 0, 0, 1, 0]] {
            steps.search(bench, &allowed);
            c.search(3, &lot.concat(), 3, &allowed, 8, 8);
        }
    }
    // the other's records taken away, one's own stay; then one has none
    steps.remove(2, 1).remove(2, 3).remove(2, 5).search(1, &[1; 8]).score(1, &tree(3, &[3])).search(2, &[1; 8]).score(2, &tree(3, &[3])).remove(1, 2).search(1, &[1; 8]);
    c.shelf(&steps);
    // ten species have tables, eleven and more have sixteen entries here, which are too few
    for n in [6, 7, 10, 11, 12, 16] {
        let comb: Vec<u16> = (2..n).map(|k| ((1u32 << k) - 1) as u16).collect();
        let mut steps = Steps::default();
        steps.open(n).add(1, &tree(n, &comb)).add(2, &tree(n, &[3, 48])).search(1, &vec![1; 1 << n.min(10)]).score(1, &tree(n, &comb)).score(2, &tree(n, &comb));
        c.shelf(steps.search(2, &vec![1; 1 << n.min(10)]));
    }
}

/// 11 before 16 for a score; 11, 12, 13 and 14 for a search.
fn scores_and_searches_refused(c: &mut Cases) {
    let (ab, star, bad) = (tree(3, &[3]), tree(3, &[]), raw(&[2, 1, 2]));
    let mut steps = Steps::default();
    steps.open(3).score(1, &ab).score(1, &star).search(1, &[1; 8]).search(1, &[2; 7]).add(2, &star).score(1, &ab).search(1, &[2; 8]);
    steps.add(1, &star);
    for species in [ab, star, bad, record(&[1, 2, 3]), tree(4, &[3, 12]), [0; 32]] {
        steps.score(1, &species);
    }
    for allowed in [&[1; 8][..], &[0; 8], &[1; 7], &[2; 7], &[], &[1; 9], &[0, 1, 1, 0, 1, 2, 1, 2], &[255, 1, 1, 1, 1, 1, 1, 1], &[0, 0, 0, 0, 0, 1, 0, 0, 9]] {
        steps.search(1, allowed);
    }
    c.shelf(&steps);
}

/// One bench up to 3,072, then the other up to what it is assured; freed slots go to whoever comes.
fn one_bench_alone(c: &mut Cases) {
    let (ab, a, b) = (tree(3, &[3]), tree(3, &[5]), tree(3, &[6]));
    for (bench, other) in [(1, 2), (2, 1)] {
        let mut steps = Steps::default();
        // 1,024 and one more; 3,072 and one more
        steps.open(3).add(bench, &a).again(ASSURED - 1).add(bench, &a).again(2 * ASSURED - 1).add(bench, &ab).add(bench, &[0; 32]);
        steps.add(other, &b).again(ASSURED - 1).add(other, &ab).add(bench, &ab).read(other, SLOTS - 1).read(bench, SLOTS - 1).read(other, SLOTS);
        steps.score(bench, &ab).score(other, &ab).search(bench, &[1; 8]).search(other, &[1; 8]).search(other, &[0, 0, 0, 1, 0, 0, 0, 0]);
        // of 3,072 one less: what it held beyond is common again, and the other comes first
        steps.remove(bench, 5).add(other, &b).add(bench, &a).read(other, 5).remove(other, 3072).add(bench, &ab).read(bench, 3072).add(other, &b);
        // of what the other is assured one less: only the other may have it
        steps.remove(other, 5).add(bench, &ab).add(other, &ab).add(other, &ab).read(other, 5);
        // 3,073 that no calls leave, and put right
        steps.write(index(5), bench as u16).add(other, &b).read(bench, 5).remove(other, 6).write(index(5), other as u16).read(other, 5).remove(bench, 0);
        c.shelf(&steps);
    }
}

/// Both with 2,048: there is no room for either, until one has less.
fn both_benches_alike(c: &mut Cases) {
    let (a, b) = (record(&[1]), record(&[1, 2, 3]));
    let mut steps = Steps::default();
    steps.open(2).add(1, &a).again(2 * ASSURED - 1).add(2, &b).again(2 * ASSURED - 1).add(1, &b).add(2, &a).remove(1, 9).add(2, &a).add(1, &a).read(2, 9);
    // six slots of the first's, which the second takes
    for slot in (10..15).chain([2047]) {
        steps.remove(1, slot);
    }
    steps.add(2, &a).again(5).add(2, &a).add(1, &a).score(1, &b).score(2, &b).search(2, &[0; 4]);
    // the last slot freed and taken again, by each
    steps.remove(2, SLOTS - 1).add(1, &b).read(1, SLOTS - 1).add(2, &a).remove(1, SLOTS - 1).add(2, &b).add(2, &b).read(2, SLOTS - 1).remove(2, SLOTS);
    // one slot of the other's given to the first by hand, which is a shelf that calls could leave; a third's is not
    steps.write(index(SLOTS - 1), 1).read(1, SLOTS - 1).read(2, SLOTS - 1).write(index(SLOTS - 1), 3).read(1, 0).write(index(SLOTS - 1), 2).read(1, 0).remove(2, SLOTS - 1);
    c.shelf(&steps);
}

/// A walk: what was done, and the shelf that it leaves, so that most steps are about records that are there.
struct Walk<'a> {
    s: &'a mut Seeded,
    steps: Steps,
    shelf: Shelf,
    taken: Vec<(usize, usize)>,
    n: usize,
}

impl Walk<'_> {
    fn add(&mut self, bench: usize, tree: &Record) {
        self.steps.add(bench, tree);
        if let Ok(slot) = self.shelf.add(bench, tree) {
            self.taken.push((bench, slot));
        }
    }

    /// A bench and a slot, most often one that is its own.
    fn own(&mut self) -> (usize, usize) {
        let (bench, slot) = if self.taken.is_empty() { (1, 0) } else { self.taken[self.s.below(self.taken.len())] };
        match self.s.below(12) {
            0 => (3 - bench, slot),
            1 => (bench, self.s.below(SLOTS + 4)),
            _ => (bench, slot),
        }
    }

    fn gene(&mut self) -> Record {
        let binary = self.s.one_in(2);
        let gene = self.s.gene_on_kept(self.n, binary);
        if self.s.one_in(30) {
            self.s.spoiled(gene)
        } else {
            gene
        }
    }

    fn step(&mut self) {
        let bench = 1 + self.s.below(2);
        match self.s.below(100) {
            0..=46 => {
                let gene = self.gene();
                self.add(bench, &gene);
            }
            47..=68 => {
                let (bench, slot) = self.own();
                self.steps.remove(bench, slot);
                if self.shelf.remove(bench, slot).is_ok() {
                    self.taken.retain(|taken| *taken != (bench, slot));
                }
            }
            69..=90 => {
                let (bench, slot) = self.own();
                self.steps.read(bench, slot);
            }
            91..=94 => {
                let species = self.s.gene(self.n, true);
                self.steps.score(bench, &species);
            }
            95..=97 => {
                let allowed: Vec<u16> = (0..1 << self.n).map(|_| !self.s.one_in(3) as u16).collect();
                self.steps.search(bench, &allowed);
            }
            98 => {
                let neither = [0, 3, usize::MAX][self.s.below(3)];
                self.steps.read(neither, 0);
            }
            _ => {
                // a number written wrong, a call, and the number put right
                let (at, right) = (self.s.below(NUMBERS), self.shelf.written_out());
                let wrong = right[at] ^ 1 << self.s.below(3);
                self.steps.write(at, wrong).read(bench, 0).write(at, right[at]);
            }
        }
    }
}

/// Random steps on a shelf for n species, behind so many additions of each bench.
fn walk(c: &mut Cases, s: &mut Seeded, n: usize, holdings: &[usize]) {
    let length = 180 + s.below(60);
    let mut walk = Walk { s, steps: Steps::default(), shelf: Shelf::open(n).unwrap(), taken: Vec::new(), n };
    walk.steps.open(n);
    for (i, &holding) in holdings.iter().enumerate() {
        let (bench, first) = (i + 1, record(&[1 << i]));
        walk.add(bench, &first);
        walk.steps.again(holding - 1);
        for _ in 1..holding {
            let slot = walk.shelf.add(bench, &first).unwrap();
            walk.taken.push((bench, slot));
        }
    }
    (0..length).for_each(|_| walk.step());
    c.shelf(&walk.steps);
}

/// Gene trees of both benches in turn, and what each scores and finds among the other's; the library's own calls on the first's.
fn searches_among_others(c: &mut Cases, s: &mut Seeded) {
    let n = 2 + s.below(5);
    let mut steps = Steps::default();
    steps.open(n);
    let mut own: Vec<u16> = Vec::new();
    for _ in 0..3 + s.below(5) {
        let (bench, gene) = (1 + s.below(2), s.gene_on_kept(n, false));
        steps.add(bench, &gene);
        if bench == 1 {
            own.extend(gene);
        }
    }
    let species = s.gene(n, true);
    let dense = 1 + s.below(2);
    let allowed: Vec<u16> = (0..1 << n).map(|_| s.one_in(dense) as u16).collect();
    for bench in [1, 2] {
        steps.score(bench, &species).search(bench, &allowed);
    }
    c.shelf(&steps);
    c.score(n, &own, own.len() / 32, &species);
    c.search(n, &own, own.len() / 32, &allowed, 1 << n, 1 << n);
}
