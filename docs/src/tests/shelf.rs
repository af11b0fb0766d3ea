//! Two benches on one shelf (#112): what is done in two ways comes out alike, on random shelves and steps from fixed seeds.
use reference::lineages::{score, Rooting::Rooted};
use reference::search::search;
use reference::seeded::Seeded;
use reference::shelf::{Lent, Shelf, ASSURED, COMMON, NUMBERS, SLOTS};
use reference::trees::{valid_gene, Record};
use reference::Refusal;

/// The numbers of a slot, whose it is first.
fn slot(numbers: &mut [u16], slot: usize) -> &mut [u16] {
    &mut numbers[1 + 33 * slot..][..33]
}

fn owner(numbers: &[u16], slot: usize) -> u16 {
    numbers[1 + 33 * slot]
}

fn holding(numbers: &[u16], bench: usize) -> usize {
    (0..SLOTS).filter(|&i| owner(numbers, i) as usize == bench).count()
}

/// An addition on the numbers themselves, with the room that there is said another way.
fn added(numbers: &mut [u16], bench: usize, tree: &Record) -> Result<usize, Refusal> {
    let (own, other) = (holding(numbers, bench), holding(numbers, 3 - bench));
    if !valid_gene(numbers[0] as usize, tree) {
        return Err((15, 0));
    }
    // what the other is assured is kept for it
    if own + other.max(ASSURED) == SLOTS {
        return Err((21, 0));
    }
    let free = (0..SLOTS).find(|&i| owner(numbers, i) == 0).unwrap();
    slot(numbers, free)[0] = bench as u16;
    slot(numbers, free)[1..].copy_from_slice(tree);
    Ok(free)
}

fn removed(numbers: &mut [u16], bench: usize, at: usize) -> Result<(), Refusal> {
    if at >= SLOTS || owner(numbers, at) as usize != bench {
        return Err((22, at));
    }
    slot(numbers, at).fill(0);
    Ok(())
}

/// How many records each bench is to hold: anything, or at the borders of 1,024, 2,048 and 3,072.
fn holdings(s: &mut Seeded) -> [usize; 2] {
    let near = |s: &mut Seeded, border: usize| border - s.below(3);
    match s.below(6) {
        0 => [s.below(6), s.below(6)],
        1 => [near(s, ASSURED), near(s, 3 * ASSURED)],
        2 => [near(s, 3 * ASSURED), near(s, ASSURED)],
        3 => [near(s, 3 * ASSURED), s.below(3)],
        4 => [near(s, 2 * ASSURED), near(s, 2 * ASSURED)],
        _ => [s.below(2000), s.below(2000)],
    }
}

/// The numbers of a shelf on which both benches hold so many records, in any slots.
fn some_shelf(s: &mut Seeded, n: usize, holdings: [usize; 2]) -> Vec<u16> {
    let mut numbers = vec![0; NUMBERS];
    numbers[0] = n as u16;
    let records: Vec<Record> = (0..5).map(|_| s.gene_on_kept(n, false)).collect();
    let mut free: Vec<usize> = (0..SLOTS).collect();
    // half of the shelves are filled from the lowest slot on
    let in_order = s.one_in(2);
    for (bench, count) in [(1, holdings[0]), (2, holdings[1])] {
        for _ in 0..count {
            let pick = if in_order { 0 } else { s.below(free.len()) };
            let at = if in_order { free.remove(pick) } else { free.swap_remove(pick) };
            slot(&mut numbers, at)[0] = bench;
            slot(&mut numbers, at)[1..].copy_from_slice(&records[s.below(5)]);
        }
    }
    numbers
}

#[test]
fn steps_on_the_list_and_on_the_numbers() {
    let mut s = Seeded::new(121);
    let (mut full, mut steps) = (0, 0);
    for _ in 0..60 {
        let n = 1 + s.below(6);
        let holdings = holdings(&mut s);
        let mut numbers = some_shelf(&mut s, n, holdings);
        let mut lent = Lent::new(numbers.clone());
        for _ in 0..100 {
            let (bench, at) = (1 + s.below(2), s.below(SLOTS + 2));
            match s.below(4) {
                0 => assert_eq!(lent.shelf(bench).unwrap().remove(bench, at), removed(&mut numbers, bench, at)),
                1 => {
                    let record: Option<Record> = (at < SLOTS && owner(&numbers, at) as usize == bench).then(|| slot(&mut numbers, at)[1..].try_into().unwrap());
                    assert_eq!(lent.shelf(bench).unwrap().read(bench, at), record.ok_or((22, at)));
                }
                _ => {
                    let gene = s.gene_on_kept(n, false);
                    let tree = if s.one_in(8) { s.spoiled(gene) } else { gene };
                    let answer = lent.shelf(bench).unwrap().add(bench, &tree);
                    assert_eq!(answer, added(&mut numbers, bench, &tree));
                    full += (answer == Err((21, 0))) as usize;
                }
            }
            // some steps go on with the list that there is, others with what the numbers say
            if s.one_in(8) {
                assert_eq!(lent.numbers(), &numbers[..]);
            }
            steps += 1;
        }
        assert_eq!(lent.numbers(), &numbers[..]);
    }
    assert!(full > 200, "{full} of {steps} steps were additions for which there was no room");
}

#[test]
fn every_shelf_that_is_taken_in_comes_about_by_calls() {
    let mut s = Seeded::new(122);
    for _ in 0..30 {
        let n = 1 + s.below(6);
        let holdings = holdings(&mut s);
        let numbers = some_shelf(&mut s, n, holdings);
        let (mut shelf, filler) = (Shelf::open(n).unwrap(), s.gene(n, true));
        let last = (0..SLOTS).rfind(|&i| owner(&numbers, i) != 0).map_or(0, |i| i + 1);
        // slots that are to be free are filled by the first bench until it would hold what it is assured, then by the second
        let mut spare = ASSURED.saturating_sub(holdings[0]);
        let mut fillers = Vec::new();
        for i in 0..last {
            let (bench, record) = match owner(&numbers, i) {
                0 => {
                    let bench = if spare > 0 { 1 } else { 2 };
                    spare = spare.saturating_sub(1);
                    fillers.push((bench, i));
                    (bench, filler)
                }
                bench => (bench as usize, numbers[2 + 33 * i..][..32].try_into().unwrap()),
            };
            assert_eq!(shelf.add(bench, &record), Ok(i));
        }
        for (bench, i) in fillers {
            shelf.remove(bench, i).unwrap();
        }
        assert_eq!(shelf.written_out(), numbers);
        assert_eq!(Shelf::taken_in(&numbers), Some(shelf));
    }
}

#[test]
fn what_is_taken_in_is_written_out_again() {
    let mut s = Seeded::new(123);
    let mut both = [0; 2];
    for _ in 0..200 {
        let n = 1 + s.below(6);
        let holdings = holdings(&mut s);
        let mut numbers = some_shelf(&mut s, n, holdings);
        let at = s.below(SLOTS);
        match s.below(6) {
            0 => numbers[0] = [0, n + 1, 16, 17, 65535][s.below(5)] as u16,
            1 => slot(&mut numbers, at)[0] = s.below(4) as u16,
            2 => slot(&mut numbers, at)[1 + s.below(32)] ^= 1 << s.below(16),
            3 => {
                // a whole slot of another's
                let record = s.gene_on_kept(n, true);
                slot(&mut numbers, at)[0] = 1 + s.below(2) as u16;
                slot(&mut numbers, at)[1..].copy_from_slice(&record);
            }
            4 => slot(&mut numbers, at).fill(0),
            _ => (),
        }
        let taken = Shelf::taken_in(&numbers);
        let records_good = (0..SLOTS).all(|i| {
            let (owner, record) = (owner(&numbers, i), &numbers[2 + 33 * i..][..32]);
            match owner {
                0 => record.iter().all(|&x| x == 0),
                1 | 2 => valid_gene(numbers[0] as usize, record),
                _ => false,
            }
        });
        // neither bench holds over 3,072
        let room = [1, 2].iter().all(|&bench| holding(&numbers, bench) <= ASSURED + COMMON);
        assert_eq!(taken.is_some(), (1..=16).contains(&numbers[0]) && records_good && room);
        if let Some(shelf) = &taken {
            assert_eq!(shelf.written_out(), numbers);
        }
        both[taken.is_some() as usize] += 1;
    }
    assert!(both[0] > 40 && both[1] > 60, "{both:?}");
}

/// The same shelf with other records of the other bench, in slots that are free or the other's.
fn other_records_changed(s: &mut Seeded, numbers: &[u16], bench: usize) -> Vec<u16> {
    let mut changed = numbers.to_vec();
    let other = 3 - bench;
    let mut room = ASSURED + COMMON - holding(numbers, other);
    for i in 0..SLOTS {
        if owner(numbers, i) as usize == other && s.one_in(3) {
            slot(&mut changed, i).fill(0);
        } else if owner(numbers, i) == 0 && room > 0 && s.one_in(20) {
            room -= 1;
            let record = s.gene_on_kept(numbers[0] as usize, false);
            slot(&mut changed, i)[0] = other as u16;
            slot(&mut changed, i)[1..].copy_from_slice(&record);
        }
    }
    changed
}

#[test]
fn a_bench_sees_its_own_records_alone() {
    let mut s = Seeded::new(124);
    let mut differing = 0;
    for _ in 0..60 {
        let n = 1 + s.below(4);
        let (holdings, bench) = ([s.below(200), s.below(200)], 1 + s.below(2));
        let here = some_shelf(&mut s, n, holdings);
        let there = other_records_changed(&mut s, &here, bench);
        differing += (here != there) as usize;
        let species = s.gene(n, true);
        let seen = |numbers: &[u16]| {
            let shelf = Shelf::taken_in(numbers).unwrap();
            let read: Vec<Result<Record, Refusal>> = (0..=SLOTS).map(|i| shelf.read(bench, i)).collect();
            let (mut scores, mut splits) = (vec![0; 1 << n], vec![0; 1 << n]);
            let found = shelf.search(bench, &vec![1; 1 << n], &mut scores, &mut splits);
            (read, shelf.score(bench, &species), found, scores, splits)
        };
        let answers = seen(&here);
        assert!(answers == seen(&there), "n {n}, holdings {holdings:?}, bench {bench}");
        // and gets what the library's own calls give
        let own: Vec<u16> = (0..SLOTS).filter(|&i| owner(&here, i) as usize == bench).flat_map(|i| here[2 + 33 * i..][..32].to_vec()).collect();
        let (mut scores, mut splits) = (vec![0; 1 << n], vec![0; 1 << n]);
        let found = search(Rooted, n, &own, own.len() / 32, &vec![1; 1 << n], &mut scores, &mut splits);
        assert_eq!((answers.1, answers.2, answers.3, answers.4), (score(Rooted, n, &own, own.len() / 32, &species), found, scores, splits));
    }
    assert!(differing > 50, "{differing} of 60 pairs of shelves differ");
}
