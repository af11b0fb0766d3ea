//! Several individuals of a species (#110): what is done in two ways comes out alike, on random inputs from fixed seeds.
use reference::label::in_quotes;
use reference::lineages::Rooting::Rooted;
use reference::lineages::{extra, extra_by_pass, k, k_by_pass, score, weight};
use reference::roster::joined;
use reference::search::search;
use reference::seeded::{mapping, Seeded, Tree};
use reference::stand::{judge, read, Stand};
use reference::trees::{binary, first, valid, valid_gene, wide_record, Record, WideRecord};
use reference::{Refusal, INDIVIDUALS, NAME, SPECIES};

/// Names of one of the two kinds.
fn some_names(s: &mut Seeded, n: usize) -> Vec<Vec<u8>> {
    if s.one_in(2) {
        s.names(n)
    } else {
        s.printables(n)
    }
}

fn set(group: &[usize]) -> u32 {
    group.iter().map(|&i| 1 << i).sum()
}

/// Both rosters, the individuals of each species, and the mapping in its parts.
struct Drawn {
    species: Vec<Vec<u8>>,
    individuals: Vec<Vec<u8>>,
    groups: Vec<Vec<usize>>,
    tokens: Vec<Vec<u8>>,
}

impl Drawn {
    fn judged(&self, mapping: &[u8]) -> Result<Stand, Refusal> {
        judge(&joined(&self.species), &joined(&self.individuals), mapping)
    }

    fn stand(&self) -> Stand {
        self.judged(&self.tokens.concat()).unwrap()
    }
}

fn drawn(s: &mut Seeded, n: usize, m: usize) -> Drawn {
    let (species, individuals, groups) = (some_names(s, n), some_names(s, m), s.groups(n, m));
    let tokens = mapping(&s.labels(&species), &s.labels(&individuals), &groups);
    Drawn { species, individuals, groups, tokens }
}

fn sizes(s: &mut Seeded) -> (usize, usize) {
    let n = 1 + s.below(SPECIES);
    (n, n + s.below(INDIVIDUALS - n + 1))
}

#[test]
fn a_good_mapping_gives_each_species_its_individuals() {
    let mut s = Seeded::new(101);
    for _ in 0..3000 {
        let (n, m) = sizes(&mut s);
        let drawn = drawn(&mut s, n, m);
        let groups = drawn.groups.iter().map(|group| set(group)).collect();
        assert_eq!(drawn.stand(), Stand { individuals: m, groups });
    }
}

/// A label of sixteen bytes or more, bare or quoted.
fn long_label(s: &mut Seeded) -> Vec<u8> {
    let name = vec![b'a'; NAME + 1 + s.below(3)];
    if s.one_in(2) {
        name
    } else {
        in_quotes(&name)
    }
}

/// A name that no roster here has.
fn unknown(s: &mut Seeded, drawn: &Drawn) -> Vec<u8> {
    loop {
        let name = s.printable();
        if !drawn.species.contains(&name) && !drawn.individuals.contains(&name) {
            return s.labels(&[name]).remove(0);
        }
    }
}

/// A good mapping with one fault put in, and its place.
fn with_a_fault(s: &mut Seeded, drawn: &Drawn) -> (Vec<u8>, usize) {
    let tokens = &drawn.tokens;
    let at = s.below(tokens.len());
    let begins = tokens[..at].concat().len();
    let label = at % 2 == 0;
    let put = |token: &[u8]| [&tokens[..at].concat(), token, &tokens[at + 1..].concat()].concat();
    let stray: &[u8] = b" \t\r;()[].-\0\x7f\xff";
    match s.below(9) {
        0 if label => (put(&unknown(s, drawn)), begins),
        1 if label => (put(&long_label(s)), begins),
        2 if label => (put(b"''"), begins + 1),
        3 if label => (put(&[b"'a\x7f", &tokens[at][..]].concat()), begins + 2),
        // an individual that stands before
        4 if at > 2 && b":,".contains(&tokens[at - 1][0]) => {
            let earlier: Vec<usize> = (2..at).step_by(2).filter(|&i| b":,".contains(&tokens[i - 1][0])).collect();
            if earlier.is_empty() {
                return with_a_fault(s, drawn);
            }
            (put(&tokens[earlier[s.below(earlier.len())]]), begins)
        }
        // one left out, with the comma before it
        5 if tokens[at] == b"," && !label => {
            let left = [&tokens[..at], &tokens[at + 2..]].concat().concat();
            let length = left.len();
            (left, length)
        }
        // cut short between two parts, or within quotes
        6 => {
            let inside: Vec<usize> = (1..tokens[at].len()).filter(|&i| tokens[at][..i].iter().filter(|&&b| b == b'\'').count() % 2 == 1).collect();
            let end = if inside.is_empty() { begins } else { begins + inside[s.below(inside.len())] };
            (tokens.concat()[..end].to_vec(), end)
        }
        7 => {
            let whole = tokens.concat();
            let more = [&b"\n"[..], b"a", b" ", &tokens[0]][s.below(4)];
            ([&whole, more].concat(), whole.len())
        }
        // a byte that may stand nowhere, before a part or in its place
        8 => {
            let byte = stray[s.below(stray.len())];
            let kept: &[u8] = if s.one_in(2) { &tokens[at] } else { b"" };
            (put(&[&[byte], kept].concat()), begins)
        }
        _ => with_a_fault(s, drawn),
    }
}

#[test]
fn a_fault_put_into_a_mapping_is_found_at_its_place() {
    let mut s = Seeded::new(102);
    for _ in 0..20_000 {
        let n = 1 + s.below(5);
        let m = n + s.below(6);
        let drawn = drawn(&mut s, n, m);
        let (mapping, place) = with_a_fault(&mut s, &drawn);
        assert_eq!(drawn.judged(&mapping), Err((20, place)), "mapping {:?}", String::from_utf8_lossy(&mapping));
    }
}

#[test]
fn trees_on_individuals_read_as_drawn() {
    let mut s = Seeded::new(103);
    for _ in 0..2000 {
        let m = 1 + s.below(INDIVIDUALS);
        let names = some_names(&mut s, m);
        let labels = s.labels(&names);
        let kept = if s.one_in(2) { s.kept(m) } else { (0..m).collect() };
        let (record, text) = s.drawn_wide(kept, &labels);
        assert!(valid_gene(m, &record));
        assert_eq!(read(&joined(&names), &text, 0), Ok((record, text.len())));
        let damaged = s.damaged(text);
        match read(&joined(&names), &damaged, 0) {
            Ok((record, next)) => assert!(valid_gene(m, &record) && damaged[next - 1] == b';'),
            Err((number, place)) => assert!((3..=10).contains(&number) && number != 9 && (number == 10) == (place == damaged.len())),
        }
    }
}

fn wide_gene(s: &mut Seeded, m: usize) -> WideRecord {
    let binary = s.one_in(2);
    s.wide_gene_on_kept(m, binary)
}

#[test]
fn k_on_individuals_by_its_definition_and_by_the_pass() {
    let mut s = Seeded::new(104);
    for _ in 0..2000 {
        let (n, m) = sizes(&mut s);
        let (stand, gene) = (drawn(&mut s, n, m).stand(), wide_gene(&mut s, m));
        for _ in 0..10 {
            let a = stand.individuals_of(1 + s.below((1 << n) - 1) as u16);
            assert_eq!(k(Rooted, &gene, a), k_by_pass(Rooted, &gene, a), "gene tree {gene:?}, set {a}");
            assert_eq!(extra(Rooted, &gene, a), extra_by_pass(Rooted, &gene, a), "gene tree {gene:?}, set {a}");
        }
    }
}

/// Each species as a tree on some of its individuals.
fn in_place_of_leaves(s: &mut Seeded, tree: &Tree, groups: &[Vec<usize>]) -> Tree {
    match tree {
        Tree::Leaf(i) => {
            let kept = s.kept(groups[*i].len()).into_iter().map(|k| groups[*i][k]).collect();
            s.tree(kept, false)
        }
        Tree::Node(children) => Tree::Node(children.iter().map(|child| in_place_of_leaves(s, child, groups)).collect()),
    }
}

/// The weights of twenty clusters, the score of a species tree, and the search with its tables.
type Counted = (Vec<Result<usize, Refusal>>, Result<usize, Refusal>, Result<(usize, Record), Refusal>, Vec<u32>, Vec<u16>);

fn counted_alike(s: &mut Seeded, n: usize, stand: &Stand, on_species: &[Record], on_individuals: &[WideRecord]) -> Counted {
    let clusters: Vec<usize> = (0..20).map(|_| 1 + s.below((1 << n) - 1)).collect();
    let species = s.gene(n, true);
    let dense = 1 + s.below(4);
    let allowed: Vec<u8> = (0..1 << n).map(|_| s.one_in(dense) as u8).collect();
    let tables = || (vec![7; (1 << n) + 1], vec![9; (1 << n) + 2]);
    let (flat, count) = (on_species.concat(), on_species.len());
    let (mut scores, mut splits) = tables();
    let found = search(Rooted, n, &flat, count, &allowed, &mut scores, &mut splits);
    let weights = clusters.iter().map(|&a| weight(Rooted, n, &flat, count, a)).collect();
    let here = (weights, score(Rooted, n, &flat, count, &species), found, scores, splits);

    let (flat, count) = (on_individuals.concat(), on_individuals.len());
    let (mut scores, mut splits) = tables();
    let found = stand.search(&flat, count, &allowed, &mut scores, &mut splits);
    let weights = clusters.iter().map(|&a| stand.weight(&flat, count, a)).collect();
    let there = (weights, stand.score(&flat, count, &species), found, scores, splits);
    assert_eq!(here, there, "stand {stand:?}, gene trees {on_species:?} and {on_individuals:?}");
    here
}

#[test]
fn one_individual_each_and_gene_trees_on_species() {
    let mut s = Seeded::new(105);
    let mut trees = 0;
    for _ in 0..400 {
        let n = 1 + s.below(8);
        let drawn = drawn(&mut s, n, n);
        // the species of each individual, and the gene trees under the species' names
        let species: Vec<usize> = (0..n).map(|i| drawn.groups.iter().position(|group| group[0] == i).unwrap()).collect();
        let on_species: Vec<Record> = (0..1 + s.below(4)).map(|_| s.gene_on_kept(n, false)).collect();
        let renamed = |x: u16| (0..n).filter(|&i| x >> species[i] & 1 == 1).map(|i| 1 << i).sum();
        let on_individuals: Vec<WideRecord> =
            on_species.iter().map(|r| wide_record(&reference::trees::clusters(r).iter().map(|&x| renamed(x)).collect::<Vec<u32>>())).collect();
        trees += counted_alike(&mut s, n, &drawn.stand(), &on_species, &on_individuals).2.is_ok() as usize;
    }
    assert!(trees > 100, "{trees} of 400 searches found a tree");
}

#[test]
fn individuals_that_stand_together_count_as_their_species() {
    let mut s = Seeded::new(106);
    let mut trees = 0;
    for _ in 0..400 {
        let n = 1 + s.below(8);
        let m = n + s.below(INDIVIDUALS - n + 1);
        let drawn = drawn(&mut s, n, m);
        let (mut on_species, mut on_individuals) = (Vec::new(), Vec::new());
        for _ in 0..1 + s.below(4) {
            let kept = s.kept(n);
            let tree = s.tree(kept, false);
            on_species.push(tree.record());
            on_individuals.push(in_place_of_leaves(&mut s, &tree, &drawn.groups).wide_record());
        }
        trees += counted_alike(&mut s, n, &drawn.stand(), &on_species, &on_individuals).2.is_ok() as usize;
    }
    assert!(trees > 100, "{trees} of 400 searches found a tree");
}

#[test]
fn the_tree_found_on_a_stand_has_the_score_found() {
    let mut s = Seeded::new(107);
    let mut above = 0;
    for _ in 0..600 {
        let n = 1 + s.below(7);
        let m = n + s.below(8);
        let stand = drawn(&mut s, n, m).stand();
        let genes: Vec<WideRecord> = (0..1 + s.below(4)).map(|_| wide_gene(&mut s, m)).collect();
        let (mut scores, mut splits) = (vec![0; 1 << n], vec![0; 1 << n]);
        let (least, tree) = stand.search(&genes.concat(), genes.len(), &vec![1; 1 << n], &mut scores, &mut splits).unwrap();
        assert!(valid(n, &tree) && binary(n, &tree));
        assert_eq!(stand.score(&genes.concat(), genes.len(), &tree), Ok(least));
        let other = s.gene(n, true);
        assert!(stand.score(&genes.concat(), genes.len(), &other).unwrap() >= least);
        // the whole of the individuals weighs nothing, a single species may weigh
        assert_eq!(stand.individuals_of(first(n)), first(m));
        assert_eq!(stand.weight(&genes.concat(), genes.len(), (1 << n) - 1), Ok(0));
        above += (0..n).any(|i| stand.weight(&genes.concat(), genes.len(), 1 << i) != Ok(0)) as usize;
    }
    assert!(above > 200, "on {above} stands a single species weighs more than 0");
}
