//! How many trees are as good (#111): the borders by hand, then cases from a seed, for gene trees with their roots and without.
use crate::borders::search_borders;
use crate::lines::Cases;
use crate::lost::raw;
use crate::unrooted::{genes, tree};
use reference::lineages::mark;
use reference::lineages::Rooting::{Rooted, Unrooted};
use reference::roster::joined;
use reference::seeded::Seeded;
use reference::trees::{whole, Record};

pub fn ties(c: &mut Cases, s: &mut Seeded) {
    for rooting in [Rooted, Unrooted] {
        c.rooting = rooting;
        search_borders(c, |c, n, genes, count, allowed, scores, splits| c.search_ties(n, genes, count, allowed, [scores, splits, scores + 3]));
        lengths(c);
        third_table_in_its_order(c);
        allowed_sets(c);
        combs(c);
        (0..90).for_each(|_| search(c, s));
        let genes = genes(s, 12, 5, 1000);
        c.search_ties(12, &genes, 5, &[1; 1 << 12], [1 << 12; 3]);
    }
    c.rooting = Rooted;
    stars(c);
    program_inputs(c);
    (0..60).for_each(|_| input(c, s));
    largest_tables(c);
}

/// Each of the four lengths one short or not, and the third table of every length around the need.
fn lengths(c: &mut Cases) {
    let (good, bad) = (tree(4, &[3, 12]), raw(&[2, 1, 2]));
    for short in 0..16 {
        let [allowed, scores, splits, ties] = [0, 1, 2, 3].map(|i| 16 - (short >> i & 1));
        for gene in [good, bad] {
            c.search_ties(4, &gene, 1, &vec![1; allowed], [scores, splits, ties]);
        }
    }
    for (n, inner) in [(1, &[][..]), (2, &[]), (3, &[3]), (4, &[3, 12]), (5, &[3, 12, 15])] {
        for third in [0, 1, (1 << n) - 1, 1 << n, (1 << n) + 1, 40] {
            c.search_ties(n, &tree(n, inner), 1, &vec![1; 1 << n], [1 << n, 1 << n, third]);
        }
    }
    for count in [4096, 4097] {
        c.search_ties(4, &[good; 4097].concat(), count, &[1; 16], [16, 16, 16]);
    }
}

/// A third table that is too short behind 1 and 11 and before 15, 19, 13 and 14, which keep it where it is long enough, but for 14.
fn third_table_in_its_order(c: &mut Cases) {
    let (good, star, bad) = (tree(4, &[3, 12]), tree(4, &[]), raw(&[2, 1, 2]));
    for third in [15, 16, 20] {
        for (n, count) in [(0, 1), (17, 1), (usize::MAX, 0), (4, 0), (4, 4097), (4, usize::MAX), (4, 2)] {
            c.search_ties(n, &bad, count, &[2; 16], [16, 16, third]);
        }
        for genes in [&[good][..], &[star], &[bad], &[good, star], &[star, bad]] {
            for byte in [1, 0, 2] {
                c.search_ties(4, &genes.concat(), genes.len(), &[byte; 16], [17, 18, third]);
            }
        }
    }
}

/// The bytes of an allowed set that has these clusters alone.
fn only(n: usize, clusters: &[u16]) -> Vec<u16> {
    (0..1 << n).map(|a| clusters.contains(&a) as u16).collect()
}

/// Allowed sets that leave one tree, several, or none, though some clusters may still have one.
fn allowed_sets(c: &mut Cases) {
    let all: Vec<u16> = (1..32).collect();
    let but = |left_out: &[u16]| all.iter().copied().filter(|a| !left_out.contains(a)).collect::<Vec<u16>>();
    // those of one tree, three times; those of three trees, twice; four that leave none on all species; all clusters, and all but some
    for clusters in [
        &[3, 7, 15][..], &[3, 12, 28], &[12, 28, 30], &[3, 7, 12, 15, 28], &[3, 5, 6, 7, 24], &[3, 5, 6, 7], &[3, 5, 6], &[24], &[], &all, &but(&[3]), &but(&[15, 23, 27, 29, 30]), &but(&[7, 24, 28]),
    ] {
        // `(a,b,c,d,e);` and two that enter without a root
        for inner in [&[][..], &[3, 12], &[3, 7, 24]] {
            c.search_ties(5, &tree(5, inner), 1, &only(5, clusters), [32, 32, 33]);
        }
        c.search_ties(5, &[tree(5, &[3, 7]), tree(5, &[24, 28])].concat(), 2, &only(5, clusters), [33, 32, 32]);
    }
}

/// One comb: with its root its own tree alone adds no lineage; without it the 2n - 3 drawings of it do.
fn combs(c: &mut Cases) {
    for n in [2, 3, 4, 6, 7, 12, 16] {
        let inner: Vec<u16> = (2..n).map(whole).collect();
        c.search_ties(n, &tree(n, &inner), 1, &vec![1; 1 << n], [1 << n; 3]);
    }
}

/// One star: no cluster weighs anything, and every binary tree is as good. On twelve species they are more than 32 bits hold, on sixteen 6,190,283,353,629,375.
fn stars(c: &mut Cases) {
    for n in (1..=12).chain([16]) {
        c.search_ties(n, &tree(n, &[]), 1, &vec![1; 1 << n], [1 << n; 3]);
    }
}

/// `((a,b),c,..,p);` on sixteen species: a third table that is one entry short, and one with four entries that stay.
fn largest_tables(c: &mut Cases) {
    for third in [65_535, 65_540] {
        c.search_ties(16, &tree(16, &[3]), 1, &vec![1; 1 << 16], [1 << 16, 1 << 16, third]);
    }
}

fn program_inputs(c: &mut Cases) {
    for (line, texts) in [
        (&b"a"[..], &[&b"a;"[..]][..]),
        (b"a b", &[b"(a,b);", b"b;"]),
        (b"a b c", &[b"((a,b),c);((a,c),b);", b"(a,b,c);", b"((a,b),c);((a,b),c);((a,c),b);", b"((a,b),c);((a,c),b);((b,c),a);", b"(a,b);c;"]),
        (b"a b c d", &[b"(a,b,c,d);", b"((a,b),c,d);", b"((a,c),(b,d));", b"((a,b),c,d);((a,c),b,d);((a,d),b,c);", b"(a,b,c);(b,c,d);"]),
        (b"a b c d e f g h i j k l", &[b"(a,b,c,d,e,f,g,h,i,j,k,l);", b"((((a,b),c),d),(((e,f),g),h),(((i,j),k),l));", b"l;", b"(l,(k,(j,(i,(h,(g,(f,(e,(d,(c,(b,a)))))))))));"]),
    ] {
        for text in texts {
            for mode in [&b"\nall\n"[..], b"\ngenes\n", b"\nall unrooted\n", b"\ngenes unrooted\n"] {
                c.report(&[line, mode, text].concat());
            }
        }
    }
}

/// Gene trees that leave many trees as good: unresolved, or without some species; one in thirty is no tree.
fn loose_genes(s: &mut Seeded, n: usize, count: usize) -> Vec<u16> {
    let one = |s: &mut Seeded| -> Record {
        let gene = if s.one_in(2) { s.gene(n, false) } else { s.gene_on_kept(n, false) };
        if s.one_in(30) {
            s.spoiled(gene)
        } else {
            gene
        }
    };
    (0..count).flat_map(|_| one(s)).collect()
}

/// A search over all clusters, over those that the gene trees show, or over some; in one of twelve a table is too short.
fn search(c: &mut Cases, s: &mut Seeded) {
    let most = if s.one_in(6) { 8 } else { 6 };
    let n = 1 + s.below(most);
    let count = 1 + s.below(4);
    let genes = if c.rooting == Rooted { loose_genes(s, n, count) } else { genes(s, n, count, 20) };
    let mut allowed = vec![1; 1 << n];
    match s.below(4) {
        0 => allowed.iter_mut().for_each(|byte| *byte = !s.one_in(4) as u8),
        1 => drop(mark(c.rooting, n, &genes, count, &mut allowed)),
        _ => (),
    }
    let allowed: Vec<u16> = allowed.into_iter().map(u16::from).collect();
    let tables = [0; 3].map(|_| if s.one_in(36) { s.below(1 << n) } else { (1 << n) + s.below(3) });
    c.search_ties(n, &genes, count, &allowed, tables);
}

fn input(c: &mut Cases, s: &mut Seeded) {
    let n = 1 + s.below(8);
    let names = s.names(n);
    let (mode, rooting) = [(&b"\nall\n"[..], Rooted), (b"\ngenes\n", Rooted), (b"\nall unrooted\n", Unrooted), (b"\ngenes unrooted\n", Unrooted)][s.below(4)];
    let mut input = [&joined(&names), mode].concat();
    for _ in 0..1 + s.below(3) {
        let tree = if rooting == Rooted { s.tree((0..n).collect(), false) } else { s.unrooted(n) };
        input.extend(s.text_of(&tree, &names));
        s.blanks(&mut input);
    }
    let input = if s.one_in(10) { s.damaged(input) } else { input };
    c.report(&input);
}
