//! Gene trees without a root (#106): the borders by hand, then cases from a seed.
use crate::borders::{count_borders, search_borders};
use crate::lines::Cases;
use crate::lost::raw;
use reference::lineages::mark;
use reference::lineages::Rooting::{Rooted, Unrooted};
use reference::roster::joined;
use reference::seeded::Seeded;
use reference::trees::{record, whole, Record};

pub fn unrooted(c: &mut Cases, s: &mut Seeded) {
    c.rooting = Unrooted;
    count_borders(c);
    search_borders(c, Cases::search);
    what_enters(c);
    drawings_counted(c);
    drawings_marked_and_searched(c);
    nineteen_in_its_order(c);
    mode_lines(c);
    program_inputs(c);
    (0..90).for_each(|_| counts(c, s));
    (0..60).for_each(|_| search(c, s));
    let genes: Vec<u16> = (0..12).flat_map(|_| s.unrooted(16).record()).collect();
    c.search(16, &genes, 12, &[1; 1 << 16], 1 << 16, 1 << 16);
    (0..70).for_each(|_| input(c, s));
    c.rooting = Rooted;
}

/// The record of a tree on n species with these clusters besides the single species and the whole.
pub fn tree(n: usize, inner: &[u16]) -> Record {
    let mut clusters: Vec<u16> = (0..n).map(|i| 1 << i).chain(inner.iter().copied()).collect();
    if n > 1 {
        clusters.push(whole(n));
    }
    record(&clusters)
}

/// Trees that enter, on one to five species: binary, and with three children of the root.
fn entering() -> Vec<(usize, Record)> {
    let inner: [(usize, &[u16]); 15] = [
        (1, &[]), (2, &[]), (3, &[]), (3, &[3]), (3, &[6]), // `(a,b,c);` and two more
        (4, &[3, 12]), (4, &[3, 7]), (4, &[12, 14]), (4, &[3]), (4, &[12]), // drawings of one tree, two with the root at a node
        (5, &[3, 12]), (5, &[3, 7]), (5, &[24, 28]), (5, &[3, 12, 15]), (5, &[3, 28, 24]), // `((a,b),(c,d),e);`, `(((a,b),c),d,e);`, `(a,b,(c,(d,e)));` and two more
    ];
    inner.iter().map(|&(n, inner)| (n, tree(n, inner))).collect()
}

/// Valid gene records that do not enter, on four and five species, each for a reason of its own.
fn staying_out() -> Vec<(usize, Record)> {
    let mut out: Vec<(usize, Record)> = vec![
        (4, tree(4, &[])), (5, tree(5, &[])), (5, tree(5, &[3])), // four, five and four children of the root
        (4, tree(4, &[7])), (4, tree(4, &[14])), (5, tree(5, &[7, 24])), (5, tree(5, &[15, 12])), // a node of three below a root of two
        (5, tree(5, &[7])), (5, tree(5, &[15])), // below a root of three, and a node of four below a root of two
    ];
    // `d;`, `(b,d);`, `((a,c),d);`, `(b,c,d);` and `((a,b),c);`, which lack species
    out.extend([&[8][..], &[2, 8, 10], &[1, 4, 5, 8, 13], &[2, 4, 8, 14], &[1, 2, 3, 4, 7]].map(|clusters| (4, record(clusters))));
    out
}

fn what_enters(c: &mut Cases) {
    for (n, gene) in entering().into_iter().chain(staying_out()) {
        c.weight(n, &gene, 1, 1);
        c.mark(n, &gene, 1, 1 << n);
        // for one species more it lacks one, for one less it is none
        for n in [n + 1, n - 1] {
            c.weight(n, &gene, 1, 1);
        }
        let comb: Vec<u16> = (2..n).map(whole).collect();
        c.score(n, &gene, 1, &tree(n, &comb));
        c.search(n, &gene, 1, &vec![1; 1 << n], 1 << n, 1 << n);
    }
    // for sixteen species: a comb, one without its last inner cluster, so that the root has three children, and one without another
    let comb: Vec<u16> = (2..16).map(whole).collect();
    for inner in [&comb[..], &comb[..13], &comb[1..], &comb[..12]] {
        c.weight(16, &tree(16, inner), 1, 0b1010_1010_1010_1010);
        c.score(16, &tree(16, inner), 1, &tree(16, &comb));
    }
}

/// Drawings of three trees, on four, five and six species: their clusters' weights, each tree's the same, and unlike those with a root.
fn drawings() -> [(usize, Vec<Record>); 3] {
    let drawn = |n, inners: &[&[u16]]| (n, inners.iter().map(|inner| tree(n, inner)).collect());
    [
        drawn(4, &[&[3, 12], &[3, 7], &[3]]),
        drawn(5, &[&[3, 7, 15], &[3, 24], &[3, 28, 24], &[24, 28, 30]]),
        drawn(6, &[&[3, 12, 15], &[3, 12, 48], &[12, 48, 60, 62]]), // `((a,b),(c,d),(e,f));` is the middle one
    ]
}

fn drawings_counted(c: &mut Cases) {
    for (n, drawn) in drawings() {
        for gene in &drawn {
            (1..1 << n).for_each(|a| c.weight(n, gene, 1, a));
        }
        c.weight(n, &drawn.concat(), drawn.len(), 5);
    }
}

fn drawings_marked_and_searched(c: &mut Cases) {
    for (n, drawn) in drawings() {
        for gene in &drawn {
            c.mark(n, gene, 1, (1 << n) + 1);
            let mut shown = vec![0; 1 << n];
            mark(Unrooted, n, gene, 1, &mut shown).unwrap();
            let shown: Vec<u16> = shown.into_iter().map(u16::from).collect();
            c.search(n, gene, 1, &shown, 1 << n, (1 << n) + 1);
            // the record's own clusters alone
            let own: Vec<u16> = (0..1u16 << n).map(|a| gene[1..].contains(&a) as u16).collect();
            c.search(n, gene, 1, &own, 1 << n, 1 << n);
            c.search(n, gene, 1, &vec![0; 1 << n], 1 << n, 1 << n);
        }
        c.mark(n, &drawn.concat(), drawn.len(), 1 << n);
    }
    for n in [1, 2] {
        c.mark(n, &tree(n, &[]), 1, 5);
        c.search(n, &tree(n, &[]), 1, &vec![0; 1 << n], 1 << n, 1 << n);
    }
    let (ab, cd, ac) = (tree(4, &[3]), tree(4, &[12]), tree(4, &[5]));
    for genes in [[ab, cd], [ab, ac], [ac, cd]] {
        c.mark(4, &genes.concat(), 2, 16);
        c.search(4, &genes.concat(), 2, &[1; 16], 17, 18);
    }
}

/// 19 behind 1, 11, 12, 16 and 15, whichever record they are of, and before 13 and 14.
fn nineteen_in_its_order(c: &mut Cases) {
    let (good, out, lost, bad) = (tree(4, &[3]), tree(4, &[7]), record(&[1, 2, 3]), raw(&[2, 1, 2]));
    let comb = tree(4, &[3, 7]);
    for genes in [
        &[out][..], &[lost], &[bad], &[good, out], &[out, good], &[out, lost], &[good, lost, out], &[good, good, good, out], &[out, bad], &[bad, out], &[lost, good, bad], &[good, bad, out, bad],
    ] {
        let (flat, count) = (genes.concat(), genes.len());
        for cluster in [0, 3, 16] {
            c.weight(4, &flat, count, cluster);
        }
        for species in [comb, out, good] {
            c.score(4, &flat, count, &species);
        }
        c.mark(4, &flat, count, 17);
        c.mark(4, &flat, count, 15);
        let mut allowed = [1; 17];
        c.search(4, &flat, count, &allowed, 17, 18);
        allowed[5] = 2;
        c.search(4, &flat, count, &allowed, 17, 18);
        c.search(4, &flat, count, &[0; 16], 16, 16);
        c.search(4, &flat, count, &[0; 15], 16, 16);
        c.search(4, &flat, count, &[0; 16], 16, 15);
        c.weight(17, &flat, count, 3);
        c.weight(4, &flat, 0, 3);
        c.weight(4, &flat, count + 1, 3);
        // what stands behind the records counted is not looked at
        c.weight(4, &flat, count - 1, 3);
    }
    for last in [good, out] {
        let many = [[good; 4095].concat(), last.to_vec()].concat();
        for count in [4095, 4096, 4097] {
            c.weight(4, &many, count, 5);
            c.mark(4, &many, count, 16);
            c.search(4, &many, count, &[1; 16], 16, 16);
        }
    }
}

/// What is a mode line, and what only looks like one.
fn mode_lines(c: &mut Cases) {
    for mode in [
        &b"all"[..], b"genes", b"all unrooted", b"genes unrooted", b"all rooted", b"genes rooted", b"unrooted", b" unrooted", b"unrooted all", b"unrooted genes", b"all  unrooted", b"genes  unrooted", b" all unrooted",
        b"all unrooted ", b"genes unrooted ", b"all ", b"genes ", b"all\tunrooted", b"all_unrooted", b"all,unrooted", b"allunrooted", b"genesunrooted", b"all unroote", b"all unrootedd", b"genes unroote", b"genes unrootedd",
        b"all unrooteD", b"All unrooted", b"ALL UNROOTED", b"Genes unrooted", b"genes Unrooted", b"all unrooted\r", b"genes unrooted\r", b"all genes", b"all genes unrooted", b"all unrooted unrooted", b"al unrooted", b"gene unrooted",
        b"alll unrooted", b"all\nunrooted", b"\nall unrooted", b"'all unrooted'", b"all 'unrooted'", b"all u", b"genes u", b"most unrooted", b"all unrooted\0",
    ] {
        c.report(&[b"a b c\n", mode, b"\n((a,b),c);((b,c),a);"].concat());
    }
    for input in [&b"a b\nall unrooted"[..], b"a b\ngenes unrooted", b"a b\nall unrooted\n", b"a b\ngenes unrooted\n \t\r\n", b"a  b\nall unrooted\n", b"a b c d e f g h i j k l m\nall unrooted\n"] {
        c.report(input);
    }
}

fn program_inputs(c: &mut Cases) {
    for trees in [
        &b"((a,b),(c,d));"[..], b"(((a,b),c),d);", b"((a,b),c,d);", b"(a,(b,(c,d)));", b"(c,(a,b),d);((a,d),(b,c));", b"((a,b),c,d);((a,c),b,d);((a,d),b,c);", b"(a,(b,(c,d)));\n(((a,c),b),d);\n(((a,d),b),c);",
        // 19, where a blank may stand before it
        b"(a,b,c,d);", b" \n(a,b,c,d);", b"((a,b,c),d);", b"(d,(c,b,a));", b"((a,b),c);", b"(a,b);", b"d;", b"(a,b,c);", b"((a,b),(c,d));(a,b,c,d);", b"((a,b),(c,d));\r\n\t (a,b,c,d);", b"((a,b),c,d); a;(a,b,c,d);",
        b"(a,b,c,d);((a,b),(c,d));", b"(a,b,c,d);(a,b);", b"((a,b),c,d)x:1:2;\n((a,b,c)'(a,b)':1,d)::3 ;",
        // what is met in a text comes before it
        b"(a,b,c,d);(a,b", b"(a,b,c,d);(a,a);", b"(a,b);(c,x);", b"(a,b);(c);", b"(a,b,c,d);;", b"(a,b,c,d)", b"((a,b),c", b"((a,b),c,d):;",
    ] {
        c.report(&[b"a b c d\nall unrooted\n", trees].concat());
        c.report(&[b"a b c d\ngenes unrooted\n", trees].concat());
    }
    for input in [
        &b"a\nall unrooted\na;"[..], b"a\ngenes unrooted\n a ; a;", b"a b\nall unrooted\n(a,b);", b"a b\ngenes unrooted\n(b,a);", b"a b\ngenes unrooted\na;", b"a b\nall unrooted\n(a,b); b;",
        b"a b c\nall unrooted\n(a,b,c);", b"a b c\ngenes unrooted\n(a,b,c);", b"a b c\ngenes\n(a,b,c);", b"a b c\ngenes unrooted\n((a,b),c);", b"a b c\nall unrooted\n(b,c);", b"'a b' _ c_\ngenes unrooted\n(a_b,(c_,' '));",
        b"a b c d e\ngenes unrooted\n((a,b),(c,d),e);", b"a b c d e\ngenes\n((a,b),(c,d),e);", b"a b c d e\nall unrooted\n((a,b,c),d,e);", b"a b c d e\nall unrooted\n(((a,b),c),d,e);((a,e),(b,d),c);",
    ] {
        c.report(input);
    }
    // the last of 512 trees, and a 513th, which is 17 before the first is 19
    c.report(&[b"a b\ngenes unrooted\n", &b"(a,b);".repeat(511)[..], b" \nb;"].concat());
    for trees in [512, 513] {
        c.report(&[b"a b\nall unrooted\n", &b"a;".repeat(trees)[..]].concat());
    }
}

/// Gene trees that mostly enter: drawings of trees on n species, one in `out` any gene tree at all.
pub fn genes(s: &mut Seeded, n: usize, count: usize, out: usize) -> Vec<u16> {
    let one = |s: &mut Seeded| match s.below(3 * out) {
        0 => s.gene(n, false),
        1 => s.gene_on_kept(n, true),
        2 => {
            let gene = s.unrooted(n).record();
            s.spoiled(gene)
        }
        _ => s.unrooted(n).record(),
    };
    (0..count).flat_map(|_| one(s)).collect()
}

/// A weight, a score and, up to seven species, the marks of the same gene trees.
fn counts(c: &mut Cases, s: &mut Seeded) {
    let most = if s.one_in(4) { 16 } else { 7 };
    let n = 1 + s.below(most);
    let count = 1 + s.below(3);
    let genes = genes(s, n, count, 10);
    let cluster = if s.one_in(16) { s.below(1 << 17) } else { 1 + s.below((1 << n) - 1) };
    c.weight(n, &genes, count, cluster);
    let binary = !s.one_in(16);
    let species = s.gene(n, binary);
    c.score(n, &genes, count, &species);
    if n <= 7 {
        c.mark(n, &genes, count, (1 << n) + 3);
    }
}

/// A search over all clusters, over those that the gene trees show with their roots or without, or over some.
fn search(c: &mut Cases, s: &mut Seeded) {
    let most = if s.one_in(6) { 7 } else { 5 };
    let n = 1 + s.below(most);
    let count = 1 + s.below(4);
    let genes = genes(s, n, count, 20);
    let mut allowed = vec![1; 1 << n];
    match s.below(4) {
        0 => allowed.iter_mut().for_each(|byte| *byte = !s.one_in(4) as u8),
        1 => drop(mark(Rooted, n, &genes, count, &mut allowed)),
        2 => drop(mark(Unrooted, n, &genes, count, &mut allowed)),
        _ => (),
    }
    let allowed: Vec<u16> = allowed.into_iter().map(u16::from).collect();
    c.search(n, &genes, count, &allowed, (1 << n) + 2, (1 << n) + 1);
}

fn input(c: &mut Cases, s: &mut Seeded) {
    let n = 1 + s.below(6);
    let names = s.names(n);
    let mode = if s.one_in(2) { &b"\nall unrooted\n"[..] } else { b"\ngenes unrooted\n" };
    let mut input = [&joined(&names), mode].concat();
    for _ in 0..1 + s.below(4) {
        s.blanks(&mut input);
        let text = match s.below(20) {
            0 => s.drawn_on((0..n).collect(), &names).1,
            1 => {
                let kept = s.kept(n);
                s.drawn_on(kept, &names).1
            }
            _ => {
                let tree = s.unrooted(n);
                s.text_of(&tree, &names)
            }
        };
        input.extend(text);
    }
    let input = if s.one_in(6) { s.damaged(input) } else { input };
    c.report(&input);
}
