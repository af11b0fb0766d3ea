//! Loci that some species lost (#104): the borders by hand, then cases from a seed.
use crate::borders::{limit_borders, text_borders};
use crate::lines::Cases;
use reference::lineages::{mark, Rooting};
use reference::reader::Kind;
use reference::roster::joined;
use reference::seeded::Seeded;
use reference::trees::{record, Record};

pub fn lost(c: &mut Cases, s: &mut Seeded) {
    let read = |c: &mut Cases, line: &[u8], text: &[u8], start| c.read(Kind::Gene, line, text, start);
    text_borders(c, read);
    limit_borders(c, read);
    incomplete_texts(c);
    written_records(c);
    counted_records(c);
    searched_records(c);
    program_inputs(c);
    (0..75).for_each(|_| text(c, s));
    (0..60).for_each(|_| write(c, s));
    (0..50).for_each(|_| counts(c, s));
    (0..50).for_each(|_| search(c, s));
    let genes: Vec<u16> = (0..12).flat_map(|_| s.gene_on_kept(16, true)).collect();
    c.search(16, &genes, 12, &[1; 1 << 16], 1 << 16, 1 << 16);
    (0..40).for_each(|_| input(c, s));
}

/// A text read as both kinds.
pub fn both(c: &mut Cases, line: &[u8], text: &[u8], start: usize) {
    c.read(Kind::Species, line, text, start);
    c.read(Kind::Gene, line, text, start);
}

/// Texts without all species, as both kinds: what is read of a gene tree, and each fault at and before the `;`.
fn incomplete_texts(c: &mut Cases) {
    for text in [
        &b"a;"[..], b"d;", b" b ; a;", b"(a,b);", b"(d,b);(a", b"((b,a):1:2,d)x::3 ;", b"(d,c,b);", b"(((a,b),c),d);", b"(a,b)", b"(a,b) ", b"(a,b)x;", b"(a,b):;", b"(a,b),c;", b"(a,b));",
        b"(a);", b"((a,b));", b"((a,b),(c));", b"(a,a);", b"(a,(b,a));", b"(a,x);", b"x;", b"();", b"(a,);", b"(a;b);", b"a", b"a:1", b"a:1;", b"a b;", b"(a,b)abcdefghijklmnop;", b"a:1234567890123;",
    ] {
        both(c, b"a b c d", text, 0);
    }
    for start in [0, 2, 3, 8, 9, 10] {
        both(c, b"a b c", b"b;(c,a); ", start);
    }
    let letters: Vec<Vec<u8>> = (b'a'..=b'p').map(|b| vec![b]).collect();
    let sixteen = joined(&letters);
    both(c, &sixteen, b"p;", 0);
    both(c, &sixteen, b"(p,(o,n));", 0);
    // a comb without one species opens fourteen parentheses; a fifteenth is still allowed, though it has nothing to hold
    for lost in [0, 7, 15] {
        let kept: Vec<&[u8]> = letters.iter().enumerate().filter(|(i, _)| *i != lost).map(|(_, name)| &name[..]).collect();
        let mut text = [&[b'('; 14][..], kept[0]].concat();
        for name in &kept[1..] {
            text = [&text, &b","[..], name, b")"].concat();
        }
        text.push(b';');
        both(c, &sixteen, &text, 0);
        both(c, &sixteen, &[b"(", &text[..]].concat(), 0);
        both(c, &sixteen, &[b"((", &text[..]].concat(), 0);
    }
}

/// A record with these numbers in front, whether it is a tree's or not.
pub fn raw(front: &[u16]) -> Record {
    let mut r = [0; 32];
    r[..front.len()].copy_from_slice(front);
    r
}

/// Records that are none of a gene tree on four species, each for a reason of its own.
fn not_gene_records() -> Vec<Record> {
    [
        &[][..], &[0, 1], &[1], &[2, 0, 1], &[32, 1], &[65535, 1], // no tree at all
        &[1, 16], &[3, 2, 16, 18], &[1, 32768], &[3, 1, 2, 65535], // beyond the roster
        &[2, 1, 2], &[3, 1, 2, 4], &[4, 1, 2, 3, 8], // the largest does not hold all
        &[1, 3], &[2, 1, 3], &[2, 2, 3], &[4, 1, 2, 3, 7], &[4, 1, 2, 4, 15], // a species of it is not there singly
        &[3, 1, 3, 2], &[3, 3, 1, 2], &[2, 1, 1], &[4, 1, 2, 2, 3], // not in rising order
        &[6, 1, 2, 3, 4, 6, 7], &[7, 1, 2, 4, 5, 8, 12, 13], // two clash
        &[1, 1, 2], &[4, 1, 2, 3], &[3, 1, 2, 3, 0, 4], // a wrong count, or a number behind
    ]
    .iter()
    .map(|front| raw(front))
    .collect()
}

/// Gene trees on some of four species: `(b,d);`, `((a,c),d);`, `c;`, `(b,c,d);`, and `((a,b),(c,d));` on all.
fn on_some_of_four() -> [Record; 5] {
    [record(&[2, 8, 10]), record(&[1, 4, 5, 8, 13]), record(&[4]), record(&[2, 4, 8, 14]), record(&[1, 2, 3, 4, 8, 12, 15])]
}

fn written_records(c: &mut Cases) {
    for r in on_some_of_four().iter().chain(&not_gene_records()) {
        c.write(b"a b c d", r, 20);
    }
    for out in [0, 1, 2, 3] {
        c.write(b"a b c d", &record(&[8]), out);
    }
    for out in [5, 6, 7] {
        c.write(b"abcdefghijklmno b c d", &record(&[2, 8, 10]), out);
    }
    for (line, clusters) in [(&b"a"[..], &[1u16][..]), (b"a", &[2]), (b"a", &[1, 2, 3]), (b"a b", &[2]), (b"a  b", &[2]), (b"a b a", &[16]), (b"", &[])] {
        c.write(line, &record(clusters), 9);
        c.write(line, &record(clusters), 0);
    }
    let upper: Vec<u16> = (1..16).map(|i| 1 << i).collect();
    for names in [b"a b c d e f g h i j k l m n o", &b"a b c d e f g h i j k l m n o p"[..]] {
        for clusters in [&[16384][..], &[32768], &[16384, 32768, 49152], &[&upper[..], &[65534]].concat()] {
            c.write(names, &record(clusters), 40);
        }
    }
}

fn counted_records(c: &mut Cases) {
    let genes = on_some_of_four();
    for cluster in 1..16 {
        genes[..4].iter().for_each(|gene| c.weight(4, gene, 1, cluster));
        c.weight(4, &genes.concat(), 5, cluster);
    }
    // `((a,e),(b,d));` without c, `((a,b,c),e);` without d
    for gene in [record(&[1, 2, 8, 10, 16, 17, 27]), record(&[1, 2, 4, 7, 16, 23])] {
        (1..32).for_each(|cluster| c.weight(5, &gene, 1, cluster));
    }
    for r in not_gene_records() {
        c.weight(4, &[genes[0], r].concat(), 2, 16);
    }
    for n in 1..=5 {
        c.weight(n, &genes.concat(), 5, 1);
        c.mark(n, &genes.concat(), 4, 35);
    }
    let many = [genes[1]; 4096].concat();
    c.weight(4, &many, 4096, 9);
    c.weight(4, &many, 4096, 2);
    c.mark(4, &[genes[0], genes[2]].concat(), 2, 16);
    let (balanced, comb, crossed) = (genes[4], record(&[1, 2, 3, 4, 7, 8, 15]), record(&[1, 2, 4, 5, 8, 10, 15]));
    for species in [balanced, comb, crossed] {
        genes.iter().for_each(|gene| c.score(4, gene, 1, &species));
        c.score(4, &genes.concat(), 5, &species);
    }
    // a species record still has every species: 16, and before 15
    for species in [genes[0], genes[1], genes[2], record(&[1, 2, 3, 4, 7])] {
        c.score(4, &genes.concat(), 5, &species);
        c.score(4, &raw(&[2, 1, 2]), 1, &species);
    }
}

/// The search over all clusters and over those that the gene trees show, which may leave no tree.
fn searched_records(c: &mut Cases) {
    let [bd, ac_d, only_c, bcd, balanced] = on_some_of_four();
    for genes in [&[bd][..], &[ac_d], &[only_c], &[bcd], &[bd, ac_d], &[bcd, ac_d], &[only_c, balanced], &[bd, ac_d, only_c, bcd, balanced]] {
        let (flat, count) = (genes.concat(), genes.len());
        c.search(4, &flat, count, &[1; 16], 17, 18);
        let mut shown = [0; 16];
        mark(Rooting::Rooted, 4, &flat, count, &mut shown).unwrap();
        c.search(4, &flat, count, &shown.map(u16::from), 16, 16);
    }
    for n in [1, 2, 3, 5] {
        let flat = [only_c, bd].concat();
        c.search(n, &flat, 1, &vec![1; 1 << n], 1 << n, 1 << n);
        c.search(n, &flat, 2, &vec![0; 1 << n], 1 << n, 1 << n);
    }
    c.search(1, &record(&[1]), 1, &[0; 2], 2, 2);
    c.search(4, &[bd, raw(&[2, 1, 2])].concat(), 2, &[2; 16], 16, 16);
}

fn program_inputs(c: &mut Cases) {
    for trees in [
        &b"a;"[..], b"d; c;", b"(a,b);", b"(a,b);(c,d);", b"(a,b);(b,c);(c,a);", b"((a,b),c);(d,c);", b"((a,b),c);((d,c),b);((a,d),b);", b"(a,b,c);", b"(b,c,d);(a,b);", b"(a,b,c);(a,b,c,d);", b"((a,b),(c,d));b;",
        b"(a,b);(a,b", b"(a,b);(a,a);", b"(a,b);(c,x);", b"(a,b);(c);", b"(a,b);;", b"(d,(a,b))x:1:2 ;\n\t(c,d)::3;\r\n", b"((a,b),c)", b"(a,b);c:;",
    ] {
        c.report(&[b"a b c d\nall\n", trees].concat());
        c.report(&[b"a b c d\ngenes\n", trees].concat());
    }
    for input in [&b"a b c\nall\n(b,c);"[..], b"a b c\ngenes\nb;", b"a b c\ngenes\n(a,b);", b"a b\ngenes\na;", b"a b\ngenes\nb;a;", b"a\nall\nb;"] {
        c.report(input);
    }
}

/// A text on some of the species, good or damaged, read as both kinds.
fn text(c: &mut Cases, s: &mut Seeded) {
    let most = if s.one_in(8) { 16 } else { 6 };
    let n = 1 + s.below(most);
    let names = s.names(n);
    let kept = if s.one_in(4) { (0..n).collect() } else { s.kept(n) };
    let good = s.drawn_on(kept, &names).1;
    let text = if s.one_in(2) { good } else { s.damaged(good) };
    both(c, &joined(&names), &text, 0);
}

fn write(c: &mut Cases, s: &mut Seeded) {
    let n = 1 + s.below(16);
    let names = s.names(n);
    let kept = s.kept(n);
    let binary = s.one_in(2);
    let good = s.tree(kept.clone(), binary).record();
    let r = if s.one_in(4) { s.spoiled(good) } else { good };
    let length = kept.iter().map(|&i| names[i].len()).sum::<usize>() + 2 * good[0] as usize - kept.len();
    c.write(&joined(&names), &r, (length + s.below(4)).saturating_sub(1));
}

/// A weight, a score and, up to seven species, the marks of the same gene trees.
fn counts(c: &mut Cases, s: &mut Seeded) {
    let most = if s.one_in(4) { 15 } else { 6 };
    let n = 2 + s.below(most);
    let count = 1 + s.below(4);
    let mut genes: Vec<u16> = Vec::new();
    for _ in 0..count {
        let binary = s.one_in(2);
        let gene = s.gene_on_kept(n, binary);
        genes.extend(if s.one_in(20) { s.spoiled(gene) } else { gene });
    }
    let cluster = 1 + s.below((1 << n) - 1);
    c.weight(n, &genes, count, cluster);
    let species = if s.one_in(8) { s.gene_on_kept(n, true) } else { s.gene(n, true) };
    c.score(n, &genes, count, &species);
    if n <= 7 {
        c.mark(n, &genes, count, (1 << n) + 3);
    }
}

/// A search over all clusters, over those that the gene trees show, or over some.
fn search(c: &mut Cases, s: &mut Seeded) {
    let most = if s.one_in(6) { 6 } else { 4 };
    let n = 2 + s.below(most);
    let count = 1 + s.below(6);
    let binary = s.one_in(2);
    let genes: Vec<u16> = (0..count).flat_map(|_| s.gene_on_kept(n, binary)).collect();
    let mut allowed = vec![1; 1 << n];
    match s.below(4) {
        0 => (),
        1 => allowed.iter_mut().for_each(|byte| *byte = !s.one_in(4) as u8),
        _ => mark(Rooting::Rooted, n, &genes, count, &mut allowed).unwrap(),
    }
    let allowed: Vec<u16> = allowed.into_iter().map(u16::from).collect();
    c.search(n, &genes, count, &allowed, (1 << n) + 2, (1 << n) + 1);
}

fn input(c: &mut Cases, s: &mut Seeded) {
    let n = 2 + s.below(4);
    let names = s.names(n);
    let mode = if s.one_in(2) { &b"\nall\n"[..] } else { b"\ngenes\n" };
    let mut input = [&joined(&names), mode].concat();
    for _ in 0..1 + s.below(4) {
        let kept = s.kept(n);
        input.extend(s.drawn_on(kept, &names).1);
        s.blanks(&mut input);
    }
    let input = if s.one_in(5) { s.damaged(input) } else { input };
    c.report(&input);
}
