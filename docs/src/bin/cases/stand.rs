//! Several individuals of a species (#110): the borders by hand, then cases from a seed.
use crate::borders::{limit_borders, roster_borders, text_borders};
use crate::lines::Cases;
use crate::quotes::border_labels;
use crate::unrooted::tree;
use reference::label::in_quotes;
use reference::roster::joined;
use reference::seeded::{mapping, Seeded};
use reference::trees::{clusters, wide_record, Record, WideRecord};

pub fn stand(c: &mut Cases, s: &mut Seeded) {
    second_rosters(c);
    names_of_mappings(c);
    bytes_of_mappings(c);
    ends_of_mappings(c);
    rosters_and_mappings(c);
    labels_in_mappings(c);
    cut_and_changed_mappings(c);
    texts(c);
    single_species_that_weigh(c);
    two_faults(c);
    records(c);
    limits(c);
    (0..110).for_each(|_| judged(c, s));
    (0..70).for_each(|_| read(c, s));
    (0..50).for_each(|_| counted(c, s));
    (0..55).for_each(|_| searched(c, s));
    (0..15).for_each(|_| one_each(c, s));
    (0..2).for_each(|_| largest(c, s));
}

/// Short names: the small letters, then the capital ones.
fn letters(count: usize) -> Vec<Vec<u8>> {
    (b'a'..=b'z').chain(b'A'..=b'Z').take(count).map(|letter| vec![letter]).collect()
}

/// A mapping in which one species has all these individuals.
fn all_of_one(individuals: &[Vec<u8>]) -> Vec<u8> {
    [b"S:", &individuals.join(&b',')[..], b"\n"].concat()
}

/// The second roster by the rules of the first, but with 32 names; the thirty-third is at fault at its first byte, whatever else is wrong with it.
fn second_rosters(c: &mut Cases) {
    roster_borders(c, |c, line| c.stand_judge([b"S", line, b"S:a\n"]));
    roster_borders(c, |c, line| c.stand_read(line, b"(a,b);", 0));
    for count in [15, 16, 17, 31, 32, 33] {
        let names = letters(count);
        c.stand_judge([b"S", &joined(&names), &all_of_one(&names)]);
        c.stand_read(&joined(&names), b"(a,b,o);", 0);
    }
    let names = letters(32);
    for behind in [&b" "[..], b" X", b" a", b" 'a'", b" 'X", b" ''", b" 'X\x7f'", b" abcdefghijklmnop", b" !", b"!", b"'X'", b"  X", b"\tX", b" X Y", b"a"] {
        let line = [&joined(&names), behind].concat();
        c.stand_judge([b"S", &line, &all_of_one(&names)]);
        c.stand_read(&line, b"F;", 0);
    }
    for behind in [&b" a"[..], b" 'a'", b" 'a", b" ''", b" X", b" X ", b" X X", b" X a"] {
        c.stand_judge([b"S", &[&joined(&names[..31]), behind].concat(), b"T"]);
    }
}

/// Three species and five individuals, of which one has a species' name and one is written in quotes; the mapping is good.
const LINE: &[u8] = b"a b_c 'd''e'";
const INDIVIDUALS: &[u8] = b"x a y_z 'p,q' ''''";
const MAPPING: &[u8] = b"a:x,a\nb_c:y_z\n'd''e':'p,q',''''\n";

fn judged_mappings(c: &mut Cases, mappings: &[&[u8]]) {
    mappings.iter().for_each(|mapping| c.stand_judge([LINE, INDIVIDUALS, mapping]));
}

/// Good mappings, and labels that are not the name that may stand there: at their first bytes.
fn names_of_mappings(c: &mut Cases) {
    // other labels of the same names, individuals in another order, all of one species but one
    judged_mappings(c, &[
        MAPPING, b"'a':'x','a'\n'b c':'y z'\n'd''e':'p,q',''''\n", b"a:''''\nb_c:'p,q',y_z,x\n'd''e':a\n", b"a:x\nb_c:a\n'd''e':y_z,'p,q',''''\n",
    ]);
    // not the expected species: another's, in another order, an individual's, none's, one that differs in case or length
    judged_mappings(c, &[
        b"b_c:x,a\na:y_z\n'd''e':'p,q',''''\n", b"a:x,a\n'd''e':y_z\nb_c:'p,q',''''\n", b"x:a\n", b"y:x\n", b"A:x\n", b"aa:x\n",
        b"a:x,a\na:y_z\n", b"a:x,a\nb:y_z\n", b"a:x,a\nb__c:y_z\n", b"a:x,a\n'b_c':y_z\n", b"a:x,a\nb_c:y_z\n'd''''e':''''\n",
    ]);
    // no individual, a species' name among them, and an individual that stands before, in the same line or another
    judged_mappings(c, &[
        b"a:b_c\n", b"a:x,b_c\n", b"a:X\n", b"a:xx\n", b"a:x,y\n", b"a:x,y!", b"a:x,x\n", b"a:x,'x'\n", b"a:x,a\nb_c:x\n", b"a:x,a\nb_c:'x'\n",
        b"a:x,a\nb_c:y_z,'y z'\n", b"a:x,a\nb_c:y_z\n'd''e':'p,q','''',a\n", b"a:p\n", b"a:'p'\n", b"a:x,a,x",
    ]);
    // too long
    judged_mappings(c, &[
        b"abcdefghijklmnop:x\n", b"'abcdefghijklmnop':x\n", b"'abcdefghijklmnop", b"a:abcdefghijklmnop\n", b"a:x,'abcdefghijklmnop'\n", b"a:x,'abcdefghijklmn'''''\n",
        b"a:x,'abcdefghijklmnop\x7f", b"a:x,'abcdefghijklmno\x7f", b"a:x,abcdefghijklmno\n", b"a:x,'abcdefghijklmno'\n", b"a:x,'abcdefghijklmno",
    ]);
}

/// Bytes that may not stand where they do, outside quotes and within them.
fn bytes_of_mappings(c: &mut Cases) {
    judged_mappings(c, &[
        b"\n", b":", b",", b" ", b" a:x", b"a :x", b"a: x", b"a:x ,a", b"a:x, a", b"a:x,a \n", b"a:x,a\r\n", b"a:x,a\n b_c:y_z", b"a:x,a\n\nb_c:y_z", b"a\n", b"a,x", b"a:\n",
        b"a::x", b"a:,x", b"a:x,\n", b"a:x,,a", b"a:x:a", b"a:x;a", b"a:x\tb", b"a'", b"a'b':x", b"'a'b:x", b"a:'x'a\n", b"a:x'a'\n", b"\0", b"a:\xff", b"a-b:x",
    ]);
    // nothing in the quotes, a byte that cannot be printed, never closed
    judged_mappings(c, &[
        b"''", b"'':x\n", b"''a':x\n", b"a:''\n", b"a:x,''\n", b"a:'", b"'", b"'a", b"'a:x,a\n", b"a:'x,a\nb_c:y_z\n", b"a:x,'a", b"a:x,'a''", b"a:x,a\nb_c:'y z",
        b"'\x1f", b"'a\x7f':x\n", b"a:'x\n'\n", b"a:'\t'\n", b"a:x,'a\x80'", b"a:x,'\xff",
    ]);
}

/// What stands behind the last line, lines that are too few, and individuals that are left out.
fn ends_of_mappings(c: &mut Cases) {
    for behind in [&b"\n"[..], b" ", b"a", b"a:x\n", b"'", b"''", b"\0", b"\xff", b":", b"#"] {
        judged_mappings(c, &[&[MAPPING, behind].concat()]);
    }
    judged_mappings(c, &[b"", b"a:x,a\n", b"a:x,a\nb_c:y_z\n"]);
    // the first, the last, two, and the first with something behind the last line
    judged_mappings(c, &[
        b"a:a\nb_c:y_z\n'd''e':'p,q',''''\n", b"a:x,a\nb_c:y_z\n'd''e':'p,q'\n", b"a:x\nb_c:y_z\n'd''e':''''\n", b"a:a\nb_c:y_z\n'd''e':'p,q',''''\n\n",
    ]);
    // more species than individuals
    for mapping in [&b"a:x\nb:x\n"[..], b"a:x\n", b"a:x\nb:\n"] {
        c.stand_judge([b"a b", b"x", mapping]);
    }
}

/// A faulty first roster before a faulty second one, and that before a faulty mapping.
fn rosters_and_mappings(c: &mut Cases) {
    for line in [&b"a"[..], b"a a", b"a b c d e f g h i j k l m n o p q"] {
        for individuals in [&b"x y"[..], b"x  y", b"x y x"] {
            [&b"a:x,y\n"[..], b"a:x\n", b"b:"].iter().for_each(|mapping| c.stand_judge([line, individuals, mapping]));
        }
    }
}

/// Every border of a label as a species and as an individual: most are other names, the others are at fault by themselves.
fn labels_in_mappings(c: &mut Cases) {
    for label in border_labels() {
        c.stand_judge([b"a", b"x", &[&label, &b":x\n"[..]].concat()]);
        c.stand_judge([b"a", b"a", &[b"a:", &label[..], b"\n"].concat()]);
    }
    // fifteen bytes are a name
    for name in [[b'x'; 15], [b'\''; 15], [b' '; 15]] {
        let label = in_quotes(&name);
        c.stand_judge([&label, &label, &[&label[..], b":", &label, b"\n"].concat()]);
    }
}

/// The good mapping cut at every length, and with every byte left out, doubled or replaced.
fn cut_and_changed_mappings(c: &mut Cases) {
    let (line, individuals, good) = (&b"a '_'"[..], &b"b '''' d"[..], &b"a:b,''''\n'_':d\n"[..]);
    for at in 0..good.len() {
        let (before, behind) = (&good[..at], &good[at + 1..]);
        for put in [&b""[..], &[good[at]; 2], b";", b"'", b"\n", b","] {
            c.stand_judge([line, individuals, &[before, put, behind].concat()]);
        }
        c.stand_judge([line, individuals, before]);
    }
}

/// Gene trees on individuals: the borders of every text, 31 parentheses and one more.
fn texts(c: &mut Cases) {
    text_borders(c, Cases::stand_read);
    limit_borders(c, Cases::stand_read);
    for open in [30, 31, 32, 33] {
        let text = vec![b'('; open];
        c.stand_read(b"a b", &text, 0);
        c.stand_read(b"a b", &[&text, &b"a,b"[..], &vec![b')'; open], b";"].concat(), 0);
    }
    let names = letters(32);
    // a comb of thirty-two individuals opens thirty-one parentheses; without one of them a thirty-first is still allowed, though it has nothing to hold
    for lost in [0, 16, 31, 32] {
        let kept: Vec<&[u8]> = (0..32).filter(|&i| i != lost).map(|i| &names[i][..]).collect();
        let mut text = [&vec![b'('; kept.len() - 1], kept[0]].concat();
        kept[1..].iter().for_each(|name| text = [&text, &b","[..], name, b")"].concat());
        text.push(b';');
        c.stand_read(&joined(&names), &text, 0);
        c.stand_read(&joined(&names), &[b"(", &text[..]].concat(), 0);
    }
    let star = [b"(", &names.join(&b',')[..], b");"].concat();
    c.stand_read(&joined(&names), &star, 0);
    c.stand_read(&joined(&names), b"((F,a),(p,q));", 0);
    c.stand_read(&joined(&names), b"F;", 0);
    c.stand_read(&joined(&names), b"(F,'F');", 0);
}

/// The record of a tree on m individuals with these clusters besides the single ones and the whole.
fn wide_tree(m: usize, inner: &[u32]) -> WideRecord {
    let mut clusters: Vec<u32> = (0..m).map(|i| 1 << i).chain(inner.iter().copied()).collect();
    if m > 1 {
        clusters.push(((1u64 << m) - 1) as u32);
    }
    wide_record(&clusters)
}

/// A record with these numbers in front, whether it is a tree's or not.
fn raw(front: &[u32]) -> WideRecord {
    let mut r = [0; 64];
    r[..front.len()].copy_from_slice(front);
    r
}

/// `a` has v and w, `b` has x and y, `c` has z.
const STAND: [&[u8]; 3] = [b"a b c", b"v w x y z", b"a:v,w\nb:x,y\nc:z\n"];

/// Where the individuals of a species do not stand together, it weighs.
fn single_species_that_weigh(c: &mut Cases) {
    let genes = [
        wide_tree(5, &[3, 12, 15]), // ((v,w),(x,y)),z
        wide_tree(5, &[5, 10, 15]), // ((v,x),(w,y)),z
        wide_tree(5, &[5, 21, 29]), // (((v,x),z),y),w
        wide_tree(5, &[]),
        wide_tree(5, &[14]),                     // v,(w,x,y),z
        wide_record(&[1, 2, 4, 5, 7]),           // (v,x),w
        wide_record(&[1, 4, 16, 20, 21]),        // v,(x,z)
        wide_record(&[4, 8, 12]),                // x,y
        wide_record(&[2]),                       // w
        wide_record(&[1, 2, 8, 16, 17, 10, 27]), // (v,z),(w,y)
    ];
    for cluster in 1..8 {
        genes.iter().for_each(|gene| c.stand_weight(STAND, gene, 1, cluster));
        c.stand_weight(STAND, &genes.concat(), genes.len(), cluster);
    }
    for species in [tree(3, &[3]), tree(3, &[5]), tree(3, &[6])] {
        genes.iter().for_each(|gene| c.stand_score(STAND, gene, 1, &species));
        c.stand_score(STAND, &genes.concat(), genes.len(), &species);
    }
    for gene in &genes {
        c.stand_search(STAND, gene, 1, &[1; 8], [9, 10]);
    }
    for allowed in [[1; 8], [0; 8], [0, 0, 0, 0, 0, 1, 0, 0], [0, 1, 1, 0, 1, 1, 1, 0]] {
        c.stand_search(STAND, &genes.concat(), genes.len(), &allowed, [8, 8]);
    }
    // one species: all its individuals are all there are
    let one: [&[u8]; 3] = [b"a", b"v w x", b"a:w,x,v\n"];
    for gene in [wide_tree(3, &[]), wide_tree(3, &[5]), wide_record(&[4])] {
        c.stand_weight(one, &gene, 1, 1);
        c.stand_score(one, &gene, 1, &tree(1, &[]));
        c.stand_search(one, &gene, 1, &[0, 0], [2, 3]);
    }
    // two species mixed through each other
    let mixed: [&[u8]; 3] = [b"a b", b"p q r s", b"a:p,r\nb:q,s\n"];
    for gene in [wide_tree(4, &[3, 12]), wide_tree(4, &[5, 10]), wide_tree(4, &[3, 7]), wide_tree(4, &[3])] {
        c.stand_search(mixed, &gene, 1, &[0; 4], [4, 4]);
        c.stand_search(mixed, &[gene; 3].concat(), 3, &[1; 4], [5, 4]);
    }
}

/// Each refusal alone and with each other one: the faults are numbered in the order of refusals.
fn two_faults(c: &mut Cases) {
    let (good, bad) = (wide_tree(5, &[5, 10, 15]), raw(&[2, 1, 2]));
    let pairs = |faults: usize| (0..faults).flat_map(move |i| (0..=i).map(move |j| (i, j)));
    // 1, 1, 20, 11, 12 and 15; a count that is too high stands where there are records enough, and beside records that are too few
    let shape = |has: &dyn Fn(usize) -> bool, fifteen: usize| {
        let texts = [if has(0) { &b"a b b"[..] } else { STAND[0] }, if has(1) { b"v w x y z " } else { STAND[1] }, if has(2) { b"a:v,w\nb:x\nc:z\n" } else { STAND[2] }];
        let genes = [good, if has(fifteen) { bad } else { good }].concat();
        (texts, genes[..if has(4) { 127 } else { 128 }].to_vec(), if has(3) { 4097 } else { 2 })
    };
    for (i, j) in pairs(7) {
        let has = |fault: usize| fault == i || fault == j;
        let (texts, genes, count) = shape(&has, 5);
        c.stand_weight(texts, &genes, count, if has(6) { 8 } else { 5 });
        let (texts, genes, count) = shape(&has, 6);
        c.stand_score(texts, &genes, count, &if has(5) { tree(3, &[]) } else { tree(3, &[3]) });
    }
    for (i, j) in pairs(11) {
        let has = |fault: usize| fault == i || fault == j;
        let (texts, genes, count) = shape(&has, 8);
        let lengths = [5, 6, 7].map(|short| if has(short) { 7 } else { 8 });
        let mut allowed = vec![!has(10) as u16; lengths[0]];
        if has(9) {
            allowed[2] = 2;
        }
        c.stand_search(texts, &genes, count, &allowed, [lengths[1], lengths[2]]);
    }
    for count in [0, 3, usize::MAX] {
        c.stand_weight(STAND, &[good; 2].concat(), count, 5);
        c.stand_score(STAND, &[good; 2].concat(), count, &tree(3, &[3]));
        c.stand_search(STAND, &[good; 2].concat(), count, &[1; 8], [8, 8]);
    }
    for cluster in [0, 7, 8, 31, 65_536, usize::MAX] {
        c.stand_weight(STAND, &good, 1, cluster);
    }
    // a species record that lacks a species, has one too many, or none at all
    for species in [tree(2, &[]), tree(4, &[3, 12]), [0; 32]] {
        c.stand_score(STAND, &good, 1, &species);
    }
    for first in [0, 1, 2, 255] {
        c.stand_search(STAND, &good, 1, &[first, 1, 1, 1, 1, 1, 1, 1, 9], [8, 8]);
    }
}

/// Records that are none of a gene tree on five individuals, each for a reason of its own, and those of thirty-two individuals at the borders of the width.
fn records(c: &mut Cases) {
    for front in [
        &[][..], &[0, 1], &[1], &[2, 0, 1], &[64, 1], &[65_536, 1], &[u32::MAX, 1], // no tree at all
        &[1, 32], &[3, 2, 32, 34], &[1, 1 << 31], &[3, 1, 2, u32::MAX], &[1, 65_537], // beyond the roster
        &[2, 1, 2], &[4, 1, 2, 3, 8], &[1, 3], &[2, 1, 3], &[4, 1, 2, 3, 7], // the largest does not hold all, or has a species that is not there singly
        &[3, 1, 3, 2], &[2, 1, 1], &[6, 1, 2, 3, 4, 6, 7], &[1, 1, 2], &[4, 1, 2, 3], &[3, 1, 2, 3, 0, 4], // not rising, two that clash, a wrong count, a number behind
    ] {
        c.stand_weight(STAND, &[wide_tree(5, &[3]), raw(front)].concat(), 2, 7);
    }
    let names = letters(32);
    let halves: [&[u8]; 3] = [b"S T", &joined(&names), &[b"S:", &names[16..].join(&b',')[..], b"\nT:", &names[..16].join(&b',')[..], b"\n"].concat()];
    let comb: Vec<u32> = (2..32).map(|k| (1u32 << k) - 1).collect();
    let low_and_high: Vec<u32> = (0..16).map(|i| 0x10001 << i).collect();
    let mut behind = wide_tree(32, &[]);
    behind[63] = 1;
    let all = [wide_tree(32, &comb), wide_tree(32, &low_and_high), wide_tree(32, &[0xffff]), wide_tree(32, &[])];
    let some = [wide_record(&[1 << 31]), wide_record(&[1, 1 << 31, 1 + (1 << 31)]), wide_tree(31, &[])];
    for gene in [&all[..], &some, &[behind]].concat() {
        c.stand_weight(halves, &gene, 1, 1);
        c.stand_search(halves, &gene, 1, &[0; 4], [4, 4]);
    }
}

/// As many gene trees as there may be, and one more; a bad one behind those that are counted.
fn limits(c: &mut Cases) {
    let (mixed, bad) = (wide_tree(5, &[5, 10, 15]), raw(&[1]));
    let many = [mixed; 4097].concat();
    for count in [4096, 4097] {
        c.stand_weight(STAND, &many, count, 5);
        c.stand_score(STAND, &many, count, &tree(3, &[3]));
        c.stand_search(STAND, &many, count, &[1; 8], [8, 8]);
    }
    c.stand_weight(STAND, &many[..64 * 4096 - 1], 4096, 5);
    let last_bad = [&many[..64 * 4095], &bad[..]].concat();
    c.stand_weight(STAND, &last_bad, 4096, 5);
    c.stand_weight(STAND, &last_bad, 4095, 5);
}

/// Both rosters and a mapping that fit.
struct Drawn {
    individuals: Vec<Vec<u8>>,
    texts: [Vec<u8>; 3],
}

impl Drawn {
    fn texts(&self) -> [&[u8]; 3] {
        [0, 1, 2].map(|i| &self.texts[i][..])
    }
}

fn drawn(s: &mut Seeded, n: usize, m: usize) -> Drawn {
    let (species, individuals) = if s.one_in(3) { (s.printables(n), s.printables(m)) } else { (s.names(n), s.names(m)) };
    let groups = s.groups(n, m);
    let mapping = mapping(&s.labels(&species), &s.labels(&individuals), &groups).concat();
    let texts = [s.labels(&species).join(&b' '), s.labels(&individuals).join(&b' '), mapping];
    Drawn { individuals, texts }
}

/// How many species, and how many individuals: few, or one time in eight up to the limits.
fn sizes(s: &mut Seeded, most: usize) -> (usize, usize) {
    let n = 1 + s.below(most);
    let more = if s.one_in(8) { 33 - n } else { 5 };
    (n, n + s.below(more))
}

/// A stand as it is, or with one of its three texts damaged, the mapping most often.
fn judged(c: &mut Cases, s: &mut Seeded) {
    let most = if s.one_in(8) { 16 } else { 4 };
    let (n, m) = sizes(s, most);
    let mut stand = drawn(s, n, m);
    let at = [0, 1, 2, 2, 2, 2, 2, 3][s.below(8)];
    if at < 3 {
        stand.texts[at] = s.damaged(stand.texts[at].clone());
    }
    c.stand_judge(stand.texts());
}

/// A text on some of the individuals, good or damaged.
fn read(c: &mut Cases, s: &mut Seeded) {
    let most = if s.one_in(6) { 32 } else { 8 };
    let m = 1 + s.below(most);
    let stand = drawn(s, 1, m);
    let kept = s.kept(m);
    let labels = s.labels(&stand.individuals);
    let (_, good) = s.drawn_wide(kept, &labels);
    let text = if s.one_in(2) { good } else { s.damaged(good) };
    let before = s.below(4);
    c.stand_read(&stand.texts[1], &[&b"(;)x"[..before], &text, b"(a"].concat(), before);
}

/// Gene trees on some of the individuals; one in twenty is no tree.
fn genes(s: &mut Seeded, m: usize, count: usize) -> Vec<u32> {
    let one = |s: &mut Seeded| {
        let binary = s.one_in(2);
        let gene = s.wide_gene_on_kept(m, binary);
        if s.one_in(20) {
            s.spoiled_wide(gene)
        } else {
            gene
        }
    };
    (0..count).flat_map(|_| one(s)).collect()
}

/// A weight and a score of the same gene trees.
fn counted(c: &mut Cases, s: &mut Seeded) {
    let most = if s.one_in(6) { 16 } else { 6 };
    let (n, m) = sizes(s, most);
    let (stand, count) = (drawn(s, n, m), 1 + s.below(3));
    let genes = genes(s, m, count);
    let cluster = if s.one_in(16) { s.below(1 << 17) } else { 1 + s.below((1 << n) - 1) };
    c.stand_weight(stand.texts(), &genes, count, cluster);
    let binary = !s.one_in(10);
    c.stand_score(stand.texts(), &genes, count, &s.gene(n, binary));
}

/// A search over all clusters or over some; in one of twelve something lent is too short.
fn searched(c: &mut Cases, s: &mut Seeded) {
    let most = if s.one_in(6) { 8 } else { 5 };
    let (n, m) = sizes(s, most);
    let (stand, count) = (drawn(s, n, m), 1 + s.below(4));
    let genes = genes(s, m, count);
    let dense = [1, 1, 2, 3][s.below(4)];
    let allowed: Vec<u16> = (0..1 << n).map(|_| s.one_in(dense) as u16).collect();
    let tables = [0; 2].map(|_| if s.one_in(24) { s.below(1 << n) } else { (1 << n) + s.below(3) });
    c.stand_search(stand.texts(), &genes, count, &allowed, tables);
}

/// One individual each: the calls on a stand, and those on species under the species' names.
fn one_each(c: &mut Cases, s: &mut Seeded) {
    let n = 1 + s.below(6);
    let (names, count) = (s.names(n), 1 + s.below(3));
    // individual i is of species at[i]
    let groups = s.groups(n, n);
    let at: Vec<usize> = (0..n).map(|i| groups.iter().position(|group| group[0] == i).unwrap()).collect();
    let individuals = letters(n);
    let mapping = mapping(&names, &individuals, &groups).concat();
    let texts: [&[u8]; 3] = [&joined(&names), &joined(&individuals), &mapping];
    let on_species: Vec<Record> = (0..count).map(|_| s.gene_on_kept(n, false)).collect();
    let moved = |x: u16| (0..n).filter(|&i| x >> at[i] & 1 == 1).map(|i| 1 << i).sum();
    let wide = |gene: &Record| wide_record(&clusters(gene).iter().map(|&x| moved(x)).collect::<Vec<u32>>());
    let (genes, wide_genes) = (on_species.concat(), on_species.iter().flat_map(wide).collect::<Vec<u32>>());
    let (cluster, species) = (1 + s.below((1 << n) - 1), s.gene(n, true));
    let allowed: Vec<u16> = (0..1 << n).map(|_| !s.one_in(4) as u16).collect();
    c.stand_weight(texts, &wide_genes, count, cluster);
    c.weight(n, &genes, count, cluster);
    c.stand_score(texts, &wide_genes, count, &species);
    c.score(n, &genes, count, &species);
    c.stand_search(texts, &wide_genes, count, &allowed, [1 << n; 2]);
    c.search(n, &genes, count, &allowed, 1 << n, 1 << n);
}

/// Sixteen species with thirty-two individuals: the stand, a gene tree on all of them read, and weighed, scored and searched with others.
fn largest(c: &mut Cases, s: &mut Seeded) {
    let (species, individuals) = (letters(16), letters(32));
    let groups = s.groups(16, 32);
    let mapping = mapping(&species, &individuals, &groups).concat();
    let texts: [&[u8]; 3] = [&joined(&species), &joined(&individuals), &mapping];
    c.stand_judge(texts);
    let (gene, text) = s.drawn_wide((0..32).collect(), &individuals);
    c.stand_read(texts[1], &text, 0);
    let genes = [gene, s.wide_gene_on_kept(32, true), s.tree((0..32).collect(), true).wide_record()].concat();
    c.stand_weight(texts, &genes, 3, 1 + s.below(65_535));
    c.stand_score(texts, &genes, 3, &s.gene(16, true));
    c.stand_search(texts, &genes, 3, &[1; 1 << 16], [1 << 16, 1 << 16]);
}
