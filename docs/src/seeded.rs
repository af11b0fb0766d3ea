//! Names, trees and texts from a seed: good ones, and damaged ones.
use crate::label::{in_quotes, written};
use crate::trees::{first, record, wide_record, Mask, Record, WideRecord};
use crate::NAME;
use std::ops::BitXor;

/// A drawn tree: a species, or children.
#[derive(Clone)]
pub enum Tree {
    Leaf(usize),
    Node(Vec<Tree>),
}

impl Tree {
    fn cluster(&self) -> u32 {
        match self {
            Tree::Leaf(i) => 1 << i,
            Tree::Node(children) => children.iter().fold(0, |a, t| a | t.cluster()),
        }
    }

    fn clusters(&self, found: &mut Vec<u32>) {
        found.push(self.cluster());
        if let Tree::Node(children) = self {
            children.iter().for_each(|t| t.clusters(found));
        }
    }

    pub fn record(&self) -> Record {
        let mut found = Vec::new();
        self.clusters(&mut found);
        record(&found.into_iter().map(|x| x as u16).collect::<Vec<u16>>())
    }

    /// The record of a tree on individuals (#110).
    pub fn wide_record(&self) -> WideRecord {
        let mut found = Vec::new();
        self.clusters(&mut found);
        wide_record(&found)
    }
}

const LETTERS: &[u8] = b"abcdefghijklmnopqrstuvwxyzABCDEFGHIJKLMNOPQRSTUVWXYZ0123456789";

/// Bytes of names (#103): of bare labels, of labels with quotes, of labels that look like tree text.
const NAME_BYTES: [&[u8]; 3] = [b"ab 0Z", b"''a _b", b"(),:;[]'. _"];

/// Labels of inner nodes: bare ones, and ones of both forms (#103).
const BARE_INNER: &[&[u8]] = &[b"x", b"a", b"7", b"Inner15bytesLng"];
const INNER: &[&[u8]] = &[b"_", b"a_b", b"'a b'", b"''''", b"'(a,b);'", b"'it''s : inner '", b"'fifteen bytes''['", b"_fifteen_bytes_"];

/// Numbers at the thresholds and beside them (#113), and some among which two have no value.
const SUPPORTS: &[&[u8]] = &[
    b"0", b"0.0", b"0.001", b"0.499", b"0.5", b"0.50", b"00.500", b"0.501", b"0.95", b"1", b"1.250", b"6.999", b"07", b"7.0", b"7.001", b"70", b"100", b"99999999.999", b"999999999999",
];
const LONG_SUPPORTS: &[&[u8]] = &[b"0", b"0.499", b"0.5", b"0.501", b"0.95", b"1.250", b"7", b"7.000", b"70", b"100", b"0.5000", b"1234567.1234"];

/// Labels of inner nodes that look like supports (#113), and others.
const SUPPORT_INNER: &[&[u8]] = &[b"0", b"7", b"70", b"'0.5'", b"'::0'", b"'1.2345'", b"''''", b"a_b", b"x"];

const THRESHOLDS: &[usize] = &[
    0, 1, 499, 500, 501, 950, 951, 1250, 1251, 7000, 7001, 70_000, 70_001, 100_001, 99_999_999_999, 100_000_000_000, 999_999_999_999_000, 999_999_999_999_001, usize::MAX,
];

/// How a text is drawn: the labels of inner nodes, the colons before each number behind a node, and the numbers (none for any).
struct Style {
    inner: &'static [&'static [u8]],
    behind: [&'static [usize]; 6],
    numbers: &'static [&'static [u8]],
}

const SOME_NUMBERS: [&[usize]; 6] = [&[1], &[1, 1], &[2], &[], &[], &[]];
const MANY_SUPPORTS: [&[usize]; 6] = [&[1], &[1, 1], &[1, 1], &[2], &[2], &[]];

const BARE: Style = Style { inner: BARE_INNER, behind: SOME_NUMBERS, numbers: &[] };
const LABELLED: Style = Style { inner: INNER, behind: SOME_NUMBERS, numbers: &[] };
const SUPPORTED: Style = Style { inner: SUPPORT_INNER, behind: MANY_SUPPORTS, numbers: SUPPORTS };
const LONG_SUPPORTED: Style = Style { inner: SUPPORT_INNER, behind: MANY_SUPPORTS, numbers: LONG_SUPPORTS };

/// The labels, colons, commas and line feeds of a mapping (#110), one after the other.
pub fn mapping(species: &[Vec<u8>], individuals: &[Vec<u8>], groups: &[Vec<usize>]) -> Vec<Vec<u8>> {
    let mut tokens = Vec::new();
    for (label, group) in species.iter().zip(groups) {
        tokens.push(label.clone());
        for (k, &i) in group.iter().enumerate() {
            tokens.push(if k == 0 { b":" } else { b"," }.to_vec());
            tokens.push(individuals[i].clone());
        }
        tokens.push(b"\n".to_vec());
    }
    tokens
}

/// A source of numbers that a seed fixes.
pub struct Seeded {
    seed: u64,
}

impl Seeded {
    pub fn new(seed: u64) -> Seeded {
        Seeded { seed }
    }

    /// A number below n.
    pub fn below(&mut self, n: usize) -> usize {
        self.seed = self.seed.wrapping_mul(6364136223846793005).wrapping_add(1442695040888963407);
        ((self.seed >> 33) % n as u64) as usize
    }

    pub fn one_in(&mut self, n: usize) -> bool {
        self.below(n) == 0
    }

    pub fn names(&mut self, n: usize) -> Vec<Vec<u8>> {
        let mut names: Vec<Vec<u8>> = Vec::new();
        while names.len() < n {
            let length = if self.one_in(6) { 15 } else { 1 + self.below(4) };
            let name: Vec<u8> = (0..length).map(|_| LETTERS[self.below(LETTERS.len())]).collect();
            if !names.contains(&name) {
                names.push(name);
            }
        }
        names
    }

    /// A name of printable bytes (#103).
    pub fn printable(&mut self) -> Vec<u8> {
        let length = match self.below(8) {
            0 | 1 => NAME - self.below(2),
            2 => 1 + self.below(NAME),
            _ => 1 + self.below(5),
        };
        match self.below(4) {
            3 => (0..length).map(|_| b' ' + self.below(95) as u8).collect(),
            kind => (0..length).map(|_| NAME_BYTES[kind][self.below(NAME_BYTES[kind].len())]).collect(),
        }
    }

    pub fn printables(&mut self, n: usize) -> Vec<Vec<u8>> {
        let mut names: Vec<Vec<u8>> = Vec::new();
        while names.len() < n {
            let name = self.printable();
            if !names.contains(&name) {
                names.push(name);
            }
        }
        names
    }

    /// Labels of names: the writer's, or quoted though it may not need to be.
    pub fn labels(&mut self, names: &[Vec<u8>]) -> Vec<Vec<u8>> {
        names.iter().map(|name| if self.one_in(3) { in_quotes(name) } else { written(name) }).collect()
    }

    fn shuffle<T>(&mut self, items: &mut [T]) {
        for i in (1..items.len()).rev() {
            let j = self.below(i + 1);
            items.swap(i, j);
        }
    }

    pub fn tree(&mut self, mut species: Vec<usize>, binary: bool) -> Tree {
        if species.len() == 1 {
            return Tree::Leaf(species[0]);
        }
        self.shuffle(&mut species);
        let most = if binary || self.one_in(2) { 2 } else { 2 + self.below(species.len() - 1) };
        let mut children = Vec::new();
        for k in 0..most {
            let later = most - 1 - k;
            let take = if later == 0 { species.len() } else { 1 + self.below(species.len() - later) };
            let part = species.split_off(species.len() - take);
            children.push(self.tree(part, binary));
        }
        Tree::Node(children)
    }

    /// A tree on n species that may be taken without its root (#106): binary, save that the root may have three children.
    pub fn unrooted(&mut self, n: usize) -> Tree {
        let tree = self.tree((0..n).collect(), true);
        self.redrawn(tree)
    }

    /// The same such tree with its root drawn elsewhere: by steps from a branch to a node at its end and from a node to one of its branches, children in any order.
    pub fn redrawn(&mut self, tree: Tree) -> Tree {
        let Tree::Node(mut top) = tree else {
            return tree;
        };
        for _ in 0..self.below(24) {
            self.shuffle(&mut top);
            if top.len() == 3 {
                let others = top.split_off(1);
                top.push(Tree::Node(others));
            } else if let Some(at) = top.iter().position(|t| matches!(t, Tree::Node(_))) {
                let Tree::Node(nodes) = top.remove(at) else { unreachable!() };
                top.extend(nodes);
            }
        }
        Tree::Node(top)
    }

    pub fn blanks(&mut self, text: &mut Vec<u8>) {
        while self.one_in(8) {
            text.push(b" \t\n\r"[self.below(4)]);
        }
    }

    fn number(&mut self, text: &mut Vec<u8>) {
        let (d, e) = (1 + self.below(4), self.below(4));
        (0..d).for_each(|_| text.push(b'0' + self.below(10) as u8));
        if e > 0 {
            text.push(b'.');
            (0..e).for_each(|_| text.push(b'0' + self.below(10) as u8));
        }
    }

    fn behind(&mut self, style: &Style, text: &mut Vec<u8>) {
        for colons in style.behind[self.below(6)] {
            for _ in 0..*colons {
                self.blanks(text);
                text.push(b':');
            }
            self.blanks(text);
            if style.numbers.is_empty() || self.one_in(4) {
                self.number(text);
            } else {
                text.extend_from_slice(style.numbers[self.below(style.numbers.len())]);
            }
        }
    }

    fn draw(&mut self, labels: &[Vec<u8>], style: &Style, tree: &Tree, text: &mut Vec<u8>) {
        self.blanks(text);
        match tree {
            Tree::Leaf(i) => text.extend_from_slice(&labels[*i]),
            Tree::Node(children) => {
                text.push(b'(');
                for (k, child) in children.iter().enumerate() {
                    if k > 0 {
                        self.blanks(text);
                        text.push(b',');
                    }
                    self.draw(labels, style, child, text);
                }
                self.blanks(text);
                text.push(b')');
                if self.one_in(4) {
                    self.blanks(text);
                    text.extend_from_slice(style.inner[self.below(style.inner.len())]);
                }
            }
        }
        self.behind(style, text);
    }

    /// The record of a tree on all species, and a text that draws it.
    pub fn drawn(&mut self, names: &[Vec<u8>]) -> (Record, Vec<u8>) {
        self.drawn_on((0..names.len()).collect(), names)
    }

    /// The same on some of the species.
    pub fn drawn_on(&mut self, species: Vec<usize>, names: &[Vec<u8>]) -> (Record, Vec<u8>) {
        self.drawn_with(species, names, &BARE)
    }

    /// The same with labels of both forms (#103), on leaves and inner nodes.
    pub fn drawn_labels(&mut self, species: Vec<usize>, labels: &[Vec<u8>]) -> (Record, Vec<u8>) {
        self.drawn_with(species, labels, &LABELLED)
    }

    /// The same with supports behind most nodes (#113), in one of three texts some with more than three decimals. The record has every cluster.
    pub fn drawn_supported(&mut self, species: Vec<usize>, labels: &[Vec<u8>]) -> (Record, Vec<u8>) {
        let style = if self.one_in(3) { &LONG_SUPPORTED } else { &SUPPORTED };
        self.drawn_with(species, labels, style)
    }

    /// A threshold, often at one of the supports.
    pub fn threshold(&mut self) -> usize {
        if self.one_in(4) {
            self.below(10_000_000)
        } else {
            THRESHOLDS[self.below(THRESHOLDS.len())]
        }
    }

    fn drawn_with(&mut self, species: Vec<usize>, labels: &[Vec<u8>], style: &Style) -> (Record, Vec<u8>) {
        let (tree, text) = self.drawn_tree(species, labels, style);
        (tree.record(), text)
    }

    /// The record of a tree on individuals (#110), and a text that draws it with labels of both forms.
    pub fn drawn_wide(&mut self, individuals: Vec<usize>, labels: &[Vec<u8>]) -> (WideRecord, Vec<u8>) {
        let (tree, text) = self.drawn_tree(individuals, labels, &LABELLED);
        (tree.wide_record(), text)
    }

    fn drawn_tree(&mut self, species: Vec<usize>, labels: &[Vec<u8>], style: &Style) -> (Tree, Vec<u8>) {
        let binary = self.one_in(2);
        let tree = self.tree(species, binary);
        let text = self.text_with(&tree, labels, style);
        (tree, text)
    }

    fn text_with(&mut self, tree: &Tree, labels: &[Vec<u8>], style: &Style) -> Vec<u8> {
        let mut text = Vec::new();
        self.draw(labels, style, tree, &mut text);
        self.blanks(&mut text);
        text.push(b';');
        text
    }

    /// A text that draws a tree, with labels of both forms.
    pub fn text_of(&mut self, tree: &Tree, labels: &[Vec<u8>]) -> Vec<u8> {
        self.text_with(tree, labels, &LABELLED)
    }

    pub fn text(&mut self, names: &[Vec<u8>]) -> Vec<u8> {
        self.drawn(names).1
    }

    /// One to three bytes changed, dropped or put in.
    pub fn damaged(&mut self, mut text: Vec<u8>) -> Vec<u8> {
        const BYTES: &[u8] = b"(),;:. a0bz9\t\n-_'[\0\xff";
        for _ in 0..1 + self.below(3) {
            let at = self.below(text.len() + 1);
            let byte = BYTES[self.below(BYTES.len())];
            match self.below(3) {
                0 => text.insert(at, byte),
                1 if at < text.len() => text[at] = byte,
                _ if at < text.len() => drop(text.remove(at)),
                _ => text.truncate(at),
            }
        }
        if self.one_in(5) {
            let at = self.below(text.len() + 1);
            text.truncate(at);
        }
        text
    }

    /// Some of n species, at least one.
    pub fn kept(&mut self, n: usize) -> Vec<usize> {
        let lost = 2 + self.below(4);
        let kept: Vec<usize> = (0..n).filter(|_| !self.one_in(lost)).collect();
        if kept.is_empty() {
            return vec![self.below(n)];
        }
        kept
    }

    pub fn gene(&mut self, n: usize, binary: bool) -> Record {
        self.tree((0..n).collect(), binary).record()
    }

    /// The record of a gene tree on some of n species.
    pub fn gene_on_kept(&mut self, n: usize, binary: bool) -> Record {
        let kept = self.kept(n);
        self.tree(kept, binary).record()
    }

    /// The record of a tree on some of m individuals (#110).
    pub fn wide_gene_on_kept(&mut self, m: usize, binary: bool) -> WideRecord {
        let kept = self.kept(m);
        self.tree(kept, binary).wide_record()
    }

    /// Which of m individuals each of n species has (#110), at least one each.
    pub fn groups(&mut self, n: usize, m: usize) -> Vec<Vec<usize>> {
        let mut order: Vec<usize> = (0..m).collect();
        self.shuffle(&mut order);
        let mut groups: Vec<Vec<usize>> = order[..n].iter().map(|&i| vec![i]).collect();
        for &i in &order[n..] {
            let species = self.below(n);
            groups[species].push(i);
        }
        groups
    }

    pub fn spoiled(&mut self, r: Record) -> Record {
        self.with_one_number_changed(r)
    }

    pub fn spoiled_wide(&mut self, r: WideRecord) -> WideRecord {
        self.with_one_number_changed(r)
    }

    fn with_one_number_changed<M: Mask + BitXor<Output = M> + TryFrom<usize>, const LENGTH: usize>(&mut self, mut r: [M; LENGTH]) -> [M; LENGTH] {
        let bits = LENGTH / 2;
        let fitting = |x| M::try_from(x).ok().unwrap();
        let (i, j) = (self.below(LENGTH), self.below(LENGTH));
        match self.below(5) {
            0 => r.swap(i, j),
            1 => r[i] = fitting(self.below(1 << bits)),
            2 => r[i] = r[i] ^ M::from(1) << self.below(bits),
            3 => r[0] = [fitting(0), fitting(1), fitting(LENGTH - 1), fitting(LENGTH), first(bits)][self.below(5)],
            _ => r[i] = r[j],
        }
        r
    }
}
