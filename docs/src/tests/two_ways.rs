//! What this version does in two ways comes out alike, on random inputs from fixed seeds.
use reference::counts::{check, write_counts};
use reference::label;
use reference::lineages::Rooting::{self, Rooted, Unrooted};
use reference::lineages::{extra, extra_by_pass, k, k_by_pass, mark, records, score, shown, weight_of};
use reference::plain::{plain, tree_counts};
use reference::reader::{read, Kind};
use reference::report::report;
use reference::roster::{joined, names};
use reference::search::{brute, brute_ties, search, search_ties, tables, ties_by_splits, tree, trees_over, weights, NO_TREE};
use reference::seeded::{Seeded, Tree};
use reference::sheet::{sheet, Entry};
use reference::trees::{binary, clusters, largest, may_unroot, record, valid, valid_gene, whole, Record};
use reference::writer::write;
use reference::{Refusal, NAME, SPECIES};

/// Allowed bytes of which one in `dense` is 1, or all of them.
fn allowed(s: &mut Seeded, n: usize) -> Vec<u8> {
    let dense = 1 + s.below(4);
    (0..1 << n).map(|_| s.one_in(dense) as u8).collect()
}

/// A gene tree on all n species, or on some.
fn gene(s: &mut Seeded, n: usize) -> Record {
    let binary = s.one_in(2);
    if s.one_in(2) {
        s.gene(n, binary)
    } else {
        s.gene_on_kept(n, binary)
    }
}

fn genes(s: &mut Seeded, n: usize) -> Vec<Record> {
    (0..1 + s.below(5)).map(|_| gene(s, n)).collect()
}

/// Gene trees and how they are taken.
fn genes_by_rooting(s: &mut Seeded, n: usize) -> (Rooting, Vec<Record>) {
    if s.one_in(2) {
        (Rooted, genes(s, n))
    } else {
        (Unrooted, (0..1 + s.below(5)).map(|_| s.unrooted(n).record()).collect())
    }
}

/// Weights of gene trees, or few different ones, so that many trees are as good as another.
fn some_weights(s: &mut Seeded, n: usize) -> Vec<u32> {
    if s.one_in(2) {
        let most = 1 + s.below(5);
        return (0..1 << n).map(|_| s.below(most) as u32).collect();
    }
    let (rooting, genes) = genes_by_rooting(s, n);
    weights(rooting, n, &genes)
}

fn cluster(s: &mut Seeded, n: usize) -> u16 {
    1 + s.below(whole(n) as usize) as u16
}

#[test]
fn all_trees_and_the_dynamic_program_fill_the_same_tables() {
    let mut s = Seeded::new(1);
    for round in 0..3000 {
        let n = if round < 3 { 7 } else { 1 + s.below(6) };
        let allowed = allowed(&mut s, n);
        let weights = some_weights(&mut s, n);
        assert_eq!(brute(n, &weights, &allowed), tables(n, &weights, &allowed), "n {n}, weights {weights:?}, allowed {allowed:?}");
    }
}

#[test]
fn ties_one_by_one_and_by_the_splits() {
    let mut s = Seeded::new(23);
    let mut several = 0;
    for round in 0..3000 {
        let n = if round < 3 { 7 } else { 1 + s.below(6) };
        let allowed = allowed(&mut s, n);
        let weights = some_weights(&mut s, n);
        let ties = brute_ties(n, &weights, &allowed);
        let (scores, _) = tables(n, &weights, &allowed);
        assert_eq!(ties, ties_by_splits(&weights, &scores), "n {n}, weights {weights:?}, allowed {allowed:?}");
        // where there is a tree at all, one is the first least one
        assert!(ties.iter().zip(&scores).all(|(&count, &score)| (count == 0) == (score == NO_TREE)));
        several += (ties[(1 << n) - 1] > 1) as usize;
    }
    assert!(several > 500, "{several} of 3,000 have several least trees");
}

#[test]
fn two_lots_have_no_more_ties_together_where_some_tree_is_least_for_both() {
    let mut s = Seeded::new(24);
    let (mut equal, mut fewer, mut above) = (0, 0, 0);
    for _ in 0..3000 {
        let n = 1 + s.below(6);
        let (rooting, whole) = genes_by_rooting(&mut s, n);
        let allowed = allowed(&mut s, n);
        let searched = |genes: &[Record]| {
            let (mut scores, mut splits, mut table) = (vec![0; 1 << n], vec![0; 1 << n], vec![0; 1 << n]);
            search_ties(rooting, n, &genes.concat(), genes.len(), &allowed, &mut scores, &mut splits, &mut table).map(|(score, ties, _)| (score, ties))
        };
        // an empty lot has no search
        let (first, second) = whole.split_at(s.below(whole.len()));
        if first.is_empty() {
            continue;
        }
        let lots = [first, second].map(searched);
        let (Ok((score, ties)), [Ok(one), Ok(other)]) = (searched(&whole), &lots) else {
            assert_eq!((searched(&whole), lots), (Err((14, 0)), [Err((14, 0)); 2]));
            continue;
        };
        let sum = one.0 + other.0;
        assert!(score >= sum && (score > sum || ties <= one.1.min(other.1)), "n {n}, lots {first:?} and {second:?}, allowed {allowed:?}");
        equal += (score == sum) as usize;
        fewer += (score == sum && ties < one.1.min(other.1)) as usize;
        above += (score > sum) as usize;
    }
    assert!(equal > 500 && fewer > 20 && above > 100, "{equal} lots at equality, {fewer} of them with fewer ties, {above} above");
}

#[test]
fn k_by_its_definition_and_by_the_pass() {
    let mut s = Seeded::new(2);
    for _ in 0..5000 {
        let n = 1 + s.below(16);
        let (rooting, gene) = if s.one_in(2) { (Rooted, gene(&mut s, n)) } else { (Unrooted, s.unrooted(n).record()) };
        for _ in 0..20 {
            let a = cluster(&mut s, n);
            assert_eq!(k(rooting, &gene, a), k_by_pass(rooting, &gene, a), "{rooting:?} gene tree {gene:?}, cluster {a}");
            assert_eq!(extra(rooting, &gene, a), extra_by_pass(rooting, &gene, a), "{rooting:?} gene tree {gene:?}, cluster {a}");
        }
    }
}

/// The species of a set, numbered from 0 among those of another.
fn renumbered(a: u16, among: u16) -> u16 {
    (0..16).filter(|i| among >> i & 1 == 1).enumerate().map(|(new, old)| (a >> old & 1) << new).sum()
}

#[test]
fn lost_species_can_be_left_off_the_roster() {
    let mut s = Seeded::new(7);
    for _ in 0..3000 {
        let n = 1 + s.below(16);
        let binary = s.one_in(2);
        let gene = s.gene_on_kept(n, binary);
        let kept = largest(&gene);
        let alone = record(&clusters(&gene).iter().map(|&x| renumbered(x, kept)).collect::<Vec<u16>>());
        assert!(valid(kept.count_ones() as usize, &alone), "gene tree {gene:?}, on its own species {alone:?}");
        for _ in 0..20 {
            let a = cluster(&mut s, n);
            let here = renumbered(a & kept, kept);
            let expected = if here == 0 { 0 } else { k(Rooted, &alone, here) - 1 };
            assert_eq!(extra(Rooted, &gene, a), expected, "gene tree {gene:?}, cluster {a}");
        }
    }
}

#[test]
fn a_gene_tree_without_species_of_a_cluster_changes_no_weight() {
    let mut s = Seeded::new(8);
    for _ in 0..3000 {
        let n = 2 + s.below(15);
        let (some, a) = (genes(&mut s, n), cluster(&mut s, n));
        let kept: Vec<Record> = some.iter().copied().filter(|gene| largest(gene) & a != 0).collect();
        assert_eq!(weight_of(Rooted, &some, a), weight_of(Rooted, &kept, a), "gene trees {some:?}, cluster {a}");
    }
}

/// Species text is a gene tree's that has every species; where one is missing it is 9 at the `;`. Else both kinds are answered alike.
fn as_species(n: usize, as_gene: Result<(Record, usize), Refusal>) -> Result<(Record, usize), Refusal> {
    match as_gene {
        Ok((record, next)) if largest(&record) != whole(n) => Err((9, next - 1)),
        answer => answer,
    }
}

#[test]
fn what_was_written_reads_back() {
    let mut s = Seeded::new(3);
    for _ in 0..3000 {
        let n = 1 + s.below(16);
        let line = joined(&s.names(n));
        let record = gene(&mut s, n);
        let mut out = [0; 558];
        let length = write(&line, &record, &mut out).unwrap();
        let read_back = Ok((record, length));
        assert_eq!(read(Kind::Gene, None, &line, &out[..length], 0), read_back);
        assert_eq!(read(Kind::Species, None, &line, &out[..length], 0), as_species(n, read_back));
    }
}

#[test]
fn what_was_drawn_reads_as_drawn() {
    let mut s = Seeded::new(4);
    for _ in 0..3000 {
        let n = 1 + s.below(16);
        let names = s.names(n);
        let species = if s.one_in(2) { s.kept(n) } else { (0..n).collect() };
        let (record, text) = s.drawn_on(species, &names);
        let drawn = Ok((record, text.len()));
        assert_eq!(read(Kind::Gene, None, &joined(&names), &text, 0), drawn);
        assert_eq!(read(Kind::Species, None, &joined(&names), &text, 0), as_species(n, drawn));
    }
}

#[test]
fn damaged_text_gives_a_valid_record_or_a_place_within_it() {
    let mut s = Seeded::new(5);
    for _ in 0..5000 {
        let n = 1 + s.below(16);
        let names = if s.one_in(2) { s.names(n) } else { s.printables(n) };
        let species = if s.one_in(2) { s.kept(n) } else { (0..n).collect() };
        let labels = s.labels(&names);
        let (_, text) = s.drawn_labels(species, &labels);
        let text = s.damaged(text);
        let answer = read(Kind::Gene, None, &joined(&names), &text, 0);
        match answer {
            Ok((record, next)) => assert!(valid_gene(n, &record) && text[next - 1] == b';'),
            Err((number, place)) => assert!((3..=10).contains(&number) && number != 9 && place <= text.len() && (number == 10) == (place == text.len())),
        }
        assert_eq!(read(Kind::Species, None, &joined(&names), &text, 0), as_species(n, answer));
    }
}

#[test]
fn a_record_is_valid_where_its_text_reads_back() {
    let mut s = Seeded::new(9);
    let mut both = [0; 2];
    for _ in 0..20_000 {
        let n = 1 + s.below(5);
        let line = joined(&s.names(n));
        // one species more than the roster has, so that some lie beyond it
        let good = gene(&mut s, 1 + n);
        let record = if s.one_in(2) { s.spoiled(good) } else { good };
        let mut out = [0; 558];
        let written = write(&line, &record, &mut out);
        assert_eq!(written.is_ok(), valid_gene(n, &record));
        assert_eq!(valid(n, &record), valid_gene(n, &record) && largest(&record) == whole(n));
        if let Ok(length) = written {
            assert_eq!(read(Kind::Gene, None, &line, &out[..length], 0), Ok((record, length)));
        }
        both[written.is_ok() as usize] += 1;
    }
    assert!(both[0] > 1000 && both[1] > 1000);
}

#[test]
fn the_tree_found_has_the_score_found() {
    let mut s = Seeded::new(6);
    let mut trees = 0;
    for _ in 0..2000 {
        let n = 1 + s.below(8);
        let (rooting, genes) = genes_by_rooting(&mut s, n);
        let (flat, count) = (genes.concat(), genes.len());
        let allowed = allowed(&mut s, n);
        let (mut scores, mut splits) = (vec![0; 1 << n], vec![0; 1 << n]);
        let Ok((found, tree)) = search(rooting, n, &flat, count, &allowed, &mut scores, &mut splits) else {
            continue;
        };
        assert!(valid(n, &tree) && binary(n, &tree));
        assert_eq!(score(rooting, n, &flat, count, &tree), Ok(found));
        trees += 1;
    }
    assert!(trees > 500, "only {trees} of 2,000 searches found a tree");
}

#[test]
fn a_name_written_as_a_label_scans_back() {
    let mut s = Seeded::new(10);
    let mut forms = [0; 2];
    for _ in 0..20_000 {
        let name = s.printable();
        let plain = name.iter().all(|&b| b.is_ascii_alphanumeric() || b == b' ');
        let written = label::written(&name);
        assert_eq!(written[0] != b'\'', plain, "name {name:?}");
        forms[plain as usize] += 1;
        for label in [written, label::in_quotes(&name)] {
            // what stands behind a label does not matter, unless it goes on
            for behind in [&b""[..], b" ", b")", b";'", b"\xff"] {
                assert_eq!(label::scan(&[&label, behind].concat(), 0), Ok((name.clone(), label.len())));
            }
        }
    }
    assert!(forms[0] > 5000 && forms[1] > 2000);
}

#[test]
fn trees_with_names_of_printable_bytes_read_back() {
    let mut s = Seeded::new(11);
    for _ in 0..3000 {
        let n = 1 + s.below(16);
        let decoded = s.printables(n);
        let line = s.labels(&decoded).join(&b' ');
        assert_eq!(names(&line), Ok(decoded.clone()));
        let species = if s.one_in(2) { s.kept(n) } else { (0..n).collect() };
        let labels = s.labels(&decoded);
        let (record, text) = s.drawn_labels(species, &labels);
        let mut out = [0; 558];
        let length = write(&line, &record, &mut out).unwrap();
        for (text, end) in [(&text[..], text.len()), (&out[..length], length)] {
            let drawn = Ok((record, end));
            assert_eq!(read(Kind::Gene, None, &line, text, 0), drawn);
            assert_eq!(read(Kind::Species, None, &joined(&decoded), text, 0), as_species(n, drawn));
        }
    }
}

/// A roster line looked at place by place: the second way to its names and its least fault, which scans no label from the left.
struct Places<'a>(&'a [u8]);

fn in_bare(b: u8) -> bool {
    b.is_ascii_alphanumeric() || b == b'_'
}

impl Places<'_> {
    fn before(&self, p: usize) -> Option<u8> {
        p.checked_sub(1).map(|q| self.0[q])
    }

    /// An even number of quotes stands before it.
    fn outside(&self, p: usize) -> bool {
        self.0[..p].iter().filter(|&&b| b == b'\'').count() % 2 == 0
    }

    fn begins(&self, p: usize) -> bool {
        p < self.0.len() && matches!(self.before(p), None | Some(b' ')) && self.outside(p) && (in_bare(self.0[p]) || self.0[p] == b'\'')
    }

    /// Where the label that begins at p has ended.
    fn end(&self, p: usize) -> usize {
        let goes_on = |&q: &usize| if self.0[p] == b'\'' { !self.outside(q) || self.0[q] == b'\'' } else { in_bare(self.0[q]) };
        (p..self.0.len()).find(|q| !goes_on(q)).unwrap_or(self.0.len())
    }

    /// The places of the decoded bytes of the label that begins at p: of a doubled quote, the first.
    fn decoded(&self, p: usize) -> Vec<usize> {
        let quoted = self.0[p] == b'\'';
        let stands = |&q: &usize| !quoted || !self.outside(q) && (self.0[q] != b'\'' || self.0.get(q + 1) == Some(&b'\''));
        (p..self.end(p)).filter(stands).collect()
    }

    fn name(&self, p: usize) -> Vec<u8> {
        let quoted = self.0[p] == b'\'';
        self.decoded(p).into_iter().map(|q| if self.0[q] == b'_' && !quoted { b' ' } else { self.0[q] }).collect()
    }

    /// The label that begins at p is at fault by itself.
    fn own_fault(&self, p: usize) -> bool {
        let name = self.name(p);
        !self.outside(self.end(p)) || !(1..=NAME).contains(&name.len()) || name.iter().any(|b| !(32..=126).contains(b))
    }

    fn wrong_byte(&self, p: usize) -> bool {
        let (byte, before) = (self.0[p], self.before(p));
        if !self.outside(p) {
            let closes_nothing = byte == b'\'' && self.begins(p - 1) && self.0.get(p + 1) != Some(&b'\'');
            return !(32..=126).contains(&byte) || closes_nothing;
        }
        match byte {
            b'\'' => !matches!(before, None | Some(b' ' | b'\'')),
            b' ' => !before.is_some_and(|b| in_bare(b) || b == b'\''),
            _ => !in_bare(byte) || !before.is_none_or(|b| in_bare(b) || b == b' '),
        }
    }

    /// The label that begins at 0 as a text has it: its name and its end, or the least fault of its own. A byte that is not printable is 3, even where a sixteenth would stand.
    fn first_label(&self) -> Result<(Vec<u8>, usize), Refusal> {
        let end = self.end(0);
        let wrong = (0..end).find(|&p| self.wrong_byte(p)).map(|p| (p, 3));
        let long = self.decoded(0).get(NAME).map(|&p| (p, 4));
        let open = (!self.outside(end)).then_some((self.0.len(), 10));
        match [wrong, long, open].into_iter().flatten().min() {
            Some((place, number)) => Err((number, place)),
            None => Ok((self.name(0), end)),
        }
    }

    fn beginnings(&self, upto: usize) -> Vec<usize> {
        (0..upto).filter(|&p| self.begins(p)).collect()
    }

    fn at_fault(&self, p: usize) -> bool {
        if p == self.0.len() {
            return matches!(self.before(p), None | Some(b' ')) || !self.outside(p);
        }
        let earlier = self.beginnings(p);
        let repeated = || !self.own_fault(p) && earlier.iter().any(|&q| !self.own_fault(q) && self.name(q) == self.name(p));
        self.wrong_byte(p) || earlier.iter().any(|&q| self.decoded(q).get(NAME) == Some(&p)) || self.begins(p) && (earlier.len() == SPECIES || repeated())
    }

    fn names(&self) -> Result<Vec<Vec<u8>>, Refusal> {
        match (0..=self.0.len()).find(|&p| self.at_fault(p)) {
            Some(place) => Err((1, place)),
            None => Ok(self.beginnings(self.0.len()).into_iter().map(|p| self.name(p)).collect()),
        }
    }
}

fn judged_alike(line: &[u8]) -> bool {
    let judged = names(line);
    assert_eq!(judged, Places(line).names(), "line {:?}", String::from_utf8_lossy(line));
    if Places(line).begins(0) {
        assert_eq!(label::scan(line, 0), Places(line).first_label(), "label {:?}", String::from_utf8_lossy(line));
    }
    judged.is_ok()
}

#[test]
fn short_rosters_from_the_left_and_place_by_place() {
    const BYTES: &[u8] = b"a_' !\xff";
    for length in 0..8 {
        for mut code in 0..BYTES.len().pow(length) {
            let mut line = Vec::new();
            for _ in 0..length {
                line.push(BYTES[code % BYTES.len()]);
                code /= BYTES.len();
            }
            judged_alike(&line);
        }
    }
}

#[test]
fn rosters_from_the_left_and_place_by_place() {
    let mut s = Seeded::new(12);
    let mut good = 0;
    for _ in 0..20_000 {
        let n = if s.one_in(4) { 15 + s.below(4) } else { 1 + s.below(5) };
        let mut decoded = s.printables(n);
        let again = s.below(n);
        if s.one_in(4) {
            decoded.push(decoded[again].clone());
        }
        if s.one_in(4) {
            // fifteen bytes and up to two more, quotes among them
            decoded[again].resize(NAME, b'\'');
            let more = s.below(3);
            decoded[again].extend(&b"'a"[..more]);
        }
        let line = s.labels(&decoded).join(&b' ');
        let line = if s.one_in(2) { s.damaged(line) } else { line };
        good += judged_alike(&line) as usize;
    }
    assert!((2000..18_000).contains(&good), "{good} of 20,000 lines are good");
}

#[test]
fn lines_of_few_bytes_from_the_left_and_place_by_place() {
    let mut s = Seeded::new(13);
    for _ in 0..100_000 {
        let bytes = [&b"a'"[..], b"'", b"ab' ", b"a_'' \t", b"'' (\x1f\x7f~"][s.below(5)];
        let length = s.below(45);
        let line: Vec<u8> = (0..length).map(|_| bytes[s.below(bytes.len())]).collect();
        judged_alike(&line);
    }
}

fn is_blank(b: u8) -> bool {
    matches!(b, b' ' | b'\t' | b'\n' | b'\r')
}

/// The offset behind the digits that stand at p.
fn digits_end(text: &[u8], p: usize) -> usize {
    (p..text.len()).find(|&q| !text[q].is_ascii_digit()).unwrap_or(text.len())
}

/// The extent of the number that stands at p, and how many decimals it has.
fn number_at(text: &[u8], p: usize) -> (usize, usize) {
    let whole = digits_end(text, p);
    if text.get(whole) != Some(&b'.') {
        return (whole, 0);
    }
    let end = digits_end(text, whole + 1);
    (end, end - whole - 1)
}

/// The colon before p, if only blanks stand between them.
fn colon_before(text: &[u8], p: usize) -> Option<usize> {
    (0..p).rev().find(|&q| !is_blank(text[q])).filter(|&q| text[q] == b':')
}

/// What stands at p is behind the second colon of its node: before that colon, and maybe a number, there is another.
fn behind_two_colons(text: &[u8], p: usize) -> bool {
    let Some(last) = colon_before(text, p) else {
        return false;
    };
    let Some(before) = (0..last).rev().find(|&q| !is_blank(text[q])) else {
        return false;
    };
    let number = (0..=before).rev().take_while(|&q| text[q].is_ascii_digit() || text[q] == b'.').last();
    colon_before(text, number.unwrap_or(last)).is_some()
}

/// The first place of a support with more than three decimals that is met: of the text up to its end nothing is wrong but that it ends.
fn first_long_support(kind: Kind, line: &[u8], text: &[u8]) -> Option<usize> {
    let is_met = |&p: &usize| {
        let (end, decimals) = number_at(text, p);
        text[p].is_ascii_digit() && decimals > 3 && behind_two_colons(text, p) && read(kind, None, line, &text[..end], 0) == Err((10, end))
    };
    (0..text.len()).filter(|&p| Places(text).outside(p)).find(is_met)
}

/// Whole thousandths of a number with at most three decimals, by way of its two parts.
fn by_parts(number: &[u8]) -> u64 {
    let number = std::str::from_utf8(number).unwrap();
    let (whole, decimals) = number.split_once('.').unwrap_or((number, "0"));
    whole.parse::<u64>().unwrap() * 1000 + decimals.parse::<u64>().unwrap() * 10u64.pow(3 - decimals.len() as u32)
}

/// A good text with blanks for both parentheses of each weak node but the root, and for what stands behind the closing one.
fn without_weak_nodes(text: &[u8], next: usize, threshold: usize) -> Vec<u8> {
    let outside: Vec<usize> = (0..next).filter(|&p| Places(text).outside(p) && text[p] != b'\'').collect();
    let (mut left, mut open) = (text.to_vec(), Vec::new());
    for (i, &p) in outside.iter().enumerate() {
        if text[p] == b'(' {
            open.push(p);
        }
        if text[p] != b')' {
            continue;
        }
        let from = open.pop().unwrap();
        let behind: Vec<usize> = outside[i + 1..].iter().copied().take_while(|&q| !b",);".contains(&text[q])).collect();
        let end = outside[i + 1 + behind.len()];
        let plain: Vec<u8> = behind.into_iter().map(|q| text[q]).filter(|&b| !is_blank(b)).collect();
        let support = plain.split(|&b| b == b':').nth(2);
        if !open.is_empty() && support.is_some_and(|b| by_parts(b) < threshold as u64) {
            left[from] = b' ';
            left[p..end].fill(b' ');
        }
    }
    left
}

/// What a threshold does, by reading without one: 18 at the first long support that is met, else the text without its weak nodes.
fn by_text(kind: Kind, threshold: usize, line: &[u8], text: &[u8]) -> Result<(Record, usize), Refusal> {
    if let Some(place) = first_long_support(kind, line, text) {
        return Err((18, place));
    }
    let (_, next) = read(kind, None, line, text, 0)?;
    read(kind, None, line, &without_weak_nodes(text, next, threshold), 0)
}

/// A roster line, how many names it has, and a text with supports on some of them.
fn supported(s: &mut Seeded) -> (Vec<u8>, usize, Vec<u8>) {
    let most = if s.one_in(3) { 16 } else { 6 };
    let n = 1 + s.below(most);
    let names = if s.one_in(2) { s.names(n) } else { s.printables(n) };
    let species = if s.one_in(2) { s.kept(n) } else { (0..n).collect() };
    let labels = s.labels(&names);
    let (_, text) = s.drawn_supported(species, &labels);
    (joined(&names), n, text)
}

#[test]
fn a_threshold_by_reading_and_by_the_text_without_its_weak_nodes() {
    let mut s = Seeded::new(14);
    let (mut dropped, mut long, mut refused) = (0, 0, 0);
    for _ in 0..6000 {
        let (line, n, text) = supported(&mut s);
        let text = if s.one_in(2) { s.damaged(text) } else { text };
        let threshold = s.threshold();
        let answer = read(Kind::Gene, Some(threshold), &line, &text, 0);
        let shown = String::from_utf8_lossy(&text);
        assert_eq!(answer, by_text(Kind::Gene, threshold, &line, &text), "threshold {threshold}, text {shown:?}");
        let species = read(Kind::Species, Some(threshold), &line, &text, 0);
        assert_eq!(species, as_species(n, answer), "threshold {threshold}, text {shown:?}");
        assert_eq!(species, by_text(Kind::Species, threshold, &line, &text), "threshold {threshold}, text {shown:?}");
        match answer {
            Ok(read_so) => dropped += (Ok(read_so) != read(Kind::Gene, None, &line, &text, 0)) as usize,
            Err((18, _)) => long += 1,
            Err(_) => refused += 1,
        }
    }
    assert!(dropped > 800 && long > 500 && refused > 1000, "{dropped} with clusters dropped, {long} with 18, {refused} refused otherwise");
}

#[test]
fn texts_cut_at_every_place_with_a_threshold() {
    let mut s = Seeded::new(18);
    let mut cut_behind_long = 0;
    for _ in 0..1000 {
        let (line, _, text) = supported(&mut s);
        for end in 0..text.len() {
            let cut = &text[..end];
            let answer = read(Kind::Gene, Some(500), &line, cut, 0);
            assert_eq!(answer, by_text(Kind::Gene, 500, &line, cut), "text {:?}", String::from_utf8_lossy(cut));
            cut_behind_long += matches!(answer, Err((18, place)) if number_at(cut, place).0 == end) as usize;
        }
    }
    assert!(cut_behind_long > 100, "{cut_behind_long} texts end right behind a long support");
}

/// How a support is taken: at its value it keeps its node, above it not; with more than three decimals it is 18, even at threshold 0.
fn support_taken_alike(number: &[u8]) {
    let text = [b"((a,b)::", number, b",c);"].concat();
    let at = |threshold| read(Kind::Gene, threshold, b"a b c", &text, 0);
    let (kept, shown) = (at(None), String::from_utf8_lossy(number));
    let (end, decimals) = number_at(&text, 8);
    if kept.is_err() {
        assert_eq!([at(Some(0)), at(Some(usize::MAX))], [by_text(Kind::Gene, 0, b"a b c", &text); 2], "support {shown}");
    } else if decimals > 3 {
        assert_eq!([at(Some(0)), at(Some(usize::MAX))], [Err((18, 8)); 2], "support {shown}");
    } else {
        let value = by_parts(&text[8..end]) as usize;
        let star = Ok((record(&[1, 2, 4, 7]), text.len()));
        assert_eq!([at(Some(value)), at(Some(value + 1)), at(Some(usize::MAX))], [kept, star, star], "support {shown}");
        assert_eq!([at(Some(0)), at(Some(value.saturating_sub(1)))], [kept; 2], "support {shown}");
    }
}

#[test]
fn supports_by_their_values_and_by_their_two_parts() {
    for length in 0..8u32 {
        for mut code in 0..4usize.pow(length) {
            let mut number = Vec::new();
            for _ in 0..length {
                number.push(b".059"[code % 4]);
                code /= 4;
            }
            support_taken_alike(&number);
        }
    }
    let mut s = Seeded::new(15);
    for _ in 0..20_000 {
        let length = 1 + s.below(14);
        let mut number: Vec<u8> = (0..length).map(|_| b'0' + s.below(10) as u8).collect();
        let point = s.below(length);
        if s.one_in(2) {
            number[point] = b'.';
        }
        support_taken_alike(&number);
    }
}

/// The answers to a text without a threshold, with 0, and with two others, the lower first.
fn at_rising_thresholds(s: &mut Seeded, line: &[u8], text: &[u8]) -> [Result<(Record, usize), Refusal>; 4] {
    let (one, other) = (s.threshold(), s.threshold());
    [None, Some(0), Some(one.min(other)), Some(one.max(other))].map(|threshold| read(Kind::Gene, threshold, line, text, 0))
}

#[test]
fn a_higher_threshold_leaves_no_cluster_that_a_lower_one_dropped() {
    let mut s = Seeded::new(16);
    let mut fewer = 0;
    for _ in 0..6000 {
        let (line, n, text) = supported(&mut s);
        let text = if s.one_in(4) { s.damaged(text) } else { text };
        let [without, zero, low, high] = at_rising_thresholds(&mut s, &line, &text);
        match (zero, low, high) {
            (Ok(zero), Ok(low), Ok(high)) => {
                assert_eq!(Ok(zero), without);
                assert!([low, high].iter().all(|(tree, next)| valid_gene(n, tree) && *next == zero.1 && largest(tree) == largest(&zero.0)));
                assert!(clusters(&low.0).iter().all(|x| clusters(&zero.0).contains(x)), "{zero:?}, {low:?}");
                assert!(clusters(&high.0).iter().all(|x| clusters(&low.0).contains(x)), "{low:?}, {high:?}");
                fewer += (high.0[0] < low.0[0]) as usize;
            }
            _ => {
                assert!(zero.is_err() && zero == low && low == high);
                assert!(zero == without || matches!(zero, Err((18, _))));
            }
        }
    }
    assert!(fewer > 800, "{fewer} texts of which the higher threshold left less");
}

#[test]
fn k_and_scores_never_rise_with_the_threshold() {
    let mut s = Seeded::new(17);
    let (mut smaller, mut less) = (0, 0);
    for _ in 0..4000 {
        let (line, n, text) = supported(&mut s);
        let [_, Ok((zero, _)), Ok((low, _)), Ok((high, _))] = at_rising_thresholds(&mut s, &line, &text) else {
            continue;
        };
        for _ in 0..10 {
            let a = cluster(&mut s, n);
            assert!(k(Rooted, &high, a) <= k(Rooted, &low, a) && k(Rooted, &low, a) <= k(Rooted, &zero, a), "{zero:?}, {low:?}, {high:?}, cluster {a}");
            assert!(extra(Rooted, &high, a) <= extra(Rooted, &low, a) && extra(Rooted, &low, a) <= extra(Rooted, &zero, a), "{zero:?}, {low:?}, {high:?}, cluster {a}");
            smaller += (k(Rooted, &high, a) < k(Rooted, &zero, a)) as usize;
        }
        let species = s.gene(n, true);
        let [zero, low, high] = [zero, low, high].map(|gene| score(Rooted, n, &gene, 1, &species).unwrap());
        assert!(high <= low && low <= zero, "scores {zero}, {low}, {high}");
        less += (high < zero) as usize;
    }
    assert!(smaller > 1000 && less > 300, "{smaller} counts and {less} scores came out smaller");
}

/// The drawings of a binary tree with its root on the branch above a part of it or on one below, the rest hanging at that branch's other end.
fn drawings(part: &Tree, rest: &Tree, found: &mut Vec<Tree>) {
    found.push(Tree::Node(vec![part.clone(), rest.clone()]));
    if let Tree::Node(children) = part {
        for (i, child) in children.iter().enumerate() {
            drawings(child, &Tree::Node(vec![children[1 - i].clone(), rest.clone()]), found);
        }
    }
}

/// The records of a binary tree on n species with its root drawn on each of its 2n - 3 branches, the one that it is drawn on first.
fn rootings(tree: &Tree) -> Vec<Record> {
    let Tree::Node(children) = tree else {
        return vec![tree.record()];
    };
    let mut found = Vec::new();
    drawings(&children[0], &children[1], &mut found);
    drawings(&children[1], &children[0], &mut found);
    let mut records: Vec<Record> = Vec::new();
    for record in found.iter().map(Tree::record) {
        if !records.contains(&record) {
            records.push(record);
        }
    }
    records
}

#[test]
fn where_the_root_was_drawn_changes_nothing_without_a_root() {
    let mut s = Seeded::new(19);
    let (mut drawn_elsewhere, mut rooted_differ) = (0, 0);
    for _ in 0..2000 {
        let n = 1 + s.below(16);
        let (mut here, mut there) = (Vec::new(), Vec::new());
        for _ in 0..1 + s.below(3) {
            let tree = s.unrooted(n);
            here.push(tree.record());
            there.push(s.redrawn(tree).record());
            assert!(here.iter().chain(&there).all(|r| valid(n, r) && may_unroot(n, r)));
        }
        drawn_elsewhere += (here != there) as usize;
        assert!(here.iter().zip(&there).all(|(x, y)| shown(Unrooted, x) == shown(Unrooted, y)));
        for _ in 0..20 {
            let a = cluster(&mut s, n);
            assert_eq!(weight_of(Unrooted, &here, a), weight_of(Unrooted, &there, a), "gene trees {here:?} and {there:?}, cluster {a}");
            rooted_differ += (weight_of(Rooted, &here, a) != weight_of(Rooted, &there, a)) as usize;
        }
        if n <= 7 {
            let searched = |genes: &[Record]| {
                let (mut marks, mut scores, mut splits) = (vec![9; 1 << n], vec![0; 1 << n], vec![0; 1 << n]);
                mark(Unrooted, n, &genes.concat(), genes.len(), &mut marks).unwrap();
                let found = search(Unrooted, n, &genes.concat(), genes.len(), &marks, &mut scores, &mut splits).unwrap();
                (marks, scores, splits, found)
            };
            assert_eq!(searched(&here), searched(&there));
        }
    }
    assert!(drawn_elsewhere > 1000 && rooted_differ > 5000, "{drawn_elsewhere} trees drawn elsewhere, {rooted_differ} weights that differ with roots");
}

#[test]
fn without_a_root_and_over_all_branches_that_may_hold_it() {
    let mut s = Seeded::new(20);
    let mut less = 0;
    for _ in 0..2000 {
        let n = 1 + s.below(16);
        let tree = s.tree((0..n).collect(), true);
        let rooted = rootings(&tree);
        assert_eq!(rooted.len(), if n < 3 { 1 } else { 2 * n - 3 });
        let redrawn = s.redrawn(tree).record();
        for _ in 0..20 {
            let a = cluster(&mut s, n);
            let counts: Vec<usize> = rooted.iter().map(|r| k(Rooted, r, a)).collect();
            assert_eq!(k(Unrooted, &redrawn, a), *counts.iter().min().unwrap(), "gene tree {redrawn:?}, cluster {a}");
            less += (counts[0] > k(Unrooted, &redrawn, a)) as usize;
            // the count with the root above a species that the cluster lacks
            for i in (0..n).filter(|i| n > 2 && a >> i & 1 == 0) {
                let outgroup = rooted.iter().position(|r| clusters(r).contains(&(whole(n) - (1 << i)))).unwrap();
                assert_eq!(counts[outgroup], k(Unrooted, &redrawn, a), "gene tree {redrawn:?}, cluster {a}, root above {i}");
            }
        }
        // one branch is the best for all clusters of a species tree at once
        let species = s.gene(n, true);
        let best = rooted.iter().map(|r| score(Rooted, n, r, 1, &species).unwrap()).min();
        assert_eq!(score(Unrooted, n, &redrawn, 1, &species).ok(), best, "gene tree {redrawn:?}, species tree {species:?}");
    }
    assert!(less > 2000, "{less} counts are less without a root");
}

/// That a valid gene record may be taken without its root, by its number of clusters: a binary tree has 2n - 1. With one less a single node has three children, and
/// it is the root where what the largest child leaves of the whole is no cluster.
fn may_unroot_by_count(n: usize, r: &Record) -> bool {
    let m = r[0] as usize;
    let left = || whole(n) - r[m - 1];
    largest(r) == whole(n) && (m + 1 == 2 * n || m + 2 == 2 * n && !clusters(r).contains(&left()))
}

#[test]
fn what_enters_without_a_root_by_its_children_and_by_its_count() {
    let mut s = Seeded::new(21);
    let mut both = [0; 2];
    for _ in 0..20_000 {
        let n = 1 + s.below(8);
        let some: Vec<Record> = (0..1 + s.below(3)).map(|_| if s.one_in(2) { s.unrooted(n).record() } else { gene(&mut s, n) }).collect();
        let refused = some.iter().position(|r| !may_unroot_by_count(n, r));
        let answer = records(Unrooted, n, &some.concat(), some.len());
        assert_eq!(answer, refused.map_or(Ok(some.clone()), |index| Err((19, index))), "gene trees {some:?}");
        assert_eq!(records(Rooted, n, &some.concat(), some.len()), Ok(some));
        both[answer.is_ok() as usize] += 1;
    }
    assert!(both[0] > 5000 && both[1] > 3000);
}

#[test]
fn the_program_prints_the_same_wherever_the_roots_were_drawn() {
    let mut s = Seeded::new(22);
    for _ in 0..1000 {
        let n = 1 + s.below(7);
        let names = s.printables(n);
        let labels = s.labels(&names);
        let mode = [&b"\nall unrooted\n"[..], b"\ngenes unrooted\n"][s.below(2)];
        let mut inputs = [0; 2].map(|_| [&labels.join(&b' ')[..], mode].concat());
        for _ in 0..1 + s.below(4) {
            let tree = s.unrooted(n);
            let redrawn = s.redrawn(tree.clone());
            inputs[0].extend(s.text_of(&tree, &labels));
            inputs[1].extend(s.text_of(&redrawn, &labels));
        }
        let [here, there] = inputs.map(|input| String::from_utf8(report(&input)).unwrap());
        assert!(here.starts_with("taxa"), "{here}");
        assert_eq!(here, there);
    }
}

#[test]
fn the_slow_engine_and_the_dynamic_program() {
    let mut s = Seeded::new(25);
    let mut both = [0; 2];
    for round in 0..800 {
        let n = if round % 40 == 0 { 7 } else { 1 + s.below(6) };
        let (rooting, mut genes) = genes_by_rooting(&mut s, n);
        let mut allowed = allowed(&mut s, n);
        if s.one_in(8) {
            let at = s.below(genes.len());
            genes[at] = s.spoiled(genes[at]);
        }
        if s.one_in(16) {
            let at = s.below(1 << n);
            allowed[at] = 2;
        }
        let count = if s.one_in(32) { genes.len() + 1 } else { genes.len() };
        let (mut scores, mut splits) = (vec![0; 1 << n], vec![0; 1 << n]);
        let found = match search(rooting, n, &genes.concat(), count, &allowed, &mut scores, &mut splits) {
            Err((number, place)) if number != 14 => Err((number, place)),
            // up to six species the search goes through all trees, too
            _ => {
                let (scores, splits) = tables(n, &weights(rooting, n, &genes), &allowed);
                tree(n, &scores, &splits)
            }
        };
        assert_eq!(plain(rooting, n, &genes.concat(), count, &allowed), found, "gene trees {genes:?}, allowed {allowed:?}");
        both[found.is_ok() as usize] += 1;
    }
    assert!(both[0] > 200 && both[1] > 200, "{both:?}");
}

#[test]
fn trees_by_the_product_and_one_by_one() {
    let counts = tree_counts();
    assert_eq!(counts.last(), Some(&6_190_283_353_629_375));
    for n in 1..=7 {
        assert_eq!(trees_over(n, &vec![1; 1 << n], (1 << n) - 1).len() as u64, counts[n - 1]);
    }
}

#[test]
fn a_sheet_and_single_calls() {
    let mut s = Seeded::new(26);
    let mut gets = [0; 3];
    for _ in 0..600 {
        let n = 1 + s.below(8);
        let (rooting, genes) = genes_by_rooting(&mut s, n);
        let rivals: Vec<Record> = (0..4).map(|i| s.gene(n, i % 2 == 0)).collect();
        let mut entries: Vec<Entry> = (0..6).map(|_| Entry { position: s.below(6), number: 5, score: 6 }).collect();
        sheet(rooting, n, &genes.concat(), genes.len(), &rivals.concat(), &mut entries).unwrap();
        for entry in entries {
            let single = rivals.get(entry.position).map(|rival| score(rooting, n, &genes.concat(), genes.len(), rival));
            let got = if entry.number == 0 { Ok(entry.score) } else { Err((entry.number, entry.score)) };
            assert_eq!(got, single.unwrap_or(Err((12, 0))));
            gets[[0, 12, 16].iter().position(|&number| number == entry.number).unwrap()] += 1;
        }
    }
    assert!(gets.iter().all(|&times| times > 200), "{gets:?}");
}

#[test]
fn counts_written_are_passed_and_with_a_digit_changed_refused() {
    let mut s = Seeded::new(27);
    let (mut above, mut refused) = (0, [0; 2]);
    for _ in 0..1500 {
        let n = 1 + s.below(8);
        let names = if s.one_in(2) { s.names(n) } else { s.printables(n) };
        let line = s.labels(&names).join(&b' ');
        let (genes, species) = (genes(&mut s, n), s.gene(n, true));
        let mut text = vec![0; 744];
        let length = write_counts(&line, &genes.concat(), genes.len(), &species, &mut text).unwrap();
        text.truncate(length);
        let tables = || (vec![7; 1 << n], vec![9; 1 << n]);
        let checked = |text: &[u8]| {
            let (mut scores, mut splits) = tables();
            (check(&line, text, 0, &genes.concat(), genes.len(), &mut scores, &mut splits), (scores, splits))
        };

        let (mut scores, mut splits) = tables();
        let (least, _) = search(Rooted, n, &genes.concat(), genes.len(), &vec![1; 1 << n], &mut scores, &mut splits).unwrap();
        let distance = score(Rooted, n, &genes.concat(), genes.len(), &species).unwrap() - least;
        assert_eq!(checked(&text), (Ok(distance), (scores, splits)), "{line:?}, {text:?}, gene trees {genes:?}");
        above += (distance > 0) as usize;

        let digits: Vec<usize> = (0..length).filter(|&at| text[at].is_ascii_digit()).collect();
        let at = digits[s.below(digits.len())];
        text[at] = b'0' + (text[at] - b'0' + 1 + s.below(9) as u8) % 10;
        let refusal = match read(Kind::Species, None, &line, &text, 0) {
            Ok((record, _)) => {
                // the digit was a count's: every name stands in the tree, so a name that is changed is unknown or stands there twice
                assert_eq!(record, species);
                (23, text[..at].iter().rposition(|&b| b == b':').unwrap())
            }
            Err(refusal) => refusal,
        };
        assert_eq!(checked(&text), (Err(refusal), tables()), "{line:?}, {text:?}, gene trees {genes:?}");
        refused[(refusal.0 == 23) as usize] += 1;
    }
    assert!(above > 500 && refused[0] > 100 && refused[1] > 500, "{above} above the least, refused {refused:?}");
}
