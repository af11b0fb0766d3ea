//! The lines of the case file: a call with its fields, packed as README.md says.
use reference::lineages::Rooting;
use reference::reader::Kind;

#[derive(Default)]
pub struct Cases {
    pub lines: Vec<Vec<u8>>,
    /// How the calls that count take the gene trees, from here on.
    pub rooting: Rooting,
}

impl Cases {
    fn add(&mut self, call: u8, fields: &[Vec<u8>]) {
        let mut line = vec![call];
        line.extend(fields.join(&b'|'));
        self.lines.push(line);
    }

    fn add_count(&mut self, call: u8, fields: &[Vec<u8>]) {
        let call = if self.rooting == Rooting::Rooted { call } else { call.to_ascii_lowercase() };
        self.add(call, fields);
    }

    pub fn judge(&mut self, line: &[u8]) {
        self.add(b'J', &[escaped(line)]);
    }

    pub fn read(&mut self, kind: Kind, line: &[u8], text: &[u8], start: usize) {
        let call = if kind == Kind::Species { b'R' } else { b'G' };
        self.add(call, &[escaped(line), escaped(text), decimal(start)]);
    }

    pub fn read_supported(&mut self, line: &[u8], text: &[u8], start: usize, threshold: usize) {
        self.add(b'T', &[escaped(line), escaped(text), decimal(start), decimal(threshold)]);
    }

    pub fn write(&mut self, line: &[u8], r: &[u16; 32], out: usize) {
        self.add(b'W', &[escaped(line), numbers(r), decimal(out)]);
    }

    pub fn weight(&mut self, n: usize, genes: &[u16], count: usize, cluster: usize) {
        self.add_count(b'K', &[decimal(n), numbers(genes), decimal(count), decimal(cluster)]);
    }

    pub fn score(&mut self, n: usize, genes: &[u16], count: usize, species: &[u16; 32]) {
        self.add_count(b'S', &[decimal(n), numbers(genes), decimal(count), numbers(species)]);
    }

    pub fn mark(&mut self, n: usize, genes: &[u16], count: usize, out: usize) {
        self.add_count(b'M', &[decimal(n), numbers(genes), decimal(count), decimal(out)]);
    }

    pub fn search(&mut self, n: usize, genes: &[u16], count: usize, allowed: &[u16], scores: usize, splits: usize) {
        self.add_count(b'F', &[decimal(n), numbers(genes), decimal(count), numbers(allowed), decimal(scores), decimal(splits)]);
    }

    pub fn search_ties(&mut self, n: usize, genes: &[u16], count: usize, allowed: &[u16], tables: [usize; 3]) {
        let [scores, splits, ties] = tables.map(decimal);
        self.add_count(b'E', &[decimal(n), numbers(genes), decimal(count), numbers(allowed), scores, splits, ties]);
    }

    pub fn plain(&mut self, n: usize, genes: &[u16], count: usize, allowed: &[u16]) {
        self.add_count(b'L', &[decimal(n), numbers(genes), decimal(count), numbers(allowed)]);
    }

    pub fn sheet(&mut self, n: usize, genes: &[u16], count: usize, records: &[u16], positions: &[usize]) {
        let positions: Vec<String> = positions.iter().map(usize::to_string).collect();
        self.add_count(b'H', &[decimal(n), numbers(genes), decimal(count), numbers(records), positions.join(" ").into_bytes()]);
    }

    pub fn check(&mut self, line: &[u8], text: &[u8], start: usize, genes: &[u16], count: usize, tables: [usize; 2]) {
        let [scores, splits] = tables.map(decimal);
        self.add(b'C', &[escaped(line), escaped(text), decimal(start), numbers(genes), decimal(count), scores, splits]);
    }

    pub fn write_counts(&mut self, line: &[u8], genes: &[u16], count: usize, species: &[u16; 32], out: usize) {
        self.add(b'O', &[escaped(line), numbers(genes), decimal(count), numbers(species), decimal(out)]);
    }

    /// The calls on a stand have both rosters and the mapping first.
    fn add_on_stand(&mut self, call: u8, texts: [&[u8]; 3], fields: &[Vec<u8>]) {
        self.add(call, &[&texts.map(escaped)[..], fields].concat());
    }

    pub fn stand_judge(&mut self, texts: [&[u8]; 3]) {
        self.add_on_stand(b'I', texts, &[]);
    }

    pub fn stand_read(&mut self, individuals: &[u8], text: &[u8], start: usize) {
        self.add(b'N', &[escaped(individuals), escaped(text), decimal(start)]);
    }

    pub fn stand_weight(&mut self, texts: [&[u8]; 3], genes: &[u32], count: usize, cluster: usize) {
        self.add_on_stand(b'X', texts, &[folded(genes, 64), decimal(count), decimal(cluster)]);
    }

    pub fn stand_score(&mut self, texts: [&[u8]; 3], genes: &[u32], count: usize, species: &[u16; 32]) {
        self.add_on_stand(b'Y', texts, &[folded(genes, 64), decimal(count), numbers(species)]);
    }

    pub fn stand_search(&mut self, texts: [&[u8]; 3], genes: &[u32], count: usize, allowed: &[u16], tables: [usize; 2]) {
        let [scores, splits] = tables.map(decimal);
        self.add_on_stand(b'Z', texts, &[folded(genes, 64), decimal(count), numbers(allowed), scores, splits]);
    }

    pub fn shelf(&mut self, steps: &Steps) {
        self.add(b'B', &steps.0);
    }

    pub fn report(&mut self, input: &[u8]) {
        self.add(b'P', &[escaped(input)]);
    }
}

/// Steps on one shelf (#112), of which README.md has a table.
#[derive(Clone, Default)]
pub struct Steps(Vec<Vec<u8>>);

impl Steps {
    fn step(&mut self, letter: &str, first: usize, rest: &[u8]) -> &mut Steps {
        let mut step = format!("{letter} {first}").into_bytes();
        if !rest.is_empty() {
            step.push(b' ');
            step.extend(rest);
        }
        self.0.push(step);
        self
    }

    pub fn lend(&mut self, length: usize) -> &mut Steps {
        self.step("l", length, b"")
    }

    pub fn write(&mut self, index: usize, value: u16) -> &mut Steps {
        self.step("w", index, &decimal(value as usize))
    }

    pub fn open(&mut self, n: usize) -> &mut Steps {
        self.step("o", n, b"")
    }

    pub fn add(&mut self, bench: usize, r: &[u16; 32]) -> &mut Steps {
        self.step("a", bench, &numbers(r))
    }

    pub fn read(&mut self, bench: usize, slot: usize) -> &mut Steps {
        self.step("r", bench, &decimal(slot))
    }

    pub fn remove(&mut self, bench: usize, slot: usize) -> &mut Steps {
        self.step("d", bench, &decimal(slot))
    }

    pub fn score(&mut self, bench: usize, species: &[u16; 32]) -> &mut Steps {
        self.step("s", bench, &numbers(species))
    }

    pub fn search(&mut self, bench: usize, allowed: &[u16]) -> &mut Steps {
        self.step("f", bench, &numbers(allowed))
    }

    pub fn again(&mut self, times: usize) -> &mut Steps {
        self.step("x", times, b"")
    }
}

fn decimal(x: usize) -> Vec<u8> {
    x.to_string().into_bytes()
}

/// Bytes in the form of the case file, with long runs of one byte folded.
fn escaped(bytes: &[u8]) -> Vec<u8> {
    let mut out = Vec::new();
    let mut at = 0;
    while at < bytes.len() {
        let b = bytes[at];
        if (33..127).contains(&b) && b != b'\\' && b != b'|' || b == b' ' {
            out.push(b);
        } else {
            out.extend(format!("\\{b:02x}").bytes());
        }
        let same = bytes[at..].iter().take_while(|&&x| x == b).count();
        if same > 8 {
            out.extend(format!("\\*{}.", same - 1).bytes());
            at += same;
        } else {
            at += 1;
        }
    }
    out
}

fn numbers(values: &[u16]) -> Vec<u8> {
    folded(values, 32)
}

/// Numbers in the form of the case file, with repeated numbers and repeated records, of so many numbers each, folded.
fn folded<T: Copy + PartialEq + ToString>(values: &[T], length: usize) -> Vec<u8> {
    let mut out = Vec::new();
    let mut at = 0;
    while at < values.len() {
        if at % length == 0 && at >= length {
            let record = &values[at - length..at];
            let same = values[at..].chunks(length).take_while(|c| *c == record).count();
            if same > 0 {
                out.extend(format!("#{same}").bytes());
                at += length * same;
                continue;
            }
        }
        if !out.is_empty() {
            out.push(b' ');
        }
        out.extend(values[at].to_string().bytes());
        let end = (at / length + 1) * length;
        let same = values[at..values.len().min(if values.len() % length == 0 { end } else { usize::MAX })]
            .iter()
            .take_while(|&&x| x == values[at])
            .count();
        if same > 2 {
            out.extend(format!("*{}", same - 1).bytes());
            at += same;
        } else {
            at += 1;
        }
    }
    out
}
