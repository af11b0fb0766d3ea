//! Tree text read from the left, to a record or the first fault met.
use crate::roster::names;
use crate::trees::{first, record, Record};
use crate::{label, Refusal, NUMBER, OPEN, TEXT};

/// What a text is read as (02, #104): a species tree has every species, a gene tree may lack some.
#[derive(Clone, Copy, PartialEq, Eq, Debug)]
pub enum Kind {
    Species,
    Gene,
}

/// What reading may be given (02, #113), in whole thousandths: inner nodes with a support below it lose their clusters.
pub type Threshold = Option<usize>;

/// A number's value in whole thousandths, which it has with at most three decimals (02, #113).
pub fn thousandths(number: &[u8]) -> Option<usize> {
    let mut parts = number.split(|&b| b == b'.');
    let (whole, decimals) = (parts.next().unwrap_or_default(), parts.next().unwrap_or_default());
    let zeros = b"000".get(decimals.len()..)?;
    Some([whole, decimals, zeros].concat().iter().fold(0, |value, b| value * 10 + (b - b'0') as usize))
}

/// A node as it was drawn, at its end: its cluster, the offset behind its name (a leaf's) or its closing parenthesis, and what stands behind it.
pub struct Node {
    pub cluster: u32,
    pub behind: usize,
    pub numbers: Numbers,
}

/// The numbers behind a node: the text of d, where there is one, whether a b follows, and the value of b.
#[derive(Default)]
pub struct Numbers {
    pub distance: Option<Vec<u8>>,
    pub supported: bool,
    support: Option<usize>,
}

/// What a text is read by: the names that leaves may have, how many parentheses may be open at once, the kind, and the threshold where one is given.
pub struct Rules<'a> {
    pub names: &'a [Vec<u8>],
    pub open: usize,
    pub kind: Kind,
    pub threshold: Threshold,
}

/// A tree as it was drawn: its nodes in the order in which they end, the clusters that it keeps of them, and the offset behind its `;`.
pub struct Drawn {
    pub nodes: Vec<Node>,
    pub clusters: Vec<u32>,
    pub next: usize,
}

struct Reader<'a> {
    text: &'a [u8],
    at: usize,
    rules: &'a Rules<'a>,
    seen: u32,
    clusters: Vec<u32>,
    nodes: Vec<Node>,
}

type Read<T> = Result<T, Refusal>;

impl Reader<'_> {
    fn blanks(&mut self) {
        while self.at < self.text.len() && matches!(self.text[self.at], b' ' | b'\t' | b'\n' | b'\r') {
            self.at += 1;
        }
    }

    /// The next byte behind blanks; 10 where the text ends.
    fn next(&mut self) -> Read<u8> {
        self.blanks();
        match self.text.get(self.at) {
            Some(&b) => Ok(b),
            None => Err((10, self.text.len())),
        }
    }

    /// The name of the label that begins here.
    fn label(&mut self) -> Read<Vec<u8>> {
        let (name, behind) = label::scan(self.text, self.at)?;
        self.at = behind;
        Ok(name)
    }

    /// The value of the number that begins here, where it has one.
    fn number(&mut self) -> Read<Option<usize>> {
        let from = self.at;
        let (mut point, mut digit) = (false, false);
        loop {
            let byte = self.text.get(self.at).copied();
            let goes_on = match byte {
                Some(b) if b.is_ascii_digit() => true,
                Some(b'.') => digit && !point,
                _ => false,
            };
            if !goes_on {
                return match (digit, byte) {
                    (true, _) => Ok(thousandths(&self.text[from..self.at])),
                    (false, None) => Err((10, self.text.len())),
                    (false, Some(_)) => Err((3, self.at)),
                };
            }
            if self.at - from == NUMBER {
                return Err((4, self.at));
            }
            if byte == Some(b'.') {
                point = true;
                digit = false;
            } else {
                digit = true;
            }
            self.at += 1;
        }
    }

    /// `:d`, `:d:b` or `::b`, where one follows.
    fn numbers(&mut self) -> Read<Numbers> {
        let mut numbers = Numbers::default();
        if !self.colon() {
            return Ok(numbers);
        }
        if !self.colon() {
            self.next()?;
            let from = self.at;
            self.number()?;
            numbers.distance = Some(self.text[from..self.at].to_vec());
            if !self.colon() {
                return Ok(numbers);
            }
        }
        numbers.supported = true;
        numbers.support = self.support()?;
        Ok(numbers)
    }

    /// The value of the b that follows; 18 where a threshold is given and there is none.
    fn support(&mut self) -> Read<Option<usize>> {
        self.next()?;
        let from = self.at;
        match self.number()? {
            None if self.rules.threshold.is_some() => Err((18, from)),
            value => Ok(value),
        }
    }

    /// The support is strictly below the threshold.
    fn weak(&self, support: Option<usize>) -> bool {
        matches!((support, self.rules.threshold), (Some(b), Some(threshold)) if b < threshold)
    }

    /// Takes a colon behind blanks, if one stands there.
    fn colon(&mut self) -> bool {
        let back = self.at;
        self.blanks();
        if self.text.get(self.at) == Some(&b':') {
            self.at += 1;
            return true;
        }
        self.at = back;
        false
    }

    fn leaf(&mut self) -> Read<u32> {
        let from = self.at;
        let name = self.label()?;
        let Some(i) = self.rules.names.iter().position(|known| *known == name) else {
            return Err((5, from));
        };
        if self.seen >> i & 1 == 1 {
            return Err((6, from));
        }
        self.seen |= 1 << i;
        Ok(1 << i)
    }

    fn node(&mut self, open: usize) -> Read<u32> {
        let first = self.next()?;
        let (cluster, behind) = if label::begins(first) {
            (self.leaf()?, self.at)
        } else if first == b'(' {
            if open == self.rules.open {
                return Err((8, self.at));
            }
            self.at += 1;
            let joined = self.list(open + 1)?;
            let behind = self.at;
            self.blanks();
            if self.at < self.text.len() && label::begins(self.text[self.at]) {
                self.label()?;
            }
            (joined, behind)
        } else {
            return Err((3, self.at));
        };
        let numbers = self.numbers()?;
        let (inner, root) = (first == b'(', open == 0);
        if !(inner && !root && self.weak(numbers.support)) {
            self.clusters.push(cluster);
        }
        self.nodes.push(Node { cluster, behind, numbers });
        Ok(cluster)
    }

    /// The children, up to and with the `)`.
    fn list(&mut self, open: usize) -> Read<u32> {
        let mut joined = self.node(open)?;
        let mut children = 1;
        loop {
            match self.next()? {
                b',' => {
                    self.at += 1;
                    joined |= self.node(open)?;
                    children += 1;
                }
                b')' if children == 1 => return Err((7, self.at)),
                b')' => {
                    self.at += 1;
                    return Ok(joined);
                }
                _ => return Err((3, self.at)),
            }
        }
    }
}

/// The record of the tree that begins at `start`, and the offset behind its `;`.
pub fn read(kind: Kind, threshold: Threshold, line: &[u8], text: &[u8], start: usize) -> Result<(Record, usize), Refusal> {
    read_nodes(kind, threshold, line, text, start).map(|(record, next, _)| (record, next))
}

/// The same with the nodes as they were drawn, in the order in which they end.
pub fn read_nodes(kind: Kind, threshold: Threshold, line: &[u8], text: &[u8], start: usize) -> Result<(Record, usize, Vec<Node>), Refusal> {
    let names = names(line)?;
    let drawn = drawn(&Rules { names: &names, open: OPEN, kind, threshold }, text, start)?;
    let clusters: Vec<u16> = drawn.clusters.iter().map(|&x| x as u16).collect();
    Ok((record(&clusters), drawn.next, drawn.nodes))
}

/// The tree that begins at `start`, by rules whose roster is a good one.
pub fn drawn(rules: &Rules, text: &[u8], start: usize) -> Result<Drawn, Refusal> {
    if text.len() > TEXT {
        return Err((2, TEXT));
    }
    if start > text.len() {
        return Err((10, text.len()));
    }
    let mut reader = Reader { text, at: start, rules, seen: 0, clusters: Vec::new(), nodes: Vec::new() };
    let cluster = reader.node(0)?;
    if reader.next()? != b';' {
        return Err((3, reader.at));
    }
    if rules.kind == Kind::Species && cluster != first(rules.names.len()) {
        return Err((9, reader.at));
    }
    Ok(Drawn { nodes: reader.nodes, clusters: reader.clusters, next: reader.at + 1 })
}
