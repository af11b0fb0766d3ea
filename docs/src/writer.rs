//! A record written in the one form.
use crate::roster::names;
use crate::trees::{clusters, largest, valid_gene, Record};
use crate::{label, Refusal};

/// The children of a cluster: the largest listed ones within it, by lowest species.
fn children(list: &[u16], a: u16) -> Vec<u16> {
    let inside: Vec<u16> = list.iter().copied().filter(|&x| x != a && x & a == x).collect();
    let mut found: Vec<u16> = inside.iter().copied().filter(|&x| !inside.iter().any(|&y| y != x && x & y == x)).collect();
    found.sort_by_key(|x| x.trailing_zeros());
    found
}

/// Writes a node's text, and behind each node the note that it gets.
fn node(names: &[Vec<u8>], list: &[u16], a: u16, note: &dyn Fn(u16) -> Vec<u8>, text: &mut Vec<u8>) {
    if a.count_ones() == 1 {
        text.extend(label::written(&names[a.trailing_zeros() as usize]));
    } else {
        for (i, child) in children(list, a).into_iter().enumerate() {
            text.push(if i == 0 { b'(' } else { b',' });
            node(names, list, child, note, text);
        }
        text.push(b')');
    }
    text.extend(note(a));
}

/// The text of a valid gene record on a good roster: that of the tree on its largest cluster. Species records are such records too.
pub fn text(names: &[Vec<u8>], r: &Record) -> Vec<u8> {
    noted(names, r, &|_| Vec::new())
}

/// The same with a note behind each node.
pub fn noted(names: &[Vec<u8>], r: &Record, note: &dyn Fn(u16) -> Vec<u8>) -> Vec<u8> {
    let mut written = Vec::new();
    node(names, clusters(r), largest(r), note, &mut written);
    written.push(b';');
    written
}

/// Writes the text into `out`, and answers its length.
pub fn write(line: &[u8], r: &Record, out: &mut [u8]) -> Result<usize, Refusal> {
    let names = names(line)?;
    if !valid_gene(names.len(), r) {
        return Err((15, 0));
    }
    let written = text(&names, r);
    if out.len() < written.len() {
        return Err((12, 0));
    }
    out[..written.len()].copy_from_slice(&written);
    Ok(written.len())
}
