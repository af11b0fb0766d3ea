//! Labels (02, #103): a label scanned to the name that it stands for, and a name written as its label.
use crate::{Refusal, NAME};

const QUOTE: u8 = b'\'';

/// A byte of a bare label.
fn is_bare(b: u8) -> bool {
    b.is_ascii_alphanumeric() || b == b'_'
}

/// A byte with which a label begins.
pub fn begins(b: u8) -> bool {
    is_bare(b) || b == QUOTE
}

/// The name of the label that begins at `at`, and the offset just behind the label; or 3, 4 or 10 with the place.
pub fn scan(text: &[u8], at: usize) -> Result<(Vec<u8>, usize), Refusal> {
    if text[at] == QUOTE {
        quoted(text, at + 1)
    } else {
        bare(text, at)
    }
}

/// A run of letters, digits and underscores; an underscore stands for a blank.
fn bare(text: &[u8], from: usize) -> Result<(Vec<u8>, usize), Refusal> {
    let end = (from..text.len()).find(|&i| !is_bare(text[i])).unwrap_or(text.len());
    if end - from > NAME {
        return Err((4, from + NAME));
    }
    let name = text[from..end].iter().map(|&b| if b == b'_' { b' ' } else { b }).collect();
    Ok((name, end))
}

/// Printable bytes, a quote written twice, up to a quote that no quote follows. `at` is behind the opening quote.
fn quoted(text: &[u8], mut at: usize) -> Result<(Vec<u8>, usize), Refusal> {
    let mut name = Vec::new();
    while at < text.len() {
        let byte = text[at];
        let doubled = byte == QUOTE && text.get(at + 1) == Some(&QUOTE);
        let closes = byte == QUOTE && !doubled;
        if !(32..=126).contains(&byte) || closes && name.is_empty() {
            return Err((3, at));
        }
        if closes {
            return Ok((name, at + 1));
        }
        if name.len() == NAME {
            return Err((4, at));
        }
        name.push(byte);
        at += if doubled { 2 } else { 1 };
    }
    Err((10, text.len()))
}

/// The label that the writer gives a name: bare where it has only letters, digits and blanks, else quoted.
pub fn written(name: &[u8]) -> Vec<u8> {
    if name.iter().all(|&b| b.is_ascii_alphanumeric() || b == b' ') {
        name.iter().map(|&b| if b == b' ' { b'_' } else { b }).collect()
    } else {
        in_quotes(name)
    }
}

/// The quoted label of a name, whatever its bytes.
pub fn in_quotes(name: &[u8]) -> Vec<u8> {
    let mut label = vec![QUOTE];
    for &b in name {
        label.push(b);
        if b == QUOTE {
            label.push(b);
        }
    }
    label.push(QUOTE);
    label
}
