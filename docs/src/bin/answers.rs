//! Prints the answer to each case of standard input.
use std::io::{Read, Write};

fn main() {
    let mut input = Vec::new();
    std::io::stdin().read_to_end(&mut input).unwrap();
    let mut out = std::io::stdout().lock();
    for case in input.split(|&b| b == b'\n').filter(|case| !case.is_empty()) {
        out.write_all(&reference::cases::answer(case)).unwrap();
    }
}
