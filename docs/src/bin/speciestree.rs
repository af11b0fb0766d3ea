//! The program over the reference: standard input to standard output.
use std::io::{Read, Write};

fn main() {
    let mut input = Vec::new();
    std::io::stdin().read_to_end(&mut input).unwrap();
    std::io::stdout().write_all(&reference::report::report(&input)).unwrap();
}
