//! Prints the case file: the borders of document 01 by hand, then cases from a fixed seed, then those of requests that came later.
mod borders;
mod counts;
mod drawn;
mod lines;
mod lost;
mod plain;
mod quotes;
mod sheet;
mod shelf;
mod stand;
mod supports;
mod ties;
mod unrooted;

use std::io::Write;

fn main() {
    let mut cases = lines::Cases::default();
    borders::borders(&mut cases);
    let seeded = &mut reference::seeded::Seeded::new(20_261_115);
    drawn::drawn(&mut cases, seeded);
    lost::lost(&mut cases, seeded);
    quotes::quotes(&mut cases, seeded);
    supports::supports(&mut cases, seeded);
    unrooted::unrooted(&mut cases, seeded);
    ties::ties(&mut cases, seeded);
    plain::plain(&mut cases, seeded);
    sheet::sheet(&mut cases, seeded);
    counts::counts(&mut cases, seeded);
    // those of #110 and #112 are stored as soon as `vectors` reads their letters; until then `cases coming` prints them too
    if std::env::args().any(|word| word == "coming") {
        stand::stand(&mut cases, seeded);
        shelf::shelf(&mut cases, seeded);
    }
    let mut out = std::io::stdout().lock();
    for line in &cases.lines {
        out.write_all(line).unwrap();
        out.write_all(b"\n").unwrap();
    }
}
