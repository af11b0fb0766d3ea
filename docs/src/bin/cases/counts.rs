//! Trees that come with branch counts (#114): the borders by hand, then cases from a seed.
use crate::lines::Cases;
use reference::counts::write_counts;
use reference::roster::joined;
use reference::seeded::Seeded;
use reference::trees::{record, Record};

pub fn counts(c: &mut Cases, s: &mut Seeded) {
    faults_of_a_node(c);
    order(c);
    written(c);
    (0..120).for_each(|_| drawn(c, s));
    (0..80).for_each(|_| other_trees(c, s));
    twelve(c, s);
    farther(c);
}

/// A fault behind another start, a second gene record at fault, and counts that 32 bits do not hold.
fn farther(c: &mut Cases) {
    let (good, bad) = (record(&[1, 2, 3, 4, 7]), record(&[1, 2, 3, 5, 7]));
    for text in [&b"(x);;((a:0,b:1):0,c:0):0;"[..], b"(x);;((a:0,b:0):0,c:0);", b"(x);;((a:0,b:0)ab:1,'c':0):0;"] {
        c.check(b"a b c", text, 5, &good, 1, [8, 8]);
    }
    let second = [good, bad, bad].concat();
    for text in [&b"((a:0,b:0):0,c:0):0;"[..], b"((a:0,b:1):0,c:0):0;"] {
        c.check(b"a b c", text, 0, &second, 3, [8, 8]);
    }
    c.write_counts(b"a b c", &second, 3, &good, 64);
    c.write_counts(b"a b c", &second, 3, &good, 0);
    for count in ["999999999999", "4294967296", "4294967297", "65536", "65537", "1000"] {
        let text = format!("((a:0,c:0):{count},b:0):0;");
        c.check(b"a b c", text.as_bytes(), 0, &good, 1, [8, 8]);
    }
}

/// `((a,b),c);` over itself weighs 0 everywhere; `((a,c),b);` over it weighs 1 at a,c.
fn faults_of_a_node(c: &mut Cases) {
    let ab = record(&[1, 2, 3, 4, 7]);
    let on = |c: &mut Cases, text: &[u8]| c.check(b"a b c", text, 0, &ab, 1, [8, 8]);
    for text in [
        &b"((a:0,b:0):0,c:0):0;"[..], b"((a:0,c:0):1,b:0):0;", b"((a:0,c:0):0,b:0):0;", b"((a:0,c:0):2,b:0):0;", b"((a:00,c:000):001,b:000000000000):0;",
        b"((a:0,b:0):0,c:0);", b"((a:0,b:0):0,c):0;", b"((a:0,b:0),c:0):0;", b"((a:0,b):0,c:0):0;", b"((a,b:0):0,c:0):0;", b"((a,b),c);", b"((a:1,b:1):1,c:1):1;",
        b"((a:0.0,b:0):0,c:0):0;", b"((a:0,b:0):0.000,c:0):0;", b"((a:0:0,b:0):0,c:0):0;", b"((a:0,b:0):0:0,c:0):0;", b"((a:0,b:0):0,c:0)::0;", b"((a::0,b:0):0,c:0):0;", b"((a:0,b:0)::0,c:0):0;", b"((a:0,b:0):0,c:0):0:7;",
        b" ( ( a : 0 , b : 0 ) : 0 , c : 0 ) : 0 ; rest", b"((a:0,b:0)x:0,c:0)'it''s (':0;", b"(('a':0,'b':0)a:0,'c':0)b:0;", b"((a:0,b:0)x :0,c:0)y:1;", b"((a:0,b:0)x:1,c:0):0;", b"((a:0,b:0) x:0,'c':1):0;", b"((a:0,'b':1):0,c:0):0;", b"((a:0,'b' :0):0,c :1):0;",
        b"((a:000000000001,b:0):0,c:0):0;", b"((a:0000000000000,b:0):0,c:0):0;", b"(a:0,b:0,c:0):0;", b"(a,b,c);", b"((a:0,b:0):0):0;", b"((a:0,b:0):0,c:0):0", b"((a:0,b:0):0,a:0):0;", b"(a:0,b:0):0;", b"((((((((((((((((a:0,", b"",
        b"((a:0,b:0):9,c:9):9;", b"(c:9,(a:0,b:0):9):9;", b"(c:0,(b:0,a:9):9):9;", b"(c:0,(b:0,a:0):0):9;",
    ] {
        on(c, text);
    }
    for count in ["4095", "4096", "4097", "0004096", "04095.0"] {
        let text = format!("((a:0,c:0):{count},b:0):0;");
        c.check(b"a b c", text.as_bytes(), 0, &[ab; 4096].concat(), 4096, [8, 8]);
    }
    // 7 weighs 1 over the balanced tree, and 0 without a root; over the star every cluster weighs 0
    for weight in 0..3 {
        let text = format!("(((a:0,b:0):0,c:0):{weight},d:0):0;");
        c.check(b"a b c d", text.as_bytes(), 0, &record(&[1, 2, 3, 4, 8, 12, 15]), 1, [16, 16]);
        c.check(b"a b c d", text.as_bytes(), 0, &record(&[1, 2, 4, 8, 15]), 1, [16, 16]);
        // a gene tree of a, c and d
        c.check(b"a b c d", text.as_bytes(), 0, &record(&[1, 4, 8, 12, 13]), 1, [16, 16]);
    }
    c.check(b"a", b"a:0;", 0, &record(&[1]), 1, [2, 2]);
    c.check(b"a", b"a;", 0, &record(&[1]), 1, [2, 2]);
    c.check(b"a", b"a:1;", 0, &record(&[1]), 1, [2, 2]);
    c.check(b"'a b' c", b"(a_b:0,'c':0):0;", 0, &record(&[1, 2, 3]), 1, [4, 4]);
    c.check(b"'a b' c", b"('a b':1,c:1):0;", 0, &record(&[1, 2, 3]), 1, [4, 4]);
    for start in [0, 4, 5, 24, 25, 26] {
        c.check(b"a b c", b"(x);;((a:0,b:0):0,c:0):0;", start, &ab, 1, [9, 10]);
    }
}

/// Each refusal with those behind it in the order: 1, 2, the reader's own, 11, 12, 16, 15, 23.
fn order(c: &mut Cases) {
    let (good, bad) = (record(&[1, 2, 3, 4, 7]), record(&[1, 2, 3, 5, 7]));
    let texts: [&[u8]; 5] = [b"((a:0,b:0):0,c:0):0;", b"((a:9,b:0):0,c:0):0;", b"(a:9,b:0,c:0):0;", b"((a:9,b:0):0,c:0):0", b"((a:9,b:0):0,x:0):0;"];
    for line in [&b"a b c"[..], b"a b  c", b"a b c d"] {
        for text in texts {
            for (genes, count) in [(&good[..], 1), (&bad, 1), (&bad, 0), (&bad, 4097), (&good[..31], 1), (&good, 2)] {
                c.check(line, text, 0, genes, count, [8, 8]);
            }
        }
    }
    let long = [&b"((a:0,b:0):0,c:0):0;"[..], &[b' '; 65_517]].concat();
    c.check(b"a b c", &long, 0, &bad, 0, [0, 0]);
    c.check(b"a b c", &long[..65_536], 0, &good, 1, [8, 8]);
    for (scores, splits) in [(7, 8), (8, 7), (8, 8), (9, 11)] {
        for text in texts {
            c.check(b"a b c", text, 0, &bad, 1, [scores, splits]);
            c.check(b"a b c", text, 0, &good, 1, [scores, splits]);
        }
    }
}

fn written(c: &mut Cases) {
    let (good, bad, star) = (record(&[1, 2, 3, 4, 7]), record(&[1, 2, 3, 5, 7]), record(&[1, 2, 4, 7]));
    let other = record(&[1, 2, 4, 5, 7]);
    for line in [&b"a b c"[..], b"a  b c", b"a b c d", b"'a b' _ 'it''s'"] {
        for (genes, count) in [(&good[..], 1), (&other, 1), (&bad, 1), (&good, 0), (&good, 4097), (&good[..31], 1)] {
            for species in [good, star, bad] {
                c.write_counts(line, genes, count, &species, 64);
            }
        }
    }
    for out in [0, 19, 20, 21, 64] {
        c.write_counts(b"a b c", &other, 1, &good, out);
        c.write_counts(b"a b c", &bad, 1, &good, out);
    }
    c.write_counts(b"a b c", &[other; 4096].concat(), 4096, &good, 64);
    c.write_counts(b"a", &record(&[1]), 1, &record(&[1]), 4);
    // sixteen names of thirty-two bytes in quotes, and weights of five digits
    let names: Vec<Vec<u8>> = (0..16u8).map(|i| [&[b'a' + i][..], &[b'\''; 14]].concat()).collect();
    let comb = |order: &[u16]| {
        let mut clusters = order.to_vec();
        clusters.extend((2..=16).map(|k| order[..k].iter().sum::<u16>()));
        record(&clusters)
    };
    let rising: Vec<u16> = (0..16).map(|i| 1 << i).collect();
    let mixed: Vec<u16> = (0..16).map(|i| 1 << (i * 7 % 16)).collect();
    let genes = [comb(&mixed); 4096].concat();
    let text = with_counts(&joined(&names), &genes, 4096, &comb(&rising));
    for out in [600, text.len() - 1, text.len(), 744] {
        c.write_counts(&joined(&names), &genes, 4096, &comb(&rising), out);
    }
    // every count is right but the root's
    let wrong = [&text[..text.len() - 2], b"1;"].concat();
    c.check(&joined(&names), &wrong, 0, &genes, 4096, [1 << 16, 1 << 16]);
}

fn genes(s: &mut Seeded, n: usize) -> (Vec<u16>, usize) {
    let count = 1 + s.below(4);
    ((0..count).flat_map(|_| s.gene_on_kept(n, false)).collect(), count)
}

/// The text of a tree with its counts as the library would write it.
fn with_counts(line: &[u8], genes: &[u16], count: usize, species: &Record) -> Vec<u8> {
    let mut out = vec![0; 744];
    let length = write_counts(line, genes, count, species, &mut out).unwrap();
    out.truncate(length);
    out
}

/// Written and checked: as it stands, with a byte changed, and with blanks put in.
fn drawn(c: &mut Cases, s: &mut Seeded) {
    let n = 1 + s.below(7);
    let names = if s.one_in(2) { s.names(n) } else { s.printables(n) };
    let line = s.labels(&names).join(&b' ');
    let (genes, count) = genes(s, n);
    let species = s.gene(n, true);
    let text = with_counts(&line, &genes, count, &species);
    c.write_counts(&line, &genes, count, &species, text.len() + s.below(3) - s.below(2));
    let text = match s.below(4) {
        0 => text,
        1 => s.damaged(text),
        2 => {
            // one digit changed
            let digits: Vec<usize> = (0..text.len()).filter(|&i| text[i].is_ascii_digit()).collect();
            let mut text = text;
            let at = digits[s.below(digits.len())];
            text[at] = b'0' + s.below(3) as u8;
            text
        }
        _ => {
            // something behind one node
            let colons: Vec<usize> = (0..text.len()).filter(|&i| text[i] == b':').collect();
            let at = colons[s.below(colons.len())];
            let put: &[u8] = [&b":"[..], b" ", b":0", b":0 ", b" : ", b"x"][s.below(6)];
            [&text[..at], put, &text[at + s.below(2)..]].concat()
        }
    };
    c.check(&line, &text, 0, &genes, count, [(1 << n) + s.below(2), (1 << n) + s.below(2)]);
}

/// Texts with numbers of their own, most of them wrong, and trees that are not binary.
fn other_trees(c: &mut Cases, s: &mut Seeded) {
    let n = 1 + s.below(5);
    let names = s.names(n);
    let text = s.text(&names);
    let (genes, count) = genes(s, n);
    c.check(&joined(&names), &text, 0, &genes, count, [1 << n, 1 << n]);
}

/// Twelve and sixteen species, passed, and with the root's count missing.
fn twelve(c: &mut Cases, s: &mut Seeded) {
    for n in [12, 16] {
        let names = s.names(n);
        let genes: Vec<u16> = (0..6).flat_map(|_| s.gene(n, true)).collect();
        let text = with_counts(&joined(&names), &genes, 6, &s.gene(n, true));
        c.check(&joined(&names), &text, 0, &genes, 6, [1 << n, 1 << n]);
        let cut = text.len() - 3;
        c.check(&joined(&names), &[&text[..cut], b";"].concat(), 0, &genes, 6, [1 << n, 1 << n]);
    }
}
