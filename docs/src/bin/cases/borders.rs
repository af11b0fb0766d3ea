//! The borders of document 01 and the points that are easy to misread.
use crate::lines::Cases;
use reference::reader::Kind;
use reference::roster::joined;
use reference::trees::record;

pub fn borders(c: &mut Cases) {
    roster_borders(c, Cases::judge);
    let read = |c: &mut Cases, line: &[u8], text: &[u8], start| c.read(Kind::Species, line, text, start);
    text_borders(c, read);
    limit_borders(c, read);
    writer_borders(c);
    count_borders(c);
    search_borders(c, Cases::search);
    full_searches(c);
    program_borders(c);
    unresolved_borders(c);
}

/// The borders of a roster, for each way of judging one.
pub fn roster_borders(c: &mut Cases, judge: impl Fn(&mut Cases, &[u8])) {
    for line in [
        &b""[..], b" ", b"a", b"a ", b" a", b"a  b", b"a  ", b"ab ab!", b"ab!ab", b"a b a", b"a A", b"A a", b"a\r", b"a\tb", b"a\n", b"a_b",
        b"abcdefghijklmno", b"abcdefghijklmnop", b"b abcdefghijklmnop", b"abcdefghijklmnop b", b"abcdefghijklmnop!", b"0 1 2", b"a-b c", b"Z z 9 0",
        b"@", b"[", b"`", b"{", b"/", b":", b"a\0", b"a\xff",
        b"a b c d e f g h i j k l m n o p", b"a b c d e f g h i j k l m n o p q", b"a b c d e f g h i j k l m n o p a",
        b"a b c d e f g h i j k l m n o p abcdefghijklmnopqrs", b"a b c d e f g h i j k l m n o p ", b"a b c d e f g h i j k l m n o p !",
    ] {
        judge(c, line);
    }
    judge(c, &[b'x'; 65_537]);
}

/// The borders of a text, for each way of reading one.
pub fn text_borders(c: &mut Cases, read: impl Fn(&mut Cases, &[u8], &[u8], usize)) {
    let on = |c: &mut Cases, line: &[u8], texts: &[&[u8]]| texts.iter().for_each(|text| read(c, line, text, 0));
    on(c, b"a b c", &[b"((a,b),c);", b"(c,(b,a));", b"(a,b,c);", b"", b";", b"((a),b,c);", b"(a,b,c)", b"(a,b,c) ;rest", b"  \t\r\n", b"x", b"x-", b"(a,a", b"(a,b);"]);
    on(c, b"a b", &[
        b"(a::70,b:0.5:9);", b"(a:,b);", b"(a:)", b"(a,b)1.5;", b"(a,b)1;", b"(a,b)a;", b"(a,b) b :1 ;", b"()", b"(a,)", b"((a,b))", b"(a;b)", b"a;", b"a:;",
        b"( a , b ) ;", b"(a,b)c d;", b"(a b);", b"(a,b", b"(a,b)", b"(a,b):", b"(a,b)::", b"(a,b)::1", b"(a,b);;", b"(a,b))", b"(,b)", b"(a,(b);", b"a,b;",
        b"(a:123456789012,b);", b"(a:1234567890123,b);", b"(a::123456789012,b:1.2345678901)x:123456789012:123456789012;", b"(a,b:123456789012);", b"(a:123456789012 ,b);",
        b"(a:12345678901.,b);", b"(a,b)'x';", b"(a,b)[x];", b"(a_,b);", b"(ab,b);", b"(a,b)\0;", b"(a,b)\xc3\xa9;", b")", b",", b":", b".", b"-a", b"(a,b):1:2:3;",
    ]);
    on(c, b"a", &[
        b"a;", b"(a);", b"a:0;", b"a:00.00;", b"a:::1;", b"a::1:2;", b"a:1::2;", b"a: :1;", b"a : : 1 ;", b"a :1 : 2 ;", b"a:123456789012;", b"a:123456789012,", b"a:1234567890123;",
        b"a:123456789012.;", b"a:12345678901.;", b"a:12345678901.,", b"a:12345678901.5;", b"a:1234567890.5;", b"a:1.2345678901;", b"a:1.23456789012;", b"a:1.2345678901.;",
        b"a:1. 5;", b"a:1 .5;", b"a:1.", b"a:1", b"a:.5;", b"a:1..2;", b"a:1.2.3;", b"a:-1;", b"a:1e5;", b"a:x;", b"a:1a;", b"a::", b"a:1:", b"a:12 3;", b"a::123456789012;",
        b"a::1234567890123;", b"A;", b"aa;", b"a a;", b"a(;", b"a", b"a ",
    ]);
    on(c, b"7 12", &[b"(7,12);", b"(12,7)7:7:12;", b"(7,1 2);", b"(7,7);", b"(7,121);"]);
    for (text, starts) in [(&b"(a,b);(b,a);"[..], &[0usize, 5, 6, 7, 11, 12, 13, 1000][..]), (b"  a", &[0, 2, 3, 4]), (b"", &[0, 1, usize::MAX])] {
        for &start in starts {
            read(c, b"a b", text, start);
        }
    }
    for line in [&b""[..], b"a  b", b"a a", b"a b c d e f g h i j k l m n o p q"] {
        read(c, line, b"(a,b);", 0);
        read(c, line, &[b' '; 65_537], 70_000);
    }
}

/// The limits of a text, for each way of reading one.
pub fn limit_borders(c: &mut Cases, read: impl Fn(&mut Cases, &[u8], &[u8], usize)) {
    let names = [b"abcdefghijklmno".to_vec(), b"b".to_vec()];
    let line = joined(&names);
    for text in [
        &b"(abcdefghijklmno,b);"[..], b"(abcdefghijklmnop,b);", b"(abcdefghijklmnx,b);", b"(b,b)abcdefghijklmno;", b"(abcdefghijklmno,b)abcdefghijklmno;",
        b"(abcdefghijklmno,b)abcdefghijklmnop;", b"(abcdefghijklmno,b) abcdefghijklmnopq", b"abcdefghijklmnop", b"abcdefghijklmno", b"abcdefghijklmno;",
    ] {
        read(c, &line, text, 0);
    }
    for open in [1, 14, 15, 16, 17] {
        let mut text = vec![b'('; open];
        read(c, b"a b", &text, 0);
        text.extend_from_slice(b"a,b");
        text.extend(vec![b')'; open]);
        text.push(b';');
        read(c, b"a b", &text, 0);
    }
    let sixteen: Vec<Vec<u8>> = (0..16).map(|i| vec![b'a' + i]).collect();
    // a comb of sixteen species opens fifteen parentheses
    for names in [sixteen.clone(), (0..16u8).map(|i| [vec![b'a' + i], vec![b'x'; 14]].concat()).collect()] {
        let mut text = vec![b'('; 15];
        text.extend_from_slice(&names[0]);
        for name in &names[1..] {
            text.push(b',');
            text.extend_from_slice(name);
            text.push(b')');
        }
        text.push(b';');
        read(c, &joined(&names), &text, 0);
        text.insert(0, b'(');
        read(c, &joined(&names), &text, 0);
    }
    for size in [65_535usize, 65_536, 65_537] {
        let mut text = b"(a,b);".to_vec();
        text.resize(size, b' ');
        read(c, b"a b", &text, 0);
        read(c, b"a b", &text, 6);
        read(c, b"a b", &text, size);
        read(c, b"a b", &text, size + 1);
        let mut text = vec![b' '; size - 6];
        text.extend_from_slice(b"(a,b);");
        read(c, b"a b", &text, 0);
        read(c, b"a b", &vec![b'q'; size], 0);
        read(c, b"a b", &vec![b'a'; size], size - 1);
    }
}

fn writer_borders(c: &mut Cases) {
    c.write(b"a b c", &record(&[1, 2, 3, 4, 7]), 10);
    c.write(b"a b c", &record(&[1, 2, 4, 6, 7]), 64);
    for out in [0, 1, 2, 3] {
        c.write(b"a", &record(&[1]), out);
    }
    for out in [8, 9, 10, 11] {
        c.write(b"a b c d", &record(&[1, 2, 4, 8, 15]), out);
    }
    let names: Vec<Vec<u8>> = (0..16u8).map(|i| [vec![b'a' + i], vec![b'9'; 14]].concat()).collect();
    let mut comb: Vec<u16> = (0..16).map(|i| 1 << i).collect();
    comb.extend((1..16).map(|i| ((1u32 << (i + 1)) - 1) as u16));
    for out in [285, 286, 287, 512] {
        c.write(&joined(&names), &record(&comb), out);
    }
    for (line, r) in [(&b"a a"[..], record(&[1, 2, 3])), (b"a b", record(&[1, 2])), (b"a b", [0; 32]), (b"a b", record(&[1, 2, 4, 7])), (b"", [0; 32])] {
        c.write(line, &r, 0);
        c.write(line, &r, 64);
    }
}

/// The records of the examples: `((a,b),(c,d));`, `(((a,b),c),d);`, `((a,c),(b,d));`, `(a,b,c,d);`.
fn example_records() -> [[u16; 32]; 4] {
    [record(&[1, 2, 3, 4, 8, 12, 15]), record(&[1, 2, 3, 4, 7, 8, 15]), record(&[1, 2, 4, 5, 8, 10, 15]), record(&[1, 2, 4, 8, 15])]
}

pub fn count_borders(c: &mut Cases) {
    let [balanced, comb, crossed, star] = example_records();
    for gene in [balanced, star] {
        for species in [balanced, comb, crossed] {
            c.score(4, &gene, 1, &species);
        }
    }
    let bad = record(&[1, 2, 3, 5, 8, 15]);
    let cut = &balanced[..31];
    // each refusal with and without the ones behind it in the order
    for (n, genes, count) in [(0usize, &bad[..], 0usize), (17, &bad, 0), (4, &bad, 0), (4, &bad, 4097), (4, &bad, usize::MAX), (4, cut, 1), (4, &bad, 1), (4, &balanced, 1), (4, &balanced, 2), (usize::MAX, cut, 4097), (3, &balanced, 1), (5, &balanced, 1)] {
        for cluster in [0, 1, 6, 15, 16, 65_536, usize::MAX] {
            c.weight(n, genes, count, cluster);
        }
        for species in [comb, star, bad, [0; 32]] {
            c.score(n, genes, count, &species);
        }
        for out in [0, 15, 16, 17, 40] {
            c.mark(n, genes, count, out);
        }
    }
    let many = [balanced; 4097].concat();
    for count in [1, 4095, 4096, 4097] {
        c.weight(4, &many, count, 5);
        c.score(4, &many, count, &crossed);
        c.mark(4, &many, count, 16);
        c.weight(4, &many[..32 * count - 1], count, 5);
    }
    let mut last_bad = many.clone();
    last_bad[32 * 4095 + 3] = 9;
    c.weight(4, &last_bad, 4096, 5);
    c.weight(4, &last_bad, 4095, 5);
    let two = [balanced, bad].concat();
    c.weight(4, &two, 1, 6);
    c.weight(4, &two, 2, 6);
    c.mark(4, &[crossed, star].concat(), 2, 16);
    c.mark(1, &record(&[1]), 1, 2);
}

/// Unresolved nodes (#101): every cluster of a star, of a node of three beside two leaves, and of two unresolved nodes below one.
fn unresolved_borders(c: &mut Cases) {
    let star = record(&[1, 2, 4, 8, 15]);
    let beside = record(&[1, 2, 4, 7, 8, 16, 31]);
    let below = record(&[1, 2, 4, 7, 8, 16, 32, 56, 63]);
    for (n, gene) in [(4, star), (5, beside), (6, below)] {
        for cluster in 1..1usize << n {
            c.weight(n, &gene, 1, cluster);
        }
        c.weight(n, &[gene; 3].concat(), 3, (1 << n) - 2);
        c.search(n, &[gene; 2].concat(), 2, &vec![1; 1 << n], 1 << n, 1 << n);
    }
}

/// The borders of a search, for each way of calling one.
pub fn search_borders(c: &mut Cases, search: impl Fn(&mut Cases, usize, &[u16], usize, &[u16], usize, usize)) {
    let [balanced, _, crossed, _] = example_records();
    let three = |xs: &[[u16; 32]]| xs.concat();
    let (ab, ac, bc) = (record(&[1, 2, 3, 4, 7]), record(&[1, 2, 4, 5, 7]), record(&[1, 2, 4, 6, 7]));
    search(c, 3, &three(&[ab, ab, ac]), 3, &[1; 8], 8, 8);
    search(c, 3, &three(&[ab, ac, bc]), 3, &[1; 8], 9, 10);
    let own: Vec<u16> = (0..16).map(|a| [1, 2, 3, 4, 8, 15].contains(&a) as u16).collect();
    search(c, 4, &record(&[1, 2, 3, 4, 8, 15]), 1, &own, 16, 16);
    let pair: Vec<u16> = (0..16).map(|a| (a == 3 || a == 12) as u16).collect();
    search(c, 4, &crossed, 1, &pair, 16, 16);
    search(c, 1, &record(&[1]), 1, &[1, 1], 2, 2);
    search(c, 1, &record(&[1]), 1, &[0, 0], 3, 3);
    search(c, 2, &record(&[1, 2, 3]), 1, &[0; 4], 4, 4);
    let bad = record(&[1, 2, 3, 5, 8, 15]);
    for first in [0, 1, 2, 255] {
        let mut allowed = [1u16; 17];
        allowed[0] = first;
        allowed[16] = 9;
        search(c, 4, &balanced, 1, &allowed, 20, 18);
        allowed[9] = 2;
        search(c, 4, &balanced, 1, &allowed, 20, 18);
        search(c, 4, &bad, 1, &allowed, 20, 18);
        search(c, 4, &bad, 0, &allowed, 20, 18);
        search(c, 0, &bad, 0, &allowed, 20, 18);
    }
    for (allowed, scores, splits) in [(15, 16, 16), (16, 15, 16), (16, 16, 15), (16, 16, 16)] {
        search(c, 4, &balanced, 1, &vec![1; allowed], scores, splits);
        search(c, 4, &balanced[..31], 1, &vec![1; allowed], scores, splits);
        search(c, 4, &bad, 1, &vec![1; allowed], scores, splits);
    }
}

/// As many gene trees as there may be, and one more.
fn full_searches(c: &mut Cases) {
    let [balanced, _, crossed, _] = example_records();
    let many = [crossed, balanced].concat().repeat(2048);
    c.search(4, &many, 4096, &[1; 16], 16, 16);
    c.search(4, &many, 4097, &[1; 16], 16, 16);
}

fn program_borders(c: &mut Cases) {
    for input in [
        &b"a b c\nall\n((a,b),c);\n((a,c),b);\n"[..], b"a b c d\nall\n(a,(b,(c,d)));\n(((a,c),b),d);\n(((a,d),b),c);", b"a b c d\ngenes\n(a,(b,(c,d)));\n(((a,c),b),d);\n(((a,d),b),c);",
        b"a b c d\ngenes\n((a,b),c,d);", b"a b c d\ngenes\n((a,b),c,d);((a,b),(c,d));", b"a\nall\na;", b"a\ngenes\na;", b"", b"\n", b"a", b"a b", b"a b\n", b"a b\nall", b"a b\nALL", b"a b\nallgenes", b"a b\nmost(a,b);", b"a  b\nmost", b"a b c d e f g h i j k l m\nmost", b"a b\n all\n", b"a b\nall\r\n",
        b"a b\nALL\n", b"a b\n\n", b"a b\nall\n", b"a b\ngenes\n \t\r\n", b"a b\nallgenes\n", b"a b\ngene\n", b"a b\ngenes \n", b"a  b\nall\n", b"a b\nall\n(a,b);(a,x);", b"a b\nall\n(a,b); a;", b"a b\nall\n(a,b)",
        b"a b c d e f g h i j k l m", b"a b c d e f g h i j k l m\nall\n", b"a b c d e f g h i j k l m n o p q\nall\n", b"a b\nall\n(a,b);;", b"a b\r\nall\n(a,b);",
        b"a b\nall\n(a,b):1234567890123;", b"a b\nall\n(a,b)abcdefghijklmnop;", b"a b\nall\n(b,a);(a,a);", b"a b\ngenes\n((a),b);", b"a b\nall\n((((((((((((((((a,b);",
    ] {
        c.report(input);
    }
    for trees in [511, 512, 513, 514] {
        let input = [&b"a b\nall\n"[..], &b"(a,b); ".repeat(trees)].concat();
        c.report(&input);
        let faulty = [&b"a b\nall\n"[..], &b"(b,a);\n".repeat(trees), b"(a,c);"].concat();
        c.report(&faulty);
    }
    for size in [65_536usize, 65_537] {
        let mut input = b"a b\ngenes\n(a,b);".to_vec();
        input.resize(size, b'\n');
        c.report(&input);
        c.report(&vec![b' '; size]);
    }
}
