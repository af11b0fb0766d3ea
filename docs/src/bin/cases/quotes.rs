//! Labels with blanks and quotes (#103): the borders by hand, then cases from a seed.
use crate::lines::Cases;
use crate::lost::both;
use reference::label::in_quotes;
use reference::reader::Kind;
use reference::roster::joined;
use reference::seeded::Seeded;
use reference::trees::{record, Record};
use reference::writer;

pub fn quotes(c: &mut Cases, s: &mut Seeded) {
    single_bytes(c);
    one_name_in_two_forms(c);
    labels_everywhere(c);
    roster_faults(c);
    rosters_of_sixteen(c);
    text_faults(c);
    starts_within_labels(c);
    inner_labels(c);
    program_inputs(c);
    written_names(c);
    longest_texts(c);
    (0..120).for_each(|_| roster(c, s));
    (0..120).for_each(|_| text(c, s));
    (0..80).for_each(|_| write(c, s));
    (0..60).for_each(|_| input(c, s));
}

/// The tree with all species below one node.
fn star(n: usize) -> Record {
    let singles: Vec<u16> = (0..n).map(|i| 1 << i).collect();
    if n == 1 {
        return record(&singles);
    }
    record(&[&singles[..], &[((1u32 << n) - 1) as u16]].concat())
}

/// The binary tree (..((0,1),2)..).
fn comb(n: usize) -> Record {
    let singles = (0..n).map(|i| 1 << i);
    let joins = (1..n).map(|i| ((1u32 << (i + 1)) - 1) as u16);
    record(&singles.chain(joins).collect::<Vec<u16>>())
}

/// Every byte bare, and between quotes, in a roster and a text; every printable byte as a name.
fn single_bytes(c: &mut Cases) {
    for byte in 0..=255 {
        let quoted = [b'\'', b'a', byte, b'b', b'\''];
        c.judge(&quoted);
        c.judge(&[byte]);
        c.read(Kind::Gene, b"a_b 'a''b'", &[&quoted[..], b";"].concat(), 0);
        c.read(Kind::Gene, b"a _", &[byte, b';'], 0);
    }
    let printable: Vec<Vec<u8>> = (32..127).map(|byte| vec![byte]).collect();
    for names in printable.chunks(16) {
        let quoted: Vec<Vec<u8>> = names.iter().map(|name| in_quotes(name)).collect();
        let (plain, all_quoted) = (joined(names), quoted.join(&b' '));
        c.judge(&plain);
        c.judge(&all_quoted);
        c.read(Kind::Species, &plain, &[b"(", &quoted.join(&b',')[..], b");"].concat(), 0);
        c.read(Kind::Species, &all_quoted, &writer::text(names, &star(names.len())), 0);
        c.write(&all_quoted, &star(names.len()), 128);
    }
}

/// Names are compared decoded, so that both forms of a name are one name, on the roster and in a tree.
fn one_name_in_two_forms(c: &mut Cases) {
    for line in [
        &b"a_b 'a b'"[..], b"'a b' a_b", b"'a' a", b"a 'a'", b"c a_b d 'a b'", b"_ ' '", b"__ ' '", b"'_' _", b"a_b 'a_b'", b"'a b' 'a_b' ab", b"'a' 'A'",
        b"'a''b' 'a''''b'", b"'a''b' 'a''b'", b"a_ a", b"_a a", b"a_b b_a 'b a'",
    ] {
        c.judge(line);
    }
    for line in [&b"a_b c"[..], b"'a b' c", b"'a b' 'c'", b"'a_b' c", b"ab c", b"a__b c", b"A_b c"] {
        for text in [&b"(a_b,c);"[..], b"('a b',c);", b"('c','a b');", b"('a_b',c);", b"(a__b,c);", b"('a  b',c);", b"(a b,c);", b"(a_b,'a b');", b"('a b',a_b);", b"(c,'c');", b"('c'"] {
            both(c, line, text, 0);
        }
    }
    for (line, clusters) in [(&b"'a b' c"[..], &[1u16, 2, 3][..]), (b"'a_b' 'c'", &[1, 2, 3]), (b"'_' _", &[1, 2, 3]), (b"'a'", &[1])] {
        c.write(line, &record(clusters), 20);
    }
}

/// Labels that are good, and labels with each fault, at the border of fifteen and sixteen bytes among them.
pub fn border_labels() -> Vec<Vec<u8>> {
    let mut labels: Vec<Vec<u8>> = [
        &b"a"[..], b"_", b"_a_", b"a'", b"'a'", b"'a", b"'", b"''", b"'''", b"''''", b"'''''", b"''''''", b"''a", b"''a'", b"'''a'", b"'a'''", b"'a''", b"'a'b", b"'a'b'",
        b"a'b'", b"'a'_", b"'a'''b'", b"'a' ", b"' a", b"' '", b"'' '", b"' a '", b"'  '",
        b"'a'\t", b"'a\tb'", b"'\x1f'", b"'\x7f'", b"'\x80'", b"'\xff'", b"'\n'", b"'\r'", b"'\0'", b"'a\x1f", b"'\x7f", b"''\x7f", b"'~'", b"'a,b'", b"'(a,b);'",
        b"':1'", b"';'", b"'[a]'", b"'a:b'", b"'),('", b"'\\'", b"'|'", b"\"a\"", b"`a`", b"'\"'",
    ]
    .iter()
    .map(|label| label.to_vec())
    .collect();
    for bare in [b'x', b'_'] {
        labels.extend([14, 15, 16, 17].map(|length| vec![bare; length]));
    }
    labels.push(b"xxxxxxxxxxxxxx_".to_vec());
    labels.push(b"xxxxxxxxxxxxxxx_".to_vec());
    labels.push(b"xxxxxxxxxxxxxxx'".to_vec());
    // fourteen or fifteen bytes, then what may be the fifteenth, the sixteenth, the end, or none
    for full in [[b'x'; 14].to_vec(), [b'x'; 15].to_vec(), [b'\''; 28].to_vec(), [b'\''; 30].to_vec()] {
        for last in [&b""[..], b"'", b"''", b"'''", b"''''", b"'''''", b"y'", b"y", b"yy'", b"y''", b"y'''", b"''y'", b"_'", b" '", b"\x7f", b"\x1f'", b"'y", b"' "] {
            labels.push([b"'", &full[..], last].concat());
        }
    }
    labels
}

/// Each label on a roster and in a tree, alone and among others, as a leaf's and as an inner node's.
fn labels_everywhere(c: &mut Cases) {
    let quotes = [b'\''; 32];
    let line = [b"x a a_b '''' ", &quotes[..], b" xxxxxxxxxxxxxxx 'xxxxxxxxxxxxxx'''"].concat();
    for label in border_labels() {
        c.judge(&label);
        c.judge(&[b"b ", &label[..], b" c"].concat());
        for (before, behind) in [(&b""[..], &b""[..]), (b"", b";"), (b"(x,", b" ) ;"), (b"(x,''''", b"")] {
            c.read(Kind::Gene, &line, &[before, &label, behind].concat(), 0);
        }
        c.read(Kind::Gene, &line, &[b"(x,a_b) ", &label[..]].concat(), 0);
        c.read(Kind::Gene, &line, &[b"(x,a_b)", &label[..], b":1;"].concat(), 0);
    }
}

/// Of several places at fault the least, and names with a fault of their own, which are not compared.
fn roster_faults(c: &mut Cases) {
    for line in [
        &b"a 'a"[..], b"a 'a ", b"'a' 'a", b"a_b 'a b", b"'a b' c 'a b", b"a 'b c", b"a 'b c d", b"a ''", b"a '' b", b"'' ''", b"a ''b", b"a '''", b"'''' '''",
        b"'''' ''''", b"a 'a'b", b"a 'b'b", b"'a''a'", b"'a'a", b"'a''a", b"a'a'", b"a 'a\x7f'", b"a 'a'\x7f",
        b"'a'  b", b"'a' ", b"'a'\tb", b"'a'\r", b"'a\r'", b" 'a'", b"'a' 'b' 'a'", b"'a b' 'c d'", b"'a b 'c d'", b"'a' b 'c' b", b"a b_c 'b c'd", b"a_b! a_b",
        b"a_b a_b!", b"'a b'! 'a b'", b"'a b' 'a b'!", b"a '\x1f' a", b"a a '\x1f'", b"'a\n' 'a\n'",
        b"'abcdefghijklmnop abcdefghijklmnop'", b"abcdefghijklmno 'abcdefghijklmno'", b"abcdefghijklmno 'abcdefghijklmnop'", b"abcdefghijklmno 'abcdefghijklmno",
        b"'abcdefghijklmno' abcdefghijklmno_", b"_______________ '               '", b"_______________ '                '",
    ] {
        c.judge(line);
        c.read(Kind::Gene, line, b"a;", 0);
        c.write(line, &record(&[1]), 40);
    }
    c.judge(&[b'\''; 65_537]);
    c.judge(&[b'_'; 65_537]);
    c.judge(&[&b"'a"[..], &[b' '; 65_535]].concat());
}

/// Sixteen names and what may follow them: the seventeenth is at fault at its first byte, whatever else is wrong with it.
fn rosters_of_sixteen(c: &mut Cases) {
    let mut names: Vec<Vec<u8>> = (b'a'..=b'l').map(|b| vec![b]).collect();
    names.extend([&b"m m"[..], b"n_n", b"''", b" "].map(|name| name.to_vec()));
    let quoted = names.iter().map(|name| in_quotes(name)).collect::<Vec<_>>().join(&b' ');
    for sixteen in [joined(&names), quoted] {
        for behind in [
            &b""[..], b" ", b" 'q'", b" q", b" _", b" 'a'", b" a", b" 'q", b" 'a", b" ''", b" '", b" '\x7f'", b" 'abcdefghijklmnop'", b" !", b"'", b"!", b"'q'", b"  'q'", b"\t'q'",
        ] {
            c.judge(&[&sixteen, behind].concat());
        }
    }
    let fifteen = joined(&names[..15]);
    for behind in [&b" '"[..], b" 'a", b" 'q", b" ''", b" 'a'", b" 'm m'", b" m_m", b" 'q' 'r", b" 'q' 'q", b" 'q' ", b" ' "] {
        c.judge(&[&fifteen, behind].concat());
    }
}

/// What is met first: 5 and 6 when the label has ended, before what stands behind it; 4 before them; 9 at the end.
fn text_faults(c: &mut Cases) {
    for text in [
        &b"'x'"[..], b"'x'b;", b"'x';", b"'a'b;", b"'a'", b"'a' ", b"'a';", b"'a';'", b"'a' 'c d';", b"'a''c d';", b"a'c d';", b"a 'c d';", b"x'c d';", b"('a',a);",
        b"('a','a'", b"('a','a", b"('a','a'b", b"(a,'a'');", b"('a','c d','it''s');", b"(a,c_d,'it''s');",
        b"(a,c_d,it_s);", b"(a,c_d,it's);", b"(c_d,'c d');", b"('c d',c_d", b"(c_d,'c_d');", b"('c d", b"('c d,a);", b"('c d;", b"('c d');", b"('a',('c d','it''s'));",
        b"( 'a' , \t'c d'\n, 'it''s'\r) ;", b"('a':1,'c d':2:3,'it''s'::4);", b"('a' :1,c_d);", b"'a':;", b"'a'1;", b"'a'.;",
        b"('a'('c d','it''s'));", b"('a'),c_d;", b"('');", b"('',a);", b"(a,'');", b"('';", b"''", b"''a';", b"'", b"(a,'", b"(a,' ", b"(a,'\n');", b"(a,'c\nd');",
        b"(a,'c\td');", b"(a,c\td);", b"(a,c__d);", b"(a,_c_d);", b"(_,a);", b"_;", b"__", b"_a;", b"a_;", b"(a,-);", b"(a,\"c d\");",
    ] {
        both(c, b"a 'c d' 'it''s'", text, 0);
    }
    let names: Vec<Vec<u8>> = [&b"(a,b);"[..], b",", b":1", b"[x]", b";", b") ("].iter().map(|name| name.to_vec()).collect();
    both(c, &joined(&names), &writer::text(&names, &comb(6)), 0);
    both(c, &joined(&names), b"(',',(':1','[x]'),(';','(a,b);'),') (');", 0);
    both(c, &joined(&names), b"(',',:1,'[x]');", 0);
    both(c, &joined(&names), b"(',','(a,b);');a';", 0);
    for size in [65_536usize, 65_537] {
        let mut text = [&b"'a"[..], &vec![b' '; size - 3], b"'"].concat();
        c.read(Kind::Gene, b"a", &text, 0);
        text[0] = b' ';
        c.read(Kind::Gene, b"a", &text, size - 1);
        c.read(Kind::Gene, b"a", &vec![b'\''; size], 0);
        c.read(Kind::Gene, b"''''", &vec![b'\''; size], size - 4);
        c.read(Kind::Gene, b"a", &[&vec![b' '; size - 4][..], b"'a';"].concat(), 0);
    }
}

/// Reading that starts within a label, or at any other offset: what stands before does not matter.
fn starts_within_labels(c: &mut Cases) {
    for (line, text) in [(&b"a '''' 'a b'"[..], &b"'a b';''''; 'a';"[..]), (b"'a' b", b"('a''b',b)")] {
        for start in 0..=text.len() + 1 {
            c.read(Kind::Gene, line, text, start);
        }
    }
}

/// Inner names are judged for form and length alone.
fn inner_labels(c: &mut Cases) {
    for label in [
        &b"'x'"[..], b"x_y", b"_", b"' '", b"'a'", b"a", b"'c d'", b"c_d", b"''''", b"'it''s'", b"'(x)'", b"'x;'", b"'x'y", b"x'y'", b"'x' y", b"x 'y'", b"''", b"'''",
        b"'x", b"'x;", b"'x\x7f'", b"'x\n'", b"'fifteen bytes _'", b"'fifteen bytes _\x7f'",
        b"'sixteen bytes _ '", b"'sixteen bytes _'''", b"fifteen_bytes__", b"sixteen_bytes___", b"'x':1", b"'x' :1:2", b"'x'::1", b"'x':", b"'x'1", b"'x'.5", b"'x'(",
        b"'x')", b"'x',", b"'x'''", b"\t'x'\n", b"\"x\"",
    ] {
        both(c, b"a c_d", &[b"(a,'c d')", label, b";"].concat(), 0);
        c.read(Kind::Gene, b"a c_d e", &[b"((a,c_d) ", label, b" ,e) ", label, b" ;"].concat(), 0);
    }
}

fn program_inputs(c: &mut Cases) {
    for trees in [
        &b"(('a',c_d),'it''s');"[..], b"((a,'c d'),'it''s')'in;ner':1:2 ;\n('it''s',a)__::3;", b"('c d','it''s',' ');\n(_,a);", b"('a','a');", b"('a',a", b"('a','b');",
        b"'a;", b"'a\n';", b"'a'b;", b"'';", b"a;'", b"(a,c_d)'", b"(a,c_d)'x\n';", b"(a,'sixteen bytes _ ');", b"(a,c_d)'sixteen bytes _ ';",
        b"(a,c d);", b"(a,its);", b"'it''s';' ';", b"('it''s',(' ',c_d));(a,(_,'c d'));",
    ] {
        for roster in [&b"a 'c d' 'it''s' _\nall\n"[..], b"'a' c_d 'it''s' ' '\ngenes\n"] {
            c.report(&[roster, trees].concat());
        }
    }
    for input in [
        &b"'a\nall\na;"[..], b"'a\n'\nall\na;", b"'a' 'a\nall\na;", b"a_b 'a b'\nall\na;", b"''\nall\na;", b"a 'all\n'\nall\na;", b"'a\nb' c\nall\nc;", b"'a'", b"'a' ",
        b"'", b"'a'\n", b"'a'\n'all'\na;", b"'a'\nall'\na;", b"_\nall\n_;", b"' '\ngenes\n' ';", b"''''\nall\n'''';", b"'a'\r\nall\na;",
        b"a b c d e f g h i j k 'l'\nall\n(a,'b');", b"a b c d e f g h i j k l 'm'\nall\na;", b"a b c d e f g h i j k l 'm\nall\na;",
        b"a b c d e f g h i j k l m n o p 'q\nall\na;", b"a b c d e f g h i j k l m n o p ''\nall\na;", b"'all' 'genes'\nall\n(all,genes);", b"'\nall\n' b\nall\nb;",
    ] {
        c.report(input);
    }
    for size in [65_536usize, 65_537] {
        c.report(&[&b"'a b'\nall\na_b;"[..], &vec![b' '; size - 14], b"'"].concat());
        c.report(&[&b"'"[..], &vec![b' '; size - 1]].concat());
    }
}

/// The writer's two forms, with as many bytes lent as the text has and with one less.
fn written_names(c: &mut Cases) {
    for names in [
        &[&b"a"[..]][..], &[b" "], &[b"_"], &[b"'"], &[b"''"], &[b"a b"], &[b"a_b"], &[b"a'b"], &[b"a-b"], &[b"  "], &[b"Az 09"], &[b"fifteen bytes a"],
        &[b"fifteen bytes_a"], &[b"'''''''''''''''"], &[b"               "], &[b"~"], &[b"!"], &[b"@"], &[b"["], &[b"`"], &[b"{"], &[b"/"], &[b":"],
        &[b"a b", b"a_b"], &[b"'", b"''", b"'''"], &[b"(", b")", b",", b";"], &[b"a", b" a", b"a ", b" a ", b"a'"],
    ] {
        let names: Vec<Vec<u8>> = names.iter().map(|name| name.to_vec()).collect();
        let length = writer::text(&names, &comb(names.len())).len();
        for out in [length - 1, length, length + 1] {
            c.write(&joined(&names), &comb(names.len()), out);
        }
        both(c, &joined(&names), &writer::text(&names, &star(names.len())), 0);
    }
    let five = b"'it''s' c_d '-' e '(,)'";
    for clusters in [&[1u16][..], &[2], &[4], &[1, 4, 5], &[2, 8, 10], &[1, 2, 3, 16, 19], &[4, 8, 16, 28]] {
        [9, 15, 40].iter().for_each(|&out| c.write(five, &record(clusters), out));
    }
}

/// Names with the longest labels: fifteen quotes, then fourteen and another byte.
fn longest_names(n: usize) -> Vec<Vec<u8>> {
    (0..n as u8).map(|i| [&[b'\''; 14][..], &[if i == 0 { b'\'' } else { b'`' + i }]].concat()).collect()
}

/// The longest text that sixteen names have, 543 bytes, and the longest of the program's twelve.
fn longest_texts(c: &mut Cases) {
    let names = longest_names(16);
    let (line, text) = (joined(&names), writer::text(&names, &comb(16)));
    assert_eq!(text.len(), 543);
    c.judge(&line);
    for out in [542, 543, 544, 558, 1024] {
        c.write(&line, &comb(16), out);
    }
    both(c, &line, &text, 0);
    both(c, &line, &text[..542], 0);
    both(c, &line, &writer::text(&names, &star(16)), 0);
    let mut longer = text.clone();
    longer.insert(20, b'\'');
    both(c, &line, &longer, 0);
    let names = longest_names(12);
    let text = writer::text(&names, &comb(12));
    assert_eq!(text.len(), 407);
    for mode in [&b"\nall\n"[..], b"\ngenes\n"] {
        c.report(&[&joined(&names), mode, &text].concat());
        c.report(&[&joined(&names), mode, &text.repeat(100)].concat());
    }
}

fn roster(c: &mut Cases, s: &mut Seeded) {
    let n = if s.one_in(4) { 15 + s.below(3) } else { 1 + s.below(6) };
    let mut names = s.printables(n);
    if s.one_in(5) {
        let again = s.below(n);
        names.push(names[again].clone());
    }
    let line = s.labels(&names).join(&b' ');
    c.judge(&if s.one_in(2) { s.damaged(line) } else { line });
}

/// A text with labels of both forms, good or damaged, read as both kinds.
fn text(c: &mut Cases, s: &mut Seeded) {
    let most = if s.one_in(8) { 16 } else { 6 };
    let n = 1 + s.below(most);
    let names = s.printables(n);
    let kept = if s.one_in(2) { (0..n).collect() } else { s.kept(n) };
    let labels = s.labels(&names);
    let good = s.drawn_labels(kept, &labels).1;
    let text = if s.one_in(2) { good } else { s.damaged(good) };
    both(c, &s.labels(&names).join(&b' '), &text, 0);
}

fn write(c: &mut Cases, s: &mut Seeded) {
    let n = 1 + s.below(16);
    let names = s.printables(n);
    let kept = s.kept(n);
    let binary = s.one_in(2);
    let good = s.tree(kept, binary).record();
    let r = if s.one_in(6) { s.spoiled(good) } else { good };
    let out = (writer::text(&names, &good).len() + s.below(4)).saturating_sub(1);
    c.write(&s.labels(&names).join(&b' '), &r, out);
}

fn input(c: &mut Cases, s: &mut Seeded) {
    let n = 2 + s.below(5);
    let names = s.printables(n);
    let mode = if s.one_in(2) { &b"\nall\n"[..] } else { b"\ngenes\n" };
    let mut input = [&s.labels(&names).join(&b' '), mode].concat();
    for _ in 0..1 + s.below(4) {
        let kept = if s.one_in(2) { (0..n).collect() } else { s.kept(n) };
        let labels = s.labels(&names);
        input.extend(s.drawn_labels(kept, &labels).1);
        s.blanks(&mut input);
    }
    c.report(&if s.one_in(4) { s.damaged(input) } else { input });
}
