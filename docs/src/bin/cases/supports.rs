//! Weak branches dropped by support (#113): the borders by hand, then cases from a seed.
use crate::borders::{limit_borders, text_borders};
use crate::lines::Cases;
use crate::lost::both;
use reference::reader::thousandths;
use reference::roster::joined;
use reference::seeded::Seeded;

/// The highest threshold that there is.
const HIGHEST: usize = usize::MAX;

pub fn supports(c: &mut Cases, s: &mut Seeded) {
    let read = |c: &mut Cases, line: &[u8], text: &[u8], start| c.read_supported(line, text, start, 500);
    text_borders(c, read);
    limit_borders(c, read);
    values(c);
    wide_thresholds(c);
    eighteen_by_place(c);
    eighteen_before_what_follows(c);
    faults_before_eighteen(c);
    numbers_of_thirteen_bytes(c);
    roots_and_leaves(c);
    several_depths(c);
    lost_species(c);
    quoted_names(c);
    texts_of_several_trees(c);
    program_inputs(c);
    (0..200).for_each(|_| text(c, s));
    (0..40).for_each(|_| text_at_rising_thresholds(c, s));
    (0..20).for_each(|_| input(c, s));
}

/// A text with a number in place of each `#`.
fn filled(text: &[u8], number: &[u8]) -> Vec<u8> {
    text.split(|&b| b == b'#').collect::<Vec<_>>().join(number)
}

/// A text on a, b, c and d, at each of the thresholds.
fn at_each(c: &mut Cases, text: &[u8], thresholds: &[usize]) {
    thresholds.iter().for_each(|&threshold| c.read_supported(b"a b c d", text, 0, threshold));
}

/// Supports just below, at and just above the threshold: strictly below loses the cluster. A number means the same with other zeros.
fn values(c: &mut Cases) {
    for number in [
        &b"0"[..], b"0.0", b"0.000", b"00", b"000000000000", b"0.001", b"00000000.001", b"0.01", b"0.010", b"0.1", b"0000000000.1", b"0.499", b"0.5", b"0.50", b"0.500", b"00.5", b"0.501",
        b"0.05", b"0.005", b"0.95", b"0.999", b"1", b"1.0", b"01.000", b"1.001", b"1.25", b"1.250", b"6.999", b"7", b"07", b"7.0", b"7.00", b"7.000", b"0007.000", b"000000000007", b"7.001",
        b"12.3", b"12.34", b"12.345", b"70", b"99.999", b"100", b"65.535", b"65.536", b"65.537", b"4294967.295", b"4294967.296", b"4294967.297", b"4294967296", b"12345678.123",
        b"99999999.999", b"999999999.99", b"9999999999.9", b"999999999999",
    ] {
        let value = thousandths(number).unwrap();
        let text = filled(b"((a,b)::#,c);", number);
        (value.saturating_sub(1)..=value + 1).for_each(|threshold| at_each(c, &text, &[threshold]));
        at_each(c, &filled(b"((a,b)x:0: #\t,c);", number), &[value, value + 1]);
        at_each(c, &filled(b"((a,b):#,c);", number), &[HIGHEST]);
    }
}

/// Thresholds and values beyond sixteen and thirty-two bits, and beyond every value.
fn wide_thresholds(c: &mut Cases) {
    for number in [&b"0"[..], b"1", b"65.536", b"4294967.296", b"4294967.297", b"999999999999"] {
        let thresholds = [1, 2, 1 << 16, (1 << 16) + 1, (1 << 32) - 1, 1 << 32, (1 << 32) + 1, 999_999_999_998_999, 1 << 53, (1 << 63) - 1, 1 << 63, (1 << 63) + 1, HIGHEST - 1, HIGHEST];
        at_each(c, &filled(b"((a,b)::#,c);", number), &thresholds);
    }
}

/// More than three decimals: 18 as a support, behind a leaf, an inner node or the root, whatever the threshold; no fault as a d, or without a threshold.
fn eighteen_by_place(c: &mut Cases) {
    for number in [&b"1.2345"[..], b"0.0000", b"7.0000", b"0.5001", b"1234567.1234", b"1.2345678901"] {
        for text in [
            &b"a::#;"[..], b"a:1:#;", b"a : : # ;", b"\n a:\t:\n#\r;", b"(a::#,b);", b"(a,b:0.5:#);", b"((a,b)::#,c);", b"((a,b)x:1:#,c);", b"((a,b) x : 1 : # , c) ;", b"((a,b)::0,c)::#;",
            b"(a,b)x::#;", b"(a,(b,c):#:#);", b"(a:#:#,b);",
        ] {
            at_each(c, &filled(text, number), &[0, HIGHEST]);
        }
        for text in [&b"a:#;"[..], b"(a:#,b):#;", b"((a,b):#,c);", b"((a,b):#:0.5,c):#:0;", b"((a:#:0,b)x:#:7.0,c:#);"] {
            at_each(c, &filled(text, number), &[0, 501, HIGHEST]);
        }
    }
    for text in [&b"(a::1.2345,b:0:0.0000,c)::9.99999;"[..], b"((a,b)::0.0001,c:0.00001:0.0001);", b"((a,b)::1.2345", b"((a,b)::1.2345x"] {
        both(c, b"a b c", text, 0);
    }
}

/// 18 is met when the number's run ends: at whatever byte that is no part of it, or at the text's end.
fn eighteen_before_what_follows(c: &mut Cases) {
    for before in [&b"a::"[..], b"(a::", b"(a,b):0:", b"((a,b)::"] {
        for behind in [
            &b""[..], b" ", b"\n", b";", b" ;", b",", b",b)", b")", b"(", b":", b":1", b"::1", b".", b".5", b"x", b" x", b"_", b"'", b"'x'", b"''", b"-", b"e5", b"/", b"\0", b"\xff", b" 5",
            b" .5",
        ] {
            at_each(c, &[before, b"1.2345", behind].concat(), &[0]);
        }
        for upto in [b"1", &b"1."[..], b"1.2", b"1.234", b"1.2345"] {
            at_each(c, &[before, upto].concat(), &[0]);
            at_each(c, &[before, upto, b"x"].concat(), &[0]);
        }
    }
}

/// What is met before the support's run ends is given, and of two long supports the first; what stands behind `;` is not met.
fn faults_before_eighteen(c: &mut Cases) {
    for text in [
        &b"x::1.2345;"[..], b"(a,a::1.2345);", b"(a,'a'::1.2345);", b"(a,b)x::1.2345;", b"(a,b)a::1.2345;", b"(a,b)sixteen_bytes___::1.2345;", b"sixteen_bytes___::1.2345;",
        b"(a,b)x y::1.2345;", b"(a,b)''::1.2345;", b"'a::1.2345;", b"'a'::1.2345;", b"::1.2345;", b"(::1.2345,a);", b"a:::1.2345;", b"a::-1.2345;", b"a::.2345;", b"a::1.;", b"a::1. 2345;",
        b"a::1 .2345;", b"a::x1.2345;", b"a::'1.2345';", b"a:x:1.2345;", b"a:1.23456789012:1.2345;", b"a:1.2345::1.2345;", b"a:1.2345:1:1.2345;", b"a:1.2345:1.2345:1;", b"a:1.:1.2345;",
        b"(a)::1.2345;", b"(a::1.2345);", b"((a,b),(c)::1.2345);", b"(a,)::1.2345;", b"(a,b))::1.2345;", b"a,b::1.2345;", b"a;::1.2345;", b"(a,b)::0.5;(a,b)::1.2345;",
        b"((((((((((((((((a::1.2345", b"(((((((((((((((a::1.2345", b"(a::1.2345,b::0.0001);", b"(a::0.5,b::0.0001)::1.2345;", b"(a:1.2345,b:0.1:0.12345,c::0.00001);", b"(a::0.0001,a);",
        b"(a::0.0001,x);", b"((a,b)::0.0001),c;",
    ] {
        at_each(c, text, &[0, 1000]);
    }
    for line in [&b""[..], b"a  b", b"a a"] {
        c.read_supported(line, b"a::1.2345;", 0, 0);
    }
    for size in [65_536usize, 65_537] {
        let text = [&vec![b' '; size - 9][..], b"a::1.2345"].concat();
        [0, size - 9, size - 8, size, size + 1].iter().for_each(|&start| c.read_supported(b"a", &text, start, 1));
        c.read_supported(b"a", &[&b"a::1."[..], &vec![b'5'; size - 5]].concat(), 0, 1);
    }
}

/// A thirteenth byte that could go on is 4 before 18; a byte that could not go on ends the run.
fn numbers_of_thirteen_bytes(c: &mut Cases) {
    for number in [
        &b"123456789012"[..], b"1234567890123", b"123456789012.", b"123456789012.1234", b"12345678901.", b"12345678901.1", b"12345678901.1234", b"1234567890.1", b"123456789.12",
        b"123456789.123", b"12345678.123", b"12345678.1234", b"1234567.1234", b"1234567.12345", b"1234567.1234.", b"1.2345678901", b"1.23456789012", b"1.2345678901.", b"1.2345678901x",
        b"1.23456789012x", b"0.0000000000", b"0.00000000000", b"000000000000", b"0000000000000",
    ] {
        for text in [&b"a::#;"[..], b"((a,b):0:#,c);", b"((a,b):#:0,c);", b"(a,b)::#"] {
            at_each(c, &filled(text, number), &[1]);
        }
    }
}

/// The root and the leaves keep their clusters, and so does a node with a d alone, with a name that is a number, or with nothing.
fn roots_and_leaves(c: &mut Cases) {
    for text in [
        &b"a::0;"[..], b"a:0:0;", b"(a,b)::0;", b" ( a , b ) x :: 0 ;", b"(a,b,c,d):0:0;", b"(a::0,b::0,c::0)::0;", b"((a,b)::9,c)::0;", b"((a,b)::0,c)::9;", b"((a,b)::0,c)::0;",
        b"((a::0,b::0)::9,c::0)::0;", b"((a,b)::0,(c,d)::9)::0;", b"((a,b)::9,(c,d)::0)::0;", b"((a,b)::0,(c,d)::0)::0;", b"((a,b):0,c);", b"((a,b):0:9,c);", b"((a,b):9:0,c);",
        b"((a,b)::0,c:0:0)x:0;", b"((a,b)0,c);", b"((a,b)0:0,c)0;", b"((a,b)0:9:0,c)0;", b"((a,b)0::9,c)0;", b"((a,b),c);", b"((a,b)x,c)y;", b"(((a,b),c)::0,d);", b"(((a,b)::0,c),d);",
        b"(((a,b)::0,c):9,d);",
    ] {
        at_each(c, text, &[0, 1, 9000, 9001, HIGHEST]);
    }
}

/// A comb of sixteen species with a number behind each inner node, the innermost first.
fn comb_with(numbers: [usize; 15]) -> Vec<u8> {
    let mut text = [&[b'('; 15][..], b"a"].concat();
    for (i, number) in numbers.iter().enumerate() {
        text.extend([b',', b'b' + i as u8]);
        text.extend(format!(")::{number}").bytes());
    }
    text.push(b';');
    text
}

/// Clusters dropped below ones that stay, above ones that stay, at several depths at once, and all of them.
fn several_depths(c: &mut Cases) {
    for text in [
        &b"(((a,b)::1,c)::2,d)::3;"[..], b"(((a,b)::2,c)::1,d)::0;", b"(((a,b)::1,c)::1,d)::1;", b"((a,b)::1,(c,d)::2);", b"(((d,b)::1,a)::2,c);", b"((a,(c,d)::2)::1,b);",
        b"((a,b,c)::1,d);", b"(((a,b)::0.5,c):1:0.25,d):0.1:0.1;", b"(((a,b)::0.001,c),d)::0;",
    ] {
        at_each(c, text, &[0, 1, 2, 250, 251, 500, 501, 1000, 1001, 2000, 2001, HIGHEST]);
    }
    let sixteen = joined(&(b'a'..=b'p').map(|b| vec![b]).collect::<Vec<_>>());
    let steps: [usize; 15] = std::array::from_fn(|i| i);
    for text in [comb_with(steps), comb_with(steps.map(|i| 14 - i)), comb_with(steps.map(|i| i % 2)), comb_with(steps.map(|i| i * 7 % 15))] {
        for threshold in (0..=15).map(|i| i * 1000).chain([1, HIGHEST]) {
            c.read_supported(&sixteen, &text, 0, threshold);
        }
    }
    let balanced = b"((((a,b)::1,(c,d)::2)::3,((e,f)::4,(g,h)::5)::6)::7,(((i,j)::8,(k,l)::9)::10,((m,n)::11,(o,p)::12)::13)::14)::0;";
    (0..=15).for_each(|i| c.read_supported(&sixteen, balanced, 0, 1000 * i));
}

/// Gene trees that lack species: the root is the largest cluster of the tree, not the roster's whole set.
fn lost_species(c: &mut Cases) {
    for text in [
        &b"(a,b)::0;"[..], b"(f,d)::0;", b"((b,d)::0.5,f)::0;", b"((b,d)::0.5,(f,a)::0.4);", b"(((b,d)::0.5,f)::0.4,a)::0.3;", b"(f,(d,b)::0.5,a);", b"f::0;",
        b"((f,e)::0.5,(d,(c,(b,a)::0.4)::0.5)::0.6)::0;", b"((((a,b)::0.499,c):0.1:0.5,d):0.3,e)::0.2;",
    ] {
        for threshold in [0, 400, 401, 500, 501, HIGHEST] {
            c.read_supported(b"a b c d e f", text, 0, threshold);
        }
    }
}

/// Names in quotes, which may look like supports.
fn quoted_names(c: &mut Cases) {
    let line = b"a_b '::1.2345' ':0:0' 'it''s'";
    for text in [
        &b"(('a b','::1.2345')::0.5,':0:0');"[..], b"(('::1.2345',':0:0')'::0':1:0.5,a_b)':9.9999';", b"((a_b,'it''s')'(a,b)::0'::0.5,':0:0'::1);",
        b"(('it''s',a_b)'::1.2345',':0:0'::0)'x'::0;", b"('::1.2345'::1.2345,a_b);", b"((a_b,':0:0')':'::1.2345,'it''s');", b"((a_b,':0:0')'x''::0.5,'it''s');",
        b"((a_b,':0:0')x'y'::1.2345,'it''s');", b"('it''s'::0,('a b','::1.2345'): '::0.5');", b"(('a b'::0.1,'it''s':0:0.1)_:0.1:0.499 ,'::1.2345')::0.1;",
        b"((a_b,a_b::1.2345)::0.5,'it''s');", b"((a_b,'a b'::1.2345)::0.5,'it''s');",
    ] {
        [0, 500, 501].iter().for_each(|&threshold| c.read_supported(line, text, 0, threshold));
    }
}

/// A second tree, read from its start or from within the first: places and ends are offsets in the text, and a refused reading answers its start.
fn texts_of_several_trees(c: &mut Cases) {
    let text = b"((a,b)::0,c); ((a,b)::1.2345,c);((c,a)::0.5,b)::0;";
    for start in 0..=text.len() + 1 {
        c.read_supported(b"a b c", text, start, 501);
    }
    for start in [14, 32, 33, text.len(), HIGHEST] {
        [0, 500, HIGHEST].iter().for_each(|&threshold| c.read_supported(b"a b c", text, start, threshold));
    }
}

/// The program is given no threshold: it drops nothing, and never says 18.
fn program_inputs(c: &mut Cases) {
    for trees in [
        &b"((a,b)::0,c);((a,c)::0,b)::0;"[..], b"((a,b)::0.0001,c):1.2345:6.78901;", b"((b,c):0.00001:0.0000,a::1.2345);(a,c)::1.2345;", b"((a,b)::1.2345", b"((a,b)::1.2345x,c);",
        b"((a,b)::1.23456789012,c);",
    ] {
        c.report(&[b"a b c\nall\n", trees].concat());
        c.report(&[b"a b c\ngenes\n", trees].concat());
    }
}

/// A roster line and a text with supports on all or some of its species.
fn supported(s: &mut Seeded) -> (Vec<u8>, Vec<u8>) {
    let most = if s.one_in(6) { 16 } else { 7 };
    let n = 1 + s.below(most);
    let names = if s.one_in(3) { s.printables(n) } else { s.names(n) };
    let kept = if s.one_in(3) { s.kept(n) } else { (0..n).collect() };
    let labels = s.labels(&names);
    let text = s.drawn_supported(kept, &labels).1;
    (joined(&names), text)
}

/// A text with supports, good or damaged, with something before and behind it.
fn text(c: &mut Cases, s: &mut Seeded) {
    let (line, good) = supported(s);
    let text = if s.one_in(3) { s.damaged(good) } else { good };
    let before = s.below(4);
    c.read_supported(&line, &[&b"(;)x"[..before], &text, b"::1.2345"].concat(), before, s.threshold());
}

fn text_at_rising_thresholds(c: &mut Cases, s: &mut Seeded) {
    let (line, text) = supported(s);
    let mut thresholds = [s.threshold(), s.threshold(), s.threshold()];
    thresholds.sort();
    thresholds.iter().for_each(|&threshold| c.read_supported(&line, &text, 0, threshold));
}

fn input(c: &mut Cases, s: &mut Seeded) {
    let (line, text) = supported(s);
    let mode = if s.one_in(2) { &b"\nall\n"[..] } else { b"\ngenes\n" };
    c.report(&[&line, mode, &text].concat());
}
