// DTD texts whose answers were worked out by hand from the documents.

use super::super::samples::SAMPLE;
use crate::answers::{answer, Answer};
use crate::dtd::read_dtd;
use crate::self_check::expect;

/// The sample schema of document 01 as text.
pub const SHOW: &[u8] = include_bytes!("../../../samples/show.dtd");

/// More words than any table has.
const ROOM: usize = 2000;

/// Number and place, and what stands in a result of sevens afterwards.
fn told(text: &[u8], room: usize) -> ((usize, usize), Vec<u16>) {
    let mut out = vec![7; room];
    let Answer { number, place, .. } = answer(read_dtd(text, &mut out));
    ((number, place), out)
}

/// A done text, its words and, the last of the header, V; the rest of the result is kept.
fn self_table(text: &[u8], words: &[u16], what: &str) {
    let (answer, out) = told(text, ROOM);
    expect(answer == (0, words[7] as usize), what);
    expect(out == [words, &vec![7; ROOM - words.len()][..]].concat(), what);
    let (answer, out) = told(text, words.len());
    expect(answer == (0, words[7] as usize) && out == words, what);
    for room in [0, words.len() - 1] {
        expect(told(text, room) == ((12, 0), vec![7; room]), what);
    }
}

fn self_refused(text: &[u8], number: usize, place: usize, what: &str) {
    for room in [0, ROOM] {
        expect(told(text, room) == ((number, place), vec![7; room]), what);
    }
}

/// Texts and their tables: header, records, child list.
const TABLES: [(&str, &[u16]); 20] = [
    ("<!ELEMENT r EMPTY>", &[1, 11, 1, 0, 8, 0, 11, 0, 0, 0, 0]),
    ("<!ELEMENT r (#PCDATA)>", &[1, 11, 1, 0, 8, 0, 11, 1, 1, 0, 0]),
    ("<!ELEMENT r (#PCDATA)*>", &[1, 11, 1, 0, 8, 0, 11, 1, 1, 0, 0]),
    ("<!ELEMENT r (a)><!ELEMENT a EMPTY>", &[1, 15, 2, 0, 8, 1, 14, 0, 2, 1, 0, 0, 0, 1, 1]),
    ("<!ELEMENT r ((a))><!ELEMENT a EMPTY>", &[1, 15, 2, 0, 8, 1, 14, 0, 2, 1, 0, 0, 0, 1, 1]),
    ("<!ELEMENT r (a*)><!ELEMENT a EMPTY>", &[1, 15, 2, 0, 8, 1, 14, 2, 4, 1, 0, 0, 0, 1, 1]),
    ("<!ELEMENT r (a)*><!ELEMENT a EMPTY>", &[1, 15, 2, 0, 8, 1, 14, 2, 4, 1, 0, 0, 0, 1, 1]),
    // A choice of a and 2, which is empty.
    ("<!ELEMENT r (a?)><!ELEMENT a EMPTY>", &[1, 19, 3, 0, 8, 2, 17, 2, 3, 2, 0, 0, 0, 2, 0, 0, 2, 1, 2]),
    ("<!ELEMENT r (a)?><!ELEMENT a EMPTY>", &[1, 19, 3, 0, 8, 2, 17, 2, 3, 2, 0, 0, 0, 2, 0, 0, 2, 1, 2]),
    // A sequence of a and 2, which is a star of a.
    ("<!ELEMENT r (a+)><!ELEMENT a EMPTY>", &[1, 20, 3, 0, 8, 3, 17, 2, 2, 2, 0, 0, 0, 2, 4, 1, 2, 1, 2, 1]),
    // A star of 2, which is a star of a.
    ("<!ELEMENT r (a*)*><!ELEMENT a EMPTY>", &[1, 19, 3, 0, 8, 2, 17, 4, 4, 1, 0, 0, 0, 1, 4, 1, 1, 2, 1]),
    // A choice of 3 and 2, where 2 is empty, 3 a choice of a and 4, and 4 empty.
    (
        "<!ELEMENT r (a?)?><!ELEMENT a EMPTY>",
        &[1, 27, 5, 0, 8, 4, 23, 4, 3, 2, 0, 0, 0, 2, 0, 0, 2, 3, 2, 2, 0, 0, 4, 3, 2, 1, 4],
    ),
    // A choice of 4 and 3, where 3 is empty and 4 the sequence of a and b.
    (
        "<!ELEMENT r ((a,b))?><!ELEMENT a EMPTY><!ELEMENT b EMPTY>",
        &[1, 27, 5, 0, 8, 4, 23, 2, 3, 2, 0, 0, 0, 2, 0, 0, 2, 0, 0, 2, 2, 2, 2, 4, 3, 1, 2],
    ),
    // A choice of a and 3, which is the sequence of b and a.
    (
        "<!ELEMENT r (a|(b,a))><!ELEMENT a EMPTY><!ELEMENT b EMPTY>",
        &[1, 24, 4, 0, 8, 4, 20, 2, 3, 2, 0, 0, 0, 2, 0, 0, 2, 2, 2, 2, 1, 3, 2, 1],
    ),
    // A sequence of 4 and 3, where 3 is a star of 4 and 4 the choice of a and b.
    (
        "<!ELEMENT r (a|b)+><!ELEMENT a EMPTY><!ELEMENT b EMPTY>",
        &[1, 28, 5, 0, 8, 5, 23, 4, 2, 2, 0, 0, 0, 2, 0, 0, 2, 4, 1, 2, 3, 2, 3, 4, 3, 4, 1, 2],
    ),
    // A sequence of 3 and 5: 3 is a choice of a and 4, 5 a choice of b and 6; 4 and 6 are empty.
    (
        "<!ELEMENT r (a?,b?)><!ELEMENT a EMPTY><!ELEMENT b EMPTY>",
        &[
            1, 35, 7, 0, 8, 6, 29, 4, 2, 2, 0, 0, 0, 2, 0, 0, 2, 3, 2, 2, 0, 0, 4, 3, 2, 4, 0, 0, 6, 3, 5, 1,
            4, 2, 6,
        ],
    ),
    // A sequence of 3 and 7: 3 is a sequence of 5 and 4, 4 a star of 5, 5 a choice of a and 6, 6 empty; 7 a star of b.
    (
        "<!ELEMENT r ((a?)+,b*)><!ELEMENT a EMPTY><!ELEMENT b EMPTY>",
        &[
            1, 40, 8, 0, 8, 8, 32, 6, 2, 2, 0, 0, 0, 2, 0, 0, 2, 2, 2, 2, 4, 1, 4, 3, 2, 5, 0, 0, 7, 4, 1, 7,
            3, 7, 5, 4, 5, 1, 6, 2,
        ],
    ),
    // A sequence of 3 and 5: 3 is a star of 4, the choice of a and b; 5 a sequence of 7 and 6, a star of 7, the sequence.
    (
        "<!ELEMENT r ((a|b)*,(a,b)+)><!ELEMENT a EMPTY><!ELEMENT b EMPTY>",
        &[
            1, 42, 8, 0, 8, 10, 32, 6, 2, 2, 0, 0, 0, 2, 0, 0, 2, 4, 1, 2, 3, 2, 3, 2, 2, 5, 4, 1, 7, 2, 2,
            8, 3, 5, 4, 1, 2, 7, 6, 7, 1, 2,
        ],
    ),
    // What r makes, 4, comes before what a makes, 5 to 7; both behind all that is declared.
    (
        "<!ELEMENT r (a?)><!ELEMENT a (b*,c?)><!ELEMENT b EMPTY><!ELEMENT c EMPTY>",
        &[
            1, 39, 8, 0, 8, 7, 32, 6, 3, 2, 0, 2, 2, 2, 0, 0, 4, 0, 0, 4, 0, 0, 4, 4, 1, 4, 3, 2, 5, 0, 0, 7,
            1, 4, 5, 6, 2, 3, 7,
        ],
    ),
    // Names that are keywords elsewhere, blanks wherever they may stand, and comments.
    (
        "\n<!----><!ELEMENT\tANY\r( \n EMPTY? )\n><!-- <!ELEMENT ANY ANY> - -> --><!ELEMENT EMPTY EMPTY > ",
        &[1, 19, 3, 0, 8, 2, 17, 2, 3, 2, 0, 0, 0, 2, 0, 0, 2, 1, 2],
    ),
];

/// Texts, their numbers, and their places, which are the bytes behind `^`.
const REFUSED: [(usize, &str); 79] = [
    (20, "^"),
    (20, " \n^"),
    (20, "<!-- <!ELEMENT a EMPTY> -->^"),
    (20, "<^"),
    (20, "<!^"),
    (20, "<!ELEM^"),
    (20, "<!ELEMENT^"),
    (20, "<!ELEMENT ^"),
    (20, "<!ELEMENT a^"),
    (20, "<!ELEMENT a ^"),
    (20, "<!ELEMENT a EMP^"),
    (20, "<!ELEMENT a EMPTY^"),
    (20, "<!ELEMENT a AN^"),
    (20, "<!ELEMENT a (^"),
    (20, "<!ELEMENT a (#PC^"),
    (20, "<!ELEMENT a (#PCDATA^"),
    (20, "<!ELEMENT a (#PCDATA)^"),
    (20, "<!ELEMENT a (b^"),
    (20, "<!ELEMENT a (b,^"),
    (20, "<!ELEMENT a (b)^"),
    (20, "<!ELEMENT a (b)*^"),
    (20, "<!ELEMENT a EMPTY><!-^"),
    (20, "<!ELEMENT a EMPTY><!--^"),
    (20, "<!ELEMENT a EMPTY><!-- -^"),
    (20, "<!ELEMENT a EMPTY><!-- --^"),
    (20, "<!--->^"),
    (20, "<!-->^"),
    (20, "<!---><!ELEMENT a EMPTY>^"),
    (20, "<!-- a --^ b -->"),
    (20, "<!-- a --^->"),
    (20, "<!-- a -->^>"),
    (20, "^x<!ELEMENT a EMPTY>"),
    (20, "<!ELEMENT a EMPTY>^>"),
    (20, "<!ELEMENT^a EMPTY>"),
    (20, "<!ELEMENT a^>"),
    (20, "<!ELEMENT a^(b)>"),
    (20, "<!ELEMENT a ^b>"),
    (20, "<!ELEMENT ^1 EMPTY>"),
    (20, "<!ELEMENT a^é EMPTY>"),
    (20, "<!ELEMENT a EMPTY^X>"),
    (20, "<!ELEMENT a AN^X>"),
    (20, "<!ELEMENT a ((^#PCDATA))>"),
    (20, "<!ELEMENT a (#PCDATA)^+>"),
    (20, "<!ELEMENT a (#PCDATA) ^*>"),
    (20, "<!ELEMENT a (#PCDATA^,b)>"),
    (20, "<!ELEMENT a ( ^)>"),
    (20, "<!ELEMENT a (b,c^|d)>"),
    (20, "<!ELEMENT a (b|c^,d)>"),
    (20, "<!ELEMENT a (b ^?)>"),
    (20, "<!ELEMENT a (b?^?)>"),
    (20, "<!ELEMENT a (b) ^*>"),
    (20, "<!ELEMENT a (b)^)>"),
    (20, "<!ELEMENT a (b^>"),
    (20, "<!^ATTLIST a b CDATA #IMPLIED>"),
    (20, "<^?xml version='1.0'?>"),
    (20, "<!ELEMENT a EMPTY^X><!ELEMENT b ANY>"),
    (21, "<!ELEMENT a ^ANY>"),
    (21, "<!ELEMENT a ^ANYX>"),
    (21, "<!ELEMENT a ^ANY"),
    (21, "<!ELEMENT a ^ANY><!ELEMENT b EMPTYX>"),
    (21, "<!ELEMENT a (#PCDATA^|b)*>"),
    (21, "<!ELEMENT a (#PCDATA ^|b|c)*><!ELEMENT b ANY>"),
    (21, "<!ELEMENT a (#PCDATA^|b)>"),
    (21, "<!ELEMENT a (#PCDATA^|>"),
    (21, "<!ELEMENT a ((((((((((((((((^((b"),
    (21, "<!ELEMENT a (b,(c)*,(((((((((((((((^(b))))"),
    (21, "<!ELEMENT abcdefghijklmnopqrstuvwxyz012345^6 EMPTY>"),
    (21, "<!ELEMENT a (abcdefghijklmnopqrstuvwxyz012345^6 b)>"),
    (22, "<!ELEMENT a EMPTY><!ELEMENT ^a EMPTY>"),
    (22, "<!ELEMENT a (^b)>"),
    (22, "<!ELEMENT a (b)><!ELEMENT b (a?,(a|^c)*)>"),
    (22, "<!ELEMENT a (^b)><!ELEMENT a EMPTY>"),
    (22, "<!ELEMENT a (c)><!ELEMENT ^a (b)><!ELEMENT c EMPTY>"),
    (22, "<!ELEMENT a (^B)><!ELEMENT b EMPTY>"),
    // The examples of the specification that have no table, sections 3.2 to 3.2.2.
    (21, "<!ELEMENT p (#PCDATA^|emph)* >"),
    (20, "<!ELEMENT ^%name.para; %content.para; >"),
    (21, "<!ELEMENT container ^ANY>"),
    (20, "<!ELEMENT dictionary-body (^%div.mix; | %dict.mix;)*>"),
    (22, "<!ELEMENT spec (^front, body, back?)>"),
];

/// Texts whose place is no byte.
const OF_TABLES: [(&str, usize, usize); 8] = [
    ("<!ELEMENT r (a,b,a)><!ELEMENT a EMPTY><!ELEMENT b EMPTY>", 7, 0),
    ("<!ELEMENT r (a|((b),b))><!ELEMENT a EMPTY><!ELEMENT b EMPTY>", 7, 3),
    ("<!ELEMENT r (r)>", 19, 0),
    ("<!ELEMENT r (a)><!ELEMENT a (b|a?)><!ELEMENT b EMPTY>", 19, 1),
    ("<!ELEMENT r (a)><!ELEMENT b EMPTY><!ELEMENT a (r*)>", 19, 0),
    ("<!ELEMENT r EMPTY><!ELEMENT a EMPTY>", 8, 1),
    ("<!ELEMENT r (b)><!ELEMENT a (b?)><!ELEMENT b EMPTY>", 8, 1),
    ("<!ELEMENT r (a|a)><!ELEMENT a (r)><!ELEMENT b EMPTY>", 7, 0),
];

/// So many names n1, n2 and so on, with this sign between them.
fn listed(count: usize, sign: &str) -> String {
    Vec::from_iter((1..=count).map(|k| format!("n{}", k))).join(sign)
}

/// The names from n1 on declared with this content.
fn declared(count: usize, content: &str) -> String {
    (1..=count).map(|k| format!("<!ELEMENT n{} {}>", k, content)).collect()
}

/// A choice of 16 names, in each of which stands one of 16 others, and so on, so many choices in all.
pub fn choices(count: usize) -> String {
    let choice = |k: usize| Vec::from_iter((k + 1..=k + 16).map(|name| format!("n{}", name))).join("|");
    (0..count).map(|k| format!("<!ELEMENT n{} ({})>", k, choice(k))).collect()
}

fn self_accepted(text: &str, v: usize, what: &str) {
    expect(told(text.as_bytes(), ROOM).0 == (0, v), what);
}

fn self_over(text: &str, number: usize, what: &str) {
    self_refused(text.as_bytes(), number, text.len(), what);
}

/// Groups and names at the limits and just over them.
fn self_sizes() {
    let group = |count: usize| format!("<!ELEMENT r ({})>{}", listed(count, ","), declared(count, "EMPTY"));
    self_accepted(&group(16), 0, "a group of 16");
    self_refused(group(17).as_bytes(), 4, 0, "a group of 17");
    let deep = |depth: usize| format!("<!ELEMENT r {}n1{}>", "(".repeat(depth), ")".repeat(depth));
    self_accepted(&(deep(16) + &declared(1, "EMPTY")), 0, "16 deep");
    self_refused(deep(17).as_bytes(), 21, 28, "17 deep");
    let name = "n".repeat(32);
    self_accepted(&format!("<!ELEMENT {} EMPTY>", name), 0, "a name of 32 bytes");
    self_refused(format!("<!ELEMENT {}n EMPTY>", name).as_bytes(), 21, 42, "a name of 33 bytes");
}

/// Texts of 65,536 bytes and just over them.
fn self_lengths() {
    let long = |length: usize, end: &str| " ".repeat(length - end.len()) + end;
    self_accepted(&long(65_536, "<!ELEMENT r EMPTY>"), 0, "65,536 bytes");
    self_refused(long(65_537, "<!ELEMENT r EMPTY>").as_bytes(), 21, 65_536, "65,537 bytes");
    self_refused(long(65_537, "<!ELEMENT r EMPTY").as_bytes(), 21, 65_536, "65,537 bytes and an early end");
    self_refused(long(65_536, "<!ELEMENT r EMPTY").as_bytes(), 20, 65_536, "65,536 bytes and an early end");
    self_refused(long(65_537, "<!ELEMENT r EMPTY>>").as_bytes(), 20, 65_536, "20 and 21 at byte 65,536");
    self_refused(long(65_538, "<!ELEMENT r EMPTYX>").as_bytes(), 20, 65_536, "20 and 21 at byte 65,536");
    self_refused(long(65_538, "<!ELEMENT r ANY>").as_bytes(), 21, 65_534, "ANY up to byte 65,536");
}

/// Types, entries and privileges at the limits and just over them.
fn self_counts() {
    self_over(&declared(257, "EMPTY"), 21, "257 types declared");
    self_refused(declared(256, "EMPTY").as_bytes(), 8, 1, "256 types declared");
    self_over(&"<!ELEMENT r EMPTY>".repeat(257), 21, "one name declared 257 times");
    self_refused("<!ELEMENT r EMPTY>".repeat(256).as_bytes(), 22, 28, "one name declared 256 times");
    self_over(&(declared(257, "EMPTY") + "<!"), 20, "an early end and 257 types");
    // r, n1 and 127 choices with their empties are 256 types, and one star more is one more.
    let marked = |last: &str| format!("<!ELEMENT r ({}{})>", "n1?,".repeat(126), last);
    self_refused((marked("n1?") + &declared(1, "EMPTY")).as_bytes(), 4, 0, "256 types, most of them made");
    self_over(&(marked("n1?,n1*") + &declared(1, "EMPTY")), 21, "257 types, most of them made");
    let entries = |count: usize| format!("<!ELEMENT r ({})>", vec!["r"; count].join("|"));
    self_over(&entries(1025), 21, "1,025 entries");
    self_refused(entries(1024).as_bytes(), 4, 0, "1,024 entries");
    let texts = |from: usize| (from..from + 16).map(|k| format!("<!ELEMENT n{} (#PCDATA)>", k));
    self_accepted(&(choices(17) + &texts(17).collect::<String>()), 4096, "4,096 privileges");
    self_refused((choices(18) + &texts(18).collect::<String>()).as_bytes(), 9, 0, "over 4,096 privileges");
}

pub fn self_known() -> usize {
    self_table(SHOW, &SAMPLE, "the sample schema as text");
    for (text, words) in TABLES {
        self_table(text.as_bytes(), words, text);
    }
    for (number, text) in REFUSED {
        let place = text.find('^').expect("a place");
        self_refused(text.replace('^', "").as_bytes(), number, place, text);
    }
    for (text, number, place) in OF_TABLES {
        self_refused(text.as_bytes(), number, place, text);
    }
    self_sizes();
    self_lengths();
    self_counts();
    TABLES.len() + REFUSED.len() + OF_TABLES.len()
}
