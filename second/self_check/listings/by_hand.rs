// Listings worked out by hand, each byte written out, written and read.

use super::super::dtds::known::{choices, SHOW};
use super::super::expect;
use super::super::samples::{digits, SAMPLES};
use crate::answers::Answer;
use crate::listing::{read_listing, write_listing};

/// What a result holds before a call, and behind what is written afterwards.
const BYTE: u8 = 7;

/// Marks and their listing, in both directions, with room behind or without.
pub fn self_both(text: &[u8], format: u16, marks: &[u8], listing: &str, name: &str) {
    let listing = listing.as_bytes();
    for behind in [0, 1, 5] {
        let mut out = vec![BYTE; listing.len() + behind];
        let place = listing.len();
        let told = write_listing(text, format, marks, &mut out);
        expect(told == Ok(Answer { place, ..Answer::default() }), name);
        expect(out == [listing, &vec![BYTE; behind]].concat(), name);
        let mut out = vec![BYTE; marks.len() + behind];
        expect(read_listing(text, format, listing, &mut out) == Ok(Answer::default()), name);
        expect(out == [marks, &vec![BYTE; behind]].concat(), name);
    }
}

/// S1 to S9.
const OF_SAMPLES: [&str; 9] = [
    "",
    "+ job insert layer\n+ job delete layer\n- range text\n",
    "+ job insert layer\n+ job delete layer\n",
    "+ job insert layer\n- range text\n",
    "+ state replace draft held\n- state replace draft final\n+ state replace held final\n",
    "+ state replace draft held\n+ state replace held final\n",
    "+ state replace held final\n+ state replace final held\n- final text\n",
    "+ state replace held final\n+ state replace final held\n",
    "+ job insert layer\n+ job delete layer\n- range text\n+ state replace draft held\n\
     - state replace draft final\n+ state replace held final\n",
];

/// The vendor's role of samples/vendor.txt, and that of samples/vendor-2.txt, of format 2.
const VENDOR: (&str, &str) = (
    "11021212002",
    "+ job insert layer\n+ job delete layer\n- range text\n+ state replace draft held\n\
     - state replace draft final\n+ state replace held draft\n- state replace held final\n- final text\n",
);
const VENDOR_OF_TWO: (&str, &str) = (
    "121020121020002",
    "+ job insert layer\n- job delete layer\n+ job replace layer layer\n- range text\n\
     + state replace draft held\n- state replace draft final\n+ state replace held draft\n\
     - state replace held final\n- final text\n",
);

fn self_samples() -> usize {
    for (sample, listing) in SAMPLES.iter().zip(OF_SAMPLES) {
        self_both(SHOW, 1, &digits(sample.0), listing, "the listing of a sample");
    }
    self_both(SHOW, 1, &digits(VENDOR.0), VENDOR.1, "the vendor's listing");
    self_both(SHOW, 2, &digits(VENDOR_OF_TWO.0), VENDOR_OF_TWO.1, "the vendor's listing in format 2");
    self_both(SHOW, 2, &[0; 15], "", "no mark set in format 2");
    OF_SAMPLES.len() + 3
}

/// A text, a format, and the lines of all privileges.
type Full = (&'static str, u16, &'static str);

/// Made types within made types: a sequence of 3 and 7, where 3 is a sequence of 5 and 4, 4 a star of 5, 5 a choice of a and 6, 6 empty, 7 a
/// star of b.
pub const NESTED: &str = "<!ELEMENT r ((a?)+,b*)><!ELEMENT a (#PCDATA)><!ELEMENT b EMPTY>";

const FULL: [Full; 14] = [
    (
        NESTED,
        1,
        "a text\n#4 insert #5\n#4 delete #5\n#5 replace a #6\n#5 replace #6 a\n#7 insert b\n\
         #7 delete b\n",
    ),
    (
        NESTED,
        2,
        "a text\n#4 insert #5\n#4 delete #5\n#4 replace #5 #5\n#5 replace a a\n#5 replace a #6\n\
         #5 replace #6 a\n#5 replace #6 #6\n#7 insert b\n#7 delete b\n#7 replace b b\n",
    ),
    // A choice of 3 and 2, where 2 is empty, 3 a choice of a and 4, and 4 empty.
    (
        "<!ELEMENT r (a?)?><!ELEMENT a EMPTY>",
        1,
        "r replace #3 #2\nr replace #2 #3\n#3 replace a #4\n#3 replace #4 a\n",
    ),
    (
        "<!ELEMENT r (a?)?><!ELEMENT a EMPTY>",
        2,
        "r replace #3 #3\nr replace #3 #2\nr replace #2 #3\nr replace #2 #2\n#3 replace a a\n\
         #3 replace a #4\n#3 replace #4 a\n#3 replace #4 #4\n",
    ),
    // A sequence of 3 and 5: 3 is a star of 4, the choice of a and b; 5 a sequence of 7 and 6, a star of 7, the sequence.
    (
        "<!ELEMENT r ((a|b)*,(a,b)+)><!ELEMENT a EMPTY><!ELEMENT b EMPTY>",
        1,
        "#3 insert #4\n#3 delete #4\n#4 replace a b\n#4 replace b a\n#6 insert #7\n#6 delete #7\n",
    ),
    (
        "<!ELEMENT r ((a|b)*,(a,b)+)><!ELEMENT a EMPTY><!ELEMENT b EMPTY>",
        2,
        "#3 insert #4\n#3 delete #4\n#3 replace #4 #4\n#4 replace a a\n#4 replace a b\n\
         #4 replace b a\n#4 replace b b\n#6 insert #7\n#6 delete #7\n#6 replace #7 #7\n",
    ),
    // Numbers of two digits: 5, 7, 9 and 11 are choices, 6, 8, 10 and 12 empty.
    (
        "<!ELEMENT r (a?,b?,c?,d?)><!ELEMENT a EMPTY><!ELEMENT b EMPTY><!ELEMENT c EMPTY><!ELEMENT d EMPTY>",
        1,
        "#5 replace a #6\n#5 replace #6 a\n#7 replace b #8\n#7 replace #8 b\n#9 replace c #10\n\
         #9 replace #10 c\n#11 replace d #12\n#11 replace #12 d\n",
    ),
    // Names that are verbs.
    (
        "<!ELEMENT text (insert)*><!ELEMENT insert (delete|replace)><!ELEMENT delete (#PCDATA)>\
         <!ELEMENT replace EMPTY>",
        2,
        "text insert insert\ntext delete insert\ntext replace insert insert\n\
         insert replace delete delete\ninsert replace delete replace\n\
         insert replace replace delete\ninsert replace replace replace\ndelete text\n",
    ),
    // Names that begin others, and that differ in case only.
    (
        "<!ELEMENT lay (layer)*><!ELEMENT layer (layer2|Layer)><!ELEMENT layer2 (#PCDATA)>\
         <!ELEMENT Layer (#PCDATA)*>",
        1,
        "lay insert layer\nlay delete layer\nlayer replace layer2 Layer\n\
         layer replace Layer layer2\nlayer2 text\nLayer text\n",
    ),
    // A type that two others have as a child: a is declared behind both.
    (
        "<!ELEMENT r (b,a*)><!ELEMENT b (a)*><!ELEMENT a (#PCDATA)>",
        1,
        "b insert a\nb delete a\na text\n#3 insert a\n#3 delete a\n",
    ),
    ("<!ELEMENT r EMPTY>", 1, ""),
    ("<!ELEMENT r EMPTY>", 2, ""),
    ("<!ELEMENT r (a)><!ELEMENT a EMPTY>", 2, ""),
    ("<!ELEMENT r (#PCDATA)>", 2, "r text\n"),
];

const SHOW_OF_ONE: &str =
    "job insert layer\njob delete layer\nname text\nrange text\nstate replace draft held\n\
     state replace draft final\nstate replace held draft\nstate replace held final\n\
     state replace final draft\nstate replace final held\nfinal text\n";

const SHOW_OF_TWO: &str =
    "job insert layer\njob delete layer\njob replace layer layer\nname text\nrange text\n\
     state replace draft draft\nstate replace draft held\nstate replace draft final\n\
     state replace held draft\nstate replace held held\nstate replace held final\n\
     state replace final draft\nstate replace final held\nstate replace final final\n\
     final text\n";

/// All lines with each sign, with the signs in turn, and each line alone and left out.
fn self_full(text: &[u8], format: u16, lines: &str) {
    let lines: Vec<&str> = lines.lines().collect();
    let both = |marks: &[u8]| {
        let line = |(line, mark): (&&str, &u8)| match mark {
            0 => String::new(),
            1 => format!("+ {}\n", line),
            _ => format!("- {}\n", line),
        };
        let listing: String = lines.iter().zip(marks).map(line).collect();
        self_both(text, format, marks, &listing, "all lines of a text");
    };
    let v = lines.len();
    for turn in 0..3 {
        both(&vec![turn as u8; v]);
        both(&Vec::from_iter((0..v).map(|k| ((k + turn) % 3) as u8)));
    }
    for k in 0..v {
        for (one, others) in [(1, 0), (2, 0), (0, 1), (2, 1)] {
            let mut marks = vec![others; v];
            marks[k] = one;
            both(&marks);
        }
    }
}

/// The listing of 4,096 privileges, all allowed: 17 choices of 16 kinds and 16 texts, named n0 to n32.
fn self_long() {
    let texts = (17..33).map(|k| format!("<!ELEMENT n{} (#PCDATA)>", k)).collect::<String>();
    let text = choices(17) + &texts;
    let mut listing = String::new();
    for k in 0..17 {
        for i in k + 1..k + 17 {
            for j in (k + 1..k + 17).filter(|&j| j != i) {
                listing += &format!("+ n{} replace n{} n{}\n", k, i, j);
            }
        }
    }
    (17..33).for_each(|k| listing += &format!("+ n{} text\n", k));
    expect(listing.len() > 65_535, "a listing over 65,535 bytes");
    self_both(text.as_bytes(), 1, &[1; 4096], &listing, "the listing of 4,096 privileges");
}

/// Gives how many texts and listings there are.
pub fn self_by_hand() -> usize {
    for (text, format, lines) in FULL {
        self_full(text.as_bytes(), format, lines);
    }
    self_full(SHOW, 1, SHOW_OF_ONE);
    self_full(SHOW, 2, SHOW_OF_TWO);
    self_long();
    self_samples() + FULL.len() + 3
}
