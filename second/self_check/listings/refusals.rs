// Each refusal worked out by hand, with its place, and before those of all later checks.

use super::super::dtds::known::{choices, SHOW};
use super::super::expect;
use super::by_hand::NESTED;
use crate::answers::{Answer, Outcome};
use crate::listing::{read_listing, write_listing};

/// What the result holds before a call.
const BYTE: u8 = 7;

/// A number and a place.
type Refusal = [usize; 2];

/// A call with the lines or the marks that it is given, and with so much room.
#[derive(Clone)]
struct Call {
    make: fn(&[u8], u16, &[u8], &mut [u8]) -> Outcome,
    text: String,
    format: u16,
    given: Vec<Vec<u8>>,
    room: usize,
}

impl Call {
    fn is_refused(&self, [number, place]: Refusal, name: &str) {
        let mut out = vec![BYTE; self.room];
        let told = (self.make)(self.text.as_bytes(), self.format, &self.given.concat(), &mut out);
        expect(told == Err(Answer { number, place, ..Answer::default() }), name);
        expect(out == vec![BYTE; self.room], "a refused call leaves its result");
    }
}

/// Insert, delete and the text are its privileges.
const TEXT: &str = "<!ELEMENT r (a)*><!ELEMENT a (#PCDATA)>";

/// All three lines, each of 13 bytes but for the last, which has 9.
const LINES: [&str; 3] = ["+ r insert a\n", "- r delete a\n", "+ a text\n"];

fn writing() -> Call {
    Call { make: write_listing, text: TEXT.to_string(), format: 1, given: vec![vec![1, 2, 1]], room: 35 }
}

fn reading() -> Call {
    let given = LINES.map(|line| line.as_bytes().to_vec()).to_vec();
    Call { make: read_listing, text: TEXT.to_string(), format: 1, given, room: 3 }
}

/// A fault of each rank, and what it is refused with where it is the first.
type Fault = (fn(&mut Call), Refusal);

/// Of the format, of the text and of its table.
const OF_TEXTS: [Fault; 5] = [
    (|call| call.format = 3, [1, 0]),
    (|call| call.text.insert(0, 'x'), [20, 0]),
    // The name r is declared again at byte 28.
    (|call| call.text.insert_str(0, "<!ELEMENT r EMPTY>"), [22, 28]),
    // The same child twice; and a type that nothing uses.
    (|call| call.text = call.text.replace("(a)*", "(a,a)"), [7, 0]),
    (|call| call.text += "<!ELEMENT b EMPTY>", [8, 2]),
];

const OF_WRITING: [Fault; 3] = [
    (|call| call.given[0].push(1), [10, 0]),
    (|call| call.given[0][1] = 3, [11, 1]),
    (|call| call.room = 21, [12, 0]),
];

const OF_READING: [Fault; 4] = [
    (|call| call.given[0] = b"+ r insert b\n".to_vec(), [25, 0]),
    (|call| call.given[1] = b"+ r insert a\n".to_vec(), [26, 13]),
    (|call| call.given[2] = b"+ a text".to_vec(), [25, 26]),
    (|call| call.room = 2, [12, 0]),
];

/// Each fault with every choice of later ones; gives how many there are. The last fault comes first: the text is changed at its end before it
/// is at its front.
fn self_orders(sound: Call, faults: &[Fault]) -> usize {
    let mut count = 0;
    for (first, (_, refusal)) in faults.iter().enumerate() {
        let later = faults.len() - 1 - first;
        for chosen in 0..1 << later {
            let mut call = sound.clone();
            for rank in (first..faults.len()).rev() {
                if rank == first || chosen >> (rank - first - 1) & 1 == 1 {
                    (faults[rank].0)(&mut call);
                }
            }
            call.is_refused(*refusal, "the first of several faults");
            count += 1;
        }
    }
    count
}

/// Whatever else is wrong.
fn self_formats() {
    for format in [0, 3, 4, 255, 256, 257, 258, 512, 513, 514, 65_535] {
        for text in [TEXT, "", "x", "<!ELEMENT r ANY>"] {
            for call in [writing(), reading()] {
                let call = Call { format, text: text.to_string(), ..call };
                call.is_refused([1, 0], "a format that is neither 1 nor 2");
                Call { given: vec![vec![3]], room: 0, ..call }.is_refused([1, 0], "and more that is wrong");
            }
        }
    }
}

/// Texts that are refused in both formats, and with what.
const TEXTS: [(&str, Refusal); 12] = [
    ("", [20, 0]),
    ("<!ELEMENT r (a)", [20, 15]),
    ("<!ELEMENT r EMPTYX>", [20, 17]),
    ("<!ELEMENT r ANY>", [21, 12]),
    ("<!ELEMENT r (#PCDATA|a)*>", [21, 20]),
    ("<!ELEMENT abcdefghijklmnopqrstuvwxyz0123456 EMPTY>", [21, 42]),
    ("<!ELEMENT r (a)>", [22, 13]),
    ("<!ELEMENT r EMPTY><!ELEMENT r EMPTY>", [22, 28]),
    ("<!ELEMENT r (a,b,c,d,e,f,g,h,i,j,k,l,m,n,o,p,q)>", [22, 13]),
    ("<!ELEMENT r (a,a)><!ELEMENT a EMPTY>", [7, 0]),
    ("<!ELEMENT r (a)><!ELEMENT a (r*)>", [19, 0]),
    ("<!ELEMENT r EMPTY><!ELEMENT a EMPTY>", [8, 1]),
];

/// The names from n1 on, and a declaration of each with this content.
fn named(from: usize, count: usize, content: &str) -> String {
    (from..from + count).map(|k| format!("<!ELEMENT n{} {}>", k, content)).collect()
}

/// In each of these formats, by both calls, whatever else is wrong.
fn self_text(text: &str, formats: &[u16], refusal: Refusal) {
    for &format in formats {
        for call in [writing(), reading()] {
            let call = Call { text: text.to_string(), format, ..call };
            call.is_refused(refusal, "a refused text");
            Call { given: vec![vec![3]], room: 0, ..call.clone() }
                .is_refused(refusal, "and more that is wrong");
            Call { given: Vec::new(), room: 98_304, ..call }.is_refused(refusal, "and nothing given");
        }
    }
}

fn self_texts() {
    for (text, refusal) in TEXTS {
        self_text(text, &[1, 2], refusal);
    }
    let group = Vec::from_iter((1..18).map(|k| format!("n{}", k))).join("|");
    self_text(&format!("<!ELEMENT r ({})>{}", group, named(1, 17, "EMPTY")), &[1, 2], [4, 0]);
    let texts = |choices_of: usize| choices(choices_of) + &named(choices_of, 16, "(#PCDATA)");
    self_text(&texts(18), &[1, 2], [9, 0]);
    // 17 choices and 16 texts have 4,096 privileges in format 1 and 4,368 in format 2, 16 of both 3,856 and 4,112.
    self_text(&texts(17), &[2], [9, 0]);
    self_text(&texts(16), &[2], [9, 0]);
    // Those that are taken: the marks are too few, or the line is none.
    let empty = choices(16) + &named(16, 16, "EMPTY");
    for (text, format) in [(texts(17), 1), (texts(16), 1), (empty.clone(), 1), (empty, 2)] {
        Call { text: text.clone(), format, ..writing() }.is_refused([10, 0], "as many privileges as may be");
        Call { text, format, ..reading() }.is_refused([25, 0], "as many privileges as may be");
    }
}

fn self_marks() {
    for length in [0, 1, 2, 4, 5, 4096] {
        Call { given: vec![vec![1; length]], ..writing() }.is_refused([10, 0], "other marks than V");
        Call { given: vec![vec![3; length]], room: 0, ..writing() }
            .is_refused([10, 0], "10 before 11 and 12");
    }
    // In format 2 there is one privilege more.
    Call { format: 2, ..writing() }.is_refused([10, 0], "the marks of format 1");
    Call { given: vec![vec![1; 4]], ..writing() }.is_refused([10, 0], "the marks of format 2");
    for mark in [3, 4, 43, 45, 48, 128, 255] {
        for (marks, place) in [([mark, 0, 1], 0), ([2, mark, 1], 1), ([1, 2, mark], 2), ([0, mark, mark], 1)]
        {
            let call = Call { given: vec![marks.to_vec()], ..writing() };
            call.is_refused([11, place], "a mark above 2");
            Call { room: 0, ..call }.is_refused([11, place], "11 before 12");
        }
    }
}

fn self_room() {
    (0..35).for_each(|room| {
        Call { room, ..writing() }.is_refused([12, 0], "a result too short for the listing")
    });
    for (marks, length) in
        [([1, 0, 0], 13), ([0, 2, 0], 13), ([0, 0, 1], 9), ([2, 2, 0], 26), ([0, 1, 1], 22)]
    {
        let call = Call { given: vec![marks.to_vec()], ..writing() };
        (0..length).for_each(|room| Call { room, ..call.clone() }.is_refused([12, 0], "a result too short"));
    }
    for room in 0..3 {
        Call { room, ..reading() }.is_refused([12, 0], "a result too short for the marks");
        Call { room, given: Vec::new(), ..reading() }.is_refused([12, 0], "a result too short, and no line");
    }
    Call { room: 3, format: 2, ..reading() }.is_refused([12, 0], "one privilege more in format 2");
}

/// Listings of the sample schema that are refused, and with what; the place is the byte behind `^`.
const OF_SHOW: &[(u16, usize, &str)] = &[
    (1, 25, "^+ job insert layer"),
    (1, 25, "+ job insert layer\n^- job delete layer"),
    (1, 25, "+ name text\n^- job delete layer"),
    (1, 25, "+ job insert layer\n^-"),
    (1, 25, "^\n"),
    (1, 25, "^\n\n"),
    (1, 25, "^\n+ job insert layer\n"),
    (1, 25, "+ job insert layer\n^\n"),
    (1, 25, "+ job insert layer\n^\n- job delete layer\n"),
    (1, 25, "^ "),
    (1, 25, "^+"),
    (1, 25, "^+\n"),
    (1, 25, "^- \n"),
    (1, 25, "^ + job insert layer\n"),
    (1, 25, "^+  job insert layer\n"),
    (1, 25, "^+ job  insert layer\n"),
    (1, 25, "^+ job insert  layer\n"),
    (1, 25, "^+ job insert layer \n"),
    (1, 25, "^+\tjob insert layer\n"),
    (1, 25, "^+ job\tinsert layer\n"),
    (1, 25, "^+ job insert\tlayer\n"),
    (1, 25, "^+ job insert layer\t\n"),
    (1, 25, "^+ job insert layer\r\n"),
    (1, 25, "+ job insert layer\n^- job delete layer\r\n"),
    (1, 25, "^+ job insert layer\r"),
    (1, 25, "^+ job insert layer\r- job delete layer\n"),
    (1, 25, "^+ job insert layer- job delete layer\n"),
    (1, 25, "^+ job insert layer - job delete layer\n"),
    (1, 25, "^+ job insert\nlayer\n"),
    (1, 25, "^+\njob insert layer\n"),
    (1, 25, "^job insert layer\n"),
    (1, 25, "^ job insert layer\n"),
    (1, 25, "^+job insert layer\n"),
    (1, 25, "^++ job insert layer\n"),
    (1, 25, "^+- job insert layer\n"),
    (1, 25, "^+ + job insert layer\n"),
    (1, 25, "^* job insert layer\n"),
    (1, 25, "^1 job insert layer\n"),
    (1, 25, "^0 job insert layer\n"),
    (1, 25, "^− job insert layer\n"),
    (1, 25, "^\0+ job insert layer\n"),
    (1, 25, "^+ job insert layer\0\n"),
    (1, 25, "^+ job\0insert layer\n"),
    (1, 25, "^+ job insert layér\n"),
    (1, 25, "^+ job\u{a0}insert layer\n"),
    (1, 25, "^+ job\n"),
    (1, 25, "^+ job insert\n"),
    (1, 25, "^+ job insert \n"),
    (1, 25, "^+ job layer\n"),
    (1, 25, "^+ insert job layer\n"),
    (1, 25, "^+ job layer insert\n"),
    (1, 25, "^+ job insert layer layer\n"),
    (1, 25, "^+ job insert layer text\n"),
    (1, 25, "^+ job inser layer\n"),
    (1, 25, "^+ job inserts layer\n"),
    (1, 25, "^+ job Insert layer\n"),
    (1, 25, "^+ job add layer\n"),
    (1, 25, "^+ Job insert layer\n"),
    (1, 25, "^+ JOB insert layer\n"),
    (1, 25, "^+ jo insert layer\n"),
    (1, 25, "^+ jobs insert layer\n"),
    (1, 25, "^+ job insert laye\n"),
    (1, 25, "^+ job insert layers\n"),
    (1, 25, "^+ shot insert layer\n"),
    (1, 25, "^+ job insert shot\n"),
    (1, 25, "^+ job insert name\n"),
    (1, 25, "^+ job insert job\n"),
    (1, 25, "^+ #0 insert layer\n"),
    (1, 25, "^+ #00 insert layer\n"),
    (1, 25, "^+ job insert #1\n"),
    (1, 25, "^+ #2 text\n"),
    (1, 25, "^+ #8 text\n"),
    (1, 25, "^+ job text\n"),
    (1, 25, "^+ layer text\n"),
    (1, 25, "^+ draft text\n"),
    (1, 25, "^+ state text\n"),
    (1, 25, "^+ name text name\n"),
    (1, 25, "^+ name insert text\n"),
    (1, 25, "^+ layer insert name\n"),
    (1, 25, "^+ layer replace name range\n"),
    (1, 25, "^+ state insert draft\n"),
    (1, 25, "^+ state delete draft\n"),
    (1, 25, "^+ state replace draft\n"),
    (1, 25, "^+ state replace draft held final\n"),
    (1, 25, "^+ state replace draft name\n"),
    (1, 25, "^+ state replace name draft\n"),
    (1, 25, "^+ state replace draft draft\n"),
    (1, 25, "^+ job replace layer layer\n"),
    (2, 25, "^+ job replace layer\n"),
    (2, 25, "^+ job replace layer name\n"),
    (2, 25, "^+ job replace name layer\n"),
    (2, 25, "^+ job replace layer layer layer\n"),
    (2, 25, "^+ state replace name name\n"),
    (2, 25, "^+ layer replace name name\n"),
    (1, 25, "+ name text\n^# a comment\n- final text\n"),
    (1, 26, "+ job insert layer\n^+ job insert layer\n"),
    (1, 26, "+ job insert layer\n^- job insert layer\n"),
    (1, 26, "- job insert layer\n^+ job insert layer\n"),
    (1, 26, "+ job delete layer\n^+ job insert layer\n"),
    (1, 26, "+ name text\n^- job delete layer\n"),
    (1, 26, "+ final text\n^+ name text\n"),
    (1, 26, "+ state replace held draft\n^+ state replace draft held\n"),
    (1, 26, "+ job insert layer\n- final text\n^+ name text\n+ range text\n"),
    (1, 26, "+ job insert layer\n+ name text\n^+ job insert layer\n"),
    (2, 26, "+ job replace layer layer\n^+ job delete layer\n"),
    (2, 26, "+ job replace layer layer\n^- job replace layer layer\n"),
    (2, 26, "+ state replace draft held\n^+ state replace draft draft\n"),
    // Two faults: the earlier line decides.
    (1, 26, "+ name text\n^- job delete layer\nx\n"),
    (1, 26, "+ name text\n^- job delete layer\n- job delete layer"),
    (1, 25, "^x\n+ name text\n- job delete layer\n"),
    (1, 25, "+ name text\n^- Range text\n- job delete layer\n"),
    (1, 25, "+ name text\n^\n- job delete layer\n"),
];

/// The same of the text with made types within made types.
const OF_NESTED: &[(u16, usize, &str)] = &[
    (1, 25, "^+ #04 insert #5\n"),
    (1, 25, "^+ #4 insert #05\n"),
    (1, 25, "+ #4 insert #5\n^+ #4 delete #005\n"),
    (1, 25, "^+ # insert #5\n"),
    (1, 25, "^+ #4 insert #\n"),
    (1, 25, "^+ 4 insert #5\n"),
    (1, 25, "^+ #4 insert 5\n"),
    (1, 25, "^+ ##4 insert #5\n"),
    (1, 25, "^+ #+4 insert #5\n"),
    (1, 25, "^+ #-4 insert #5\n"),
    (1, 25, "^+ # 4 insert #5\n"),
    (1, 25, "^+ #4. insert #5\n"),
    (1, 25, "^+ #0x4 insert #5\n"),
    (1, 25, "^+ #3 insert #5\n"),
    (1, 25, "^+ #5 insert #5\n"),
    (1, 25, "^+ #4 insert #4\n"),
    (1, 25, "^+ #4 insert #6\n"),
    (1, 25, "^+ #4 insert a\n"),
    (1, 25, "^+ #8 insert b\n"),
    (1, 25, "^+ #260 insert #5\n"),
    (1, 25, "^+ #65540 insert #5\n"),
    (1, 25, "^+ #4294967300 insert #5\n"),
    (1, 25, "^+ #18446744073709551620 insert #5\n"),
    (1, 25, "^+ #4 insert #340282366920938463463374607431768211461\n"),
    (1, 25, "^+ #1 text\n"),
    (1, 25, "^+ #5 replace #1 #6\n"),
    (1, 25, "^+ #5 replace #6 #1\n"),
    (1, 25, "^+ #5 replace #6 #6\n"),
    (1, 25, "^+ #7 insert #2\n"),
    (1, 25, "^+ #6 text\n"),
    (1, 25, "^+ #4 replace #5 #5\n"),
    (1, 26, "+ #7 insert b\n^+ a text\n"),
    (1, 26, "+ #5 replace a #6\n^+ #4 delete #5\n"),
    (2, 26, "+ #5 replace a #6\n^- #5 replace a a\n"),
    (2, 25, "^+ #5 replace a b\n"),
];

/// With room, and with none.
fn self_listings(text: &[u8], refused: &[(u16, usize, &str)]) {
    for (format, number, listing) in refused {
        let place = listing.find('^').expect("a place");
        let given = vec![listing.replacen('^', "", 1).into_bytes()];
        let text = String::from_utf8(text.to_vec()).expect("a text that is ASCII");
        let call = Call { text, format: *format, given, ..reading() };
        for room in [0, 3, 20] {
            Call { room, ..call.clone() }.is_refused([*number, place], listing);
        }
    }
}

/// Without a privilege no line is one.
fn self_without_privileges() {
    for format in [1, 2] {
        let text = "<!ELEMENT r EMPTY>".to_string();
        for listing in ["\n", "+ r text\n", "-", "+ r text", "r\n"] {
            let given = vec![listing.as_bytes().to_vec()];
            Call { text: text.clone(), format, given, room: 0, ..reading() }
                .is_refused([25, 0], "a line for V 0");
        }
        Call { text, format, given: vec![vec![0]], ..writing() }.is_refused([10, 0], "a mark for V 0");
    }
}

/// Gives how many orders of faults and how many listings were tried.
pub fn self_refusals() -> (usize, usize) {
    self_formats();
    self_texts();
    self_marks();
    self_room();
    self_listings(SHOW, OF_SHOW);
    self_listings(NESTED.as_bytes(), OF_NESTED);
    self_without_privileges();
    let of_writing = self_orders(writing(), &[&OF_TEXTS[..], &OF_WRITING].concat());
    let of_reading = self_orders(reading(), &[&OF_TEXTS[..], &OF_READING].concat());
    (of_writing + of_reading, OF_SHOW.len() + OF_NESTED.len())
}
