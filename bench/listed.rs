// What is measured of `write_listing` and `read_listing`: the sample with the vendor's marks; the ordinary table; the largest tables with every mark
// set, with short names and with names alike; nearly as large ones whose types are made; the largest without a line, and with a fault in the last
// line; and listings that double. Of the texts of `texts` the stack is measured alone.

use crate::inputs::{
    by_chance, decode, digits, encode, largest_table, named, ordinary, v_of, ALLOWED, FORBIDDEN, ONE, TWO, UNSET,
};
use crate::texts::{alike, declared, longest, of_made, short, texts, Name, Text, SHOW};
use crate::{fast, proved};
use second::listing_case::ListingCase;

/// A listing that is made when it is asked for: over the table of a text in a format, by marks that go by how many privileges there are, without a
/// fault or with one in the last line.
pub struct Input {
    pub name: String,
    format: u16,
    text: String,
    marks: Box<dyn Fn(usize) -> Vec<u8>>,
    is_at_fault: bool,
}

/// A policy over the table of a text, and its listing.
pub struct Listed {
    pub name: String,
    format: u16,
    pub text: Vec<u8>,
    marks: Vec<u8>,
    pub listing: Vec<u8>,
}

/// As many bytes as a listing can have.
const MOST_BYTES: usize = 446_464;

/// The marks as a listing; none where they are refused.
fn listing_of(text: &[u8], format: u16, marks: &[u8]) -> Vec<u8> {
    let mut out = vec![0; MOST_BYTES];
    let told = fast::write_listing(text, format, marks, &mut out);
    out.truncate(told.place);
    if told.number == 0 {
        out
    } else {
        Vec::new()
    }
}

/// How many privileges the table of a text has in a format; none where the text is refused.
fn v_in(text: &[u8], format: u16) -> usize {
    let mut words = vec![0; 1800];
    match proved::read_dtd(text, &mut words).number {
        0 => v_of(&encode(format, &decode(&words), 0)),
        _ => 0,
    }
}

impl Input {
    fn of(name: &str, format: u16, text: String, marks: impl Fn(usize) -> Vec<u8> + 'static) -> Input {
        Input { name: named(name, format), format, text, marks: Box::new(marks), is_at_fault: false }
    }

    fn at_fault(self) -> Input {
        Input { is_at_fault: true, ..self }
    }

    pub fn listed(&self) -> Listed {
        let (name, format, text) = (self.name.clone(), self.format, self.text.clone().into_bytes());
        let marks = (self.marks)(v_in(&text, format));
        let listing = listing_of(&text, format, &marks);
        let listed = Listed { name, format, text, marks, listing };
        if self.is_at_fault {
            at_fault(listed)
        } else {
            listed
        }
    }
}

impl Listed {
    fn case(&self, given: &[u8], room: usize) -> ListingCase {
        ListingCase { text: self.text.clone(), format: self.format, given: given.to_vec(), out: vec![u8::MAX; room] }
    }

    /// The marks, and room for their listing.
    pub fn written(&self) -> ListingCase {
        self.case(&self.marks, self.listing.len())
    }

    /// The listing, and room for its marks.
    pub fn read(&self) -> ListingCase {
        self.case(&self.listing, self.marks.len())
    }

    pub fn lines(&self) -> usize {
        self.listing.iter().filter(|&&byte| byte == b'\n').count()
    }
}

// ---------------------------------------------------------------- marks

/// Each is set, by chance.
fn all_set(v: usize) -> Vec<u8> {
    by_chance(v, &[ALLOWED, FORBIDDEN], 1)
}

/// So many of them are set, by chance, and as far apart as they can be.
fn some_set(v: usize, lines: usize) -> Vec<u8> {
    let is_set = |p: usize| (p + 1) * lines / v > p * lines / v;
    let mark = |(p, mark): (usize, u8)| if is_set(p) { mark } else { UNSET };
    all_set(v).into_iter().enumerate().map(mark).collect()
}

/// The last mark is none, and in the last line the type's name ends with another byte.
fn at_fault(mut listed: Listed) -> Listed {
    if let Some(mark) = listed.marks.last_mut() {
        *mark = 3;
    }
    let before = listed.listing.iter().rev().skip(1).position(|&byte| byte == b'\n').unwrap_or(0);
    let line = listed.listing.len() - 1 - before;
    let name = listed.listing[line + 2..].iter().position(|&byte| byte == b' ').unwrap_or(0);
    listed.listing[line + 2 + name - 1] = b'~';
    listed
}

// ---------------------------------------------------------------- what is measured

/// The vendor's marks, as in samples/vendor.txt and samples/vendor-2.txt.
fn vendor(format: u16) -> Vec<u8> {
    digits(if format == ONE { "11021212002" } else { "121020121020002" })
}

/// Made choices of 16 made stars, as many as there may be: E 240 and V 3,809, or, in format 2, E 223 and V 3,953.
fn made(format: u16) -> Input {
    let choices = if format == ONE { 14 } else { 13 };
    Input::of("made", format, of_made(choices), all_set)
}

fn inputs_of(format: u16) -> Vec<Input> {
    let ordinary = declared(&ordinary(format), short);
    let thirds = |v| by_chance(v, &[UNSET, ALLOWED, FORBIDDEN], 1);
    let largest = |name: &str, names: Name, marks: fn(usize) -> Vec<u8>| {
        Input::of(name, format, longest(&largest_table(format), names), marks)
    };
    vec![
        Input::of("show", format, SHOW.to_string(), move |_| vendor(format)),
        Input::of("ordinary", format, ordinary, thirds),
        largest("largest", short, all_set),
        largest("alike", alike, all_set),
        made(format),
        largest("largest-unset", short, |v| vec![UNSET; v]),
        largest("largest-fault", short, all_set).at_fault(),
        largest("alike-fault", alike, all_set).at_fault(),
    ]
}

pub fn inputs() -> Vec<Input> {
    [ONE, TWO].into_iter().flat_map(inputs_of).collect()
}

/// Each text that `read_dtd` is measured on, in both formats, with every mark set.
pub fn of_texts() -> Vec<Input> {
    let of = |Text { name, case }: Text| {
        let text = String::from_utf8_lossy(&case.text).into_owned();
        [ONE, TWO].map(|format| Input::of(&format!("text-{}", name), format, text.clone(), all_set))
    };
    texts().into_iter().flat_map(of).collect()
}

/// How many lines the listings of `growing` have.
const LINES: [usize; 6] = [0, 256, 512, 1024, 2048, 4096];

/// Listings that double, over one text, with short names and then with names alike; the first has no line.
pub fn growing() -> [Vec<Input>; 2] {
    let of = |what: &str, names: Name| {
        let text = declared(&largest_table(ONE), names);
        let input = |lines| Input::of(&format!("{}-{}", what, lines), ONE, text.clone(), move |v| some_set(v, lines));
        LINES.map(input).into()
    };
    [of("lines", short), of("alike-lines", alike)]
}
