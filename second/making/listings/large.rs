// Cases of long listings, and of as many privileges or types as there may be.

use super::super::bases::FORMATS;
use super::super::chance::Random;
use super::super::dtds::limits::made;
use super::super::dtds::pieces::{pieces, text_of};
use super::super::dtds::sound::name_of;
use super::super::dtds::tables::ladder;
use super::super::dtds::written::Content;
use super::refused::{short_ladder, short_names};
use super::{bytes, Mailed};
use crate::dtd::limits::MOST_NAME_BYTES;
use crate::format::Format;
use crate::listing::{lines, Listed};
use crate::listing_case::ListingCase;
use crate::table::{ALLOWED, FORBIDDEN, MOST_TYPES, UNSET};

/// The first length that 16 bits do not hold.
const LONG: usize = 65_536;

fn mailed(format: Format, text: Vec<u8>) -> Mailed {
    let listed = Listed::of(&text, format.word()).expect("a large text that is taken");
    Mailed { format, text, listed }
}

/// V is 4,096, with short names.
fn full(r: &mut Random, format: Format) -> Mailed {
    if format == Format::One {
        return mailed(format, short_ladder(r, 17));
    }
    let mut dtd = ladder(r, 16);
    dtd.names = short_names(dtd.names.len());
    dtd.declarations.iter_mut().skip(16).for_each(|declaration| declaration.1 = Content::Empty);
    mailed(format, text_of(&pieces(r, &dtd)))
}

/// Three choices of 16 kinds, with names of 32 bytes.
fn wide(r: &mut Random, format: Format) -> Mailed {
    let mut dtd = ladder(r, 3);
    let start = name_of(r, MOST_NAME_BYTES - 2);
    let ends = (10..).take(dtd.names.len()).map(|end: usize| end.to_string());
    dtd.names = ends.map(|end| [&start[..], end.as_bytes()].concat()).collect();
    mailed(format, text_of(&pieces(r, &dtd)))
}

/// 256 types, most of them made.
fn crowded(r: &mut Random, format: Format) -> Mailed {
    let dtd = made(r, MOST_TYPES);
    mailed(format, text_of(&pieces(r, &dtd)))
}

/// Marks whose listing is a little longer than 16 bits hold.
fn long_marks(r: &mut Random, base: &Mailed) -> Vec<u8> {
    let mut marks: Vec<u8> = (0..base.listed.v()).map(|_| r.pick(&[ALLOWED, FORBIDDEN])).collect();
    let mut over = base.listed.listing(&marks).len() - LONG;
    for _ in 0..marks.len() {
        let privilege = r.below(marks.len());
        let line = base.listed.lines[privilege].len() + 3;
        if marks[privilege] != UNSET && line <= over {
            marks[privilege] = UNSET;
            over -= line;
        }
    }
    marks
}

/// A text with a long listing, and marks for that: with names of 32 bytes, or with 4,096 privileges.
fn long(r: &mut Random, round: usize) -> (Mailed, Vec<u8>) {
    let format = FORMATS[round % 2];
    let base = if round % 5 < 3 { wide(r, format) } else { full(r, format) };
    let marks = long_marks(r, &base);
    (base, marks)
}

/// Marks of which a few are set, the first and the last among them.
fn few_marks(r: &mut Random, v: usize) -> Vec<u8> {
    let mut marks = vec![UNSET; v];
    for any in [0, v - 1, r.below(v), r.below(v), r.below(v), v - 1 - r.below(v / 3), v - 1 - r.below(v / 3)]
    {
        marks[any] = r.pick(&[ALLOWED, FORBIDDEN]);
    }
    marks
}

fn case(base: &Mailed, given: Vec<u8>, out: Vec<u8>) -> ListingCase {
    ListingCase { text: base.text.clone(), format: base.format.word(), given, out }
}

/// With a result that is long enough.
fn write(r: &mut Random, base: &Mailed, marks: Vec<u8>) -> ListingCase {
    let length = base.listed.listing(&marks).len() + r.below(2);
    let out = bytes(r, length);
    case(base, marks, out)
}

/// In turn for a long listing; for a result as long as 16 bits hold of its length; for few lines of 4,096 privileges, in each format; for no
/// mark of them, and for one above 2 at the last; and for 256 types.
pub fn large_write(r: &mut Random, turn: usize) -> ListingCase {
    let (way, round) = (turn % 7, turn / 7);
    match way {
        0 => {
            let (base, marks) = long(r, round);
            write(r, &base, marks)
        }
        1 => {
            let (base, marks) = long(r, round);
            let out = bytes(r, base.listed.listing(&marks).len() % LONG);
            case(&base, marks, out)
        }
        2 | 3 => {
            let base = full(r, FORMATS[way - 2]);
            let marks = few_marks(r, base.listed.v());
            write(r, &base, marks)
        }
        4 => case(&full(r, FORMATS[round % 2]), Vec::new(), Vec::new()),
        5 => {
            let base = full(r, FORMATS[round % 2]);
            let mut marks = few_marks(r, base.listed.v());
            marks[base.listed.v() - 1] = r.pick(&[3, 255]);
            case(&base, marks, Vec::new())
        }
        _ => {
            let base = crowded(r, FORMATS[round % 2]);
            let marks = few_marks(r, base.listed.v());
            write(r, &base, marks)
        }
    }
}

/// With a result that is long enough.
fn read(r: &mut Random, base: &Mailed, listing: Vec<u8>) -> ListingCase {
    let length = base.listed.v() + r.below(2);
    let out = bytes(r, length);
    case(base, listing, out)
}

/// A long listing with a fault behind: another line, one of the first again, or the last one cut.
fn long_fault(r: &mut Random, base: &Mailed, marks: &[u8]) -> Vec<u8> {
    let mut listing = base.listed.listing(marks);
    let line = match r.below(3) {
        0 => b"+ none text\n".to_vec(),
        1 => lines(&listing).next().map_or(Vec::new(), <[u8]>::to_vec),
        _ => b"-".to_vec(),
    };
    listing.extend(line);
    listing
}

/// In turn for a long listing; for one with a fault behind; for few lines of 4,096 privileges, in each format; for a result that is a byte
/// short for them; for 256 types; and for the number 256 as a type's.
pub fn large_read(r: &mut Random, turn: usize) -> ListingCase {
    let (way, round) = (turn % 7, turn / 7);
    match way {
        0 | 1 => {
            let (base, marks) = long(r, round);
            let listing = if way == 0 { base.listed.listing(&marks) } else { long_fault(r, &base, &marks) };
            read(r, &base, listing)
        }
        2..=4 => {
            let base = full(r, FORMATS[if way == 4 { round } else { way } % 2]);
            let marks = few_marks(r, base.listed.v());
            let mut case = read(r, &base, base.listed.listing(&marks));
            if way == 4 {
                case.out.truncate(base.listed.v() - 1);
            }
            case
        }
        _ => {
            let base = crowded(r, FORMATS[round % 2]);
            let marks = few_marks(r, base.listed.v());
            let mut listing = base.listed.listing(&marks);
            if way == 6 {
                listing.extend(b"+ #256 text\n");
            }
            read(r, &base, listing)
        }
    }
}
