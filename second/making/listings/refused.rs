// Formats and DTD texts that are refused.

use super::super::bases::{refusal_at, Base};
use super::super::chance::Random;
use super::super::dtds::aimed::{ways_by_bytes, ways_by_whole};
use super::super::dtds::pieces::{pieces, text_of};
use super::super::dtds::tables::ladder;
use crate::format::Format;
use crate::listing_case::{ListingCase, OF_TEXT};

/// The most bytes of a text that is refused, but for 9.
const MOST_BYTES: usize = 1000;

/// Neither 1 nor 2.
const OTHERS: [u16; 12] = [0, 0, 3, 3, 65_535, 65_535, 257, 513, 258, 514, 256, 512];

/// Names of one byte and of two, all different.
pub fn short_names(count: usize) -> Vec<Vec<u8>> {
    let name = |k: usize| match k {
        0..=25 => vec![b'a' + k as u8],
        _ => vec![b'A' + (k / 10) as u8, b'0' + (k % 10) as u8],
    };
    (0..count).map(name).collect()
}

/// So many choices of 16 kinds over 16 texts, in few bytes.
pub fn short_ladder(r: &mut Random, choices: usize) -> Vec<u8> {
    let mut dtd = ladder(r, choices);
    dtd.names = short_names(dtd.names.len());
    text_of(&pieces(r, &dtd))
}

/// Over 4,096 privileges in this format; in format 2, as a rule, not in format 1.
fn many_privileges(r: &mut Random, format: Format) -> Vec<u8> {
    let choices = match format {
        Format::One => 18,
        Format::Two => r.pick(&[16, 17, 18, 18]),
    };
    short_ladder(r, choices)
}

/// A text that is refused with this number.
fn refused_text(r: &mut Random, number: usize, format: Format) -> Vec<u8> {
    if number == 9 {
        return many_privileges(r, format);
    }
    let ways = if number == 20 { ways_by_bytes() } else { ways_by_whole() };
    loop {
        let aimed = ways[r.below(ways.len())].make(r);
        if aimed.number == number && aimed.text.len() <= MOST_BYTES {
            return aimed.text;
        }
    }
}

/// Makes a case one that is refused with this number; where that is 1, half of the texts are refused too.
fn refuse(r: &mut Random, number: usize, format: Format, case: &mut ListingCase) {
    if number != 1 {
        case.text = refused_text(r, number, format);
        return;
    }
    case.format = r.pick(&OTHERS);
    if r.one_in(2) {
        let other = r.pick(&[20, 21, 22, 4, 7, 19, 8]);
        case.text = refused_text(r, other, format);
    }
}

/// A fault of the format or of the text.
pub fn spoil_text(r: &mut Random, format: Format, case: &mut ListingCase) {
    let number = r.pick(OF_TEXT);
    refuse(r, number, format, case);
}

/// A case of this format that is refused with this number, in some cases with other faults too, and with nothing given or lent.
pub fn refused<B: Base<Case = ListingCase>>(
    r: &mut Random,
    base: &B,
    format: Format,
    number: usize,
) -> ListingCase {
    let is_spoilt = r.one_in(2);
    let mut case = ListingCase { format: format.word(), ..base.case(r, is_spoilt) };
    if r.one_in(6) {
        case.given.clear();
    }
    if r.one_in(6) {
        case.out.clear();
    }
    refuse(r, number, format, &mut case);
    case
}

/// The same with the number of this turn.
pub fn refused_case<B: Base<Case = ListingCase>>(r: &mut Random, turn: usize) -> ListingCase {
    let (number, format) = refusal_at(turn, OF_TEXT);
    let base = B::of(r, format);
    refused(r, &base, format, number)
}
