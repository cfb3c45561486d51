// Cases of listings that are written.

use super::super::bases::Base;
use super::super::chance::Random;
use super::large::large_write;
use super::refused::{refused, refused_case, spoil_text};
use super::schemas::small;
use super::{bytes, lent, marks, Mailed};
use crate::format::Format;
use crate::listing::lines;
use crate::listing_case::ListingCase;
use crate::situations::listings::OfListings;
use crate::situations::writing::OfWriting;
use crate::table::{total, UNSET};

/// What a case is made of.
pub struct Writing(Mailed);

/// Other marks: one fewer or more, none, or as many as the other format has.
fn spoil_length(r: &mut Random, base: &Mailed, marks: &mut Vec<u8>) {
    let v = base.listed.v();
    let other = if base.format == Format::One { Format::Two } else { Format::One };
    let lengths = [v.saturating_sub(1), v + 1, 0, total(other, &base.listed.table.types)];
    marks.resize_with(r.pick(&lengths), || r.next() as u8 % 3);
}

/// One mark above 2, or two: the first, the last, or any.
fn spoil_marks(r: &mut Random, marks: &mut [u8]) {
    let Some(last) = marks.len().checked_sub(1) else { return };
    for _ in 0..r.pick(&[1, 1, 2]) {
        let any = r.below(last + 1);
        marks[r.pick(&[0, last, any])] = r.pick(&[3, 3, 4, b'+', b'-', 255]);
    }
}

/// A shorter result.
fn spoil_room(r: &mut Random, base: &Mailed, case: &mut ListingCase) {
    let marks: Vec<u8> = case.given.iter().map(|&mark| if mark > 2 { UNSET } else { mark }).collect();
    let listing = if marks.len() == base.listed.v() { base.listed.listing(&marks) } else { Vec::new() };
    let last = lines(&listing).last().map_or(0, <[u8]>::len);
    let any = r.below(listing.len() + 1);
    let lengths = [
        listing.len().saturating_sub(1),
        listing.len().saturating_sub(1),
        listing.len() - last,
        marks.len(),
        lines(&listing).count(),
        0,
        any,
    ];
    let length = r.pick(&lengths);
    case.out = bytes(r, length);
}

/// The numbers of the faults besides those of the text, in the order of their checks.
const NUMBERS: [usize; 3] = [10, 11, 12];

fn spoil_for(r: &mut Random, number: usize, base: &Mailed, case: &mut ListingCase) {
    match number {
        10 => spoil_length(r, base, &mut case.given),
        11 => spoil_marks(r, &mut case.given),
        _ => spoil_room(r, base, case),
    }
}

/// A fault for this number, and for later ones none or one in two.
fn spoil_from(r: &mut Random, number: usize, base: &Mailed, case: &mut ListingCase) {
    let more = r.one_in(2);
    for later in NUMBERS.into_iter().filter(|&later| later >= number) {
        if later == number || more && r.one_in(2) {
            spoil_for(r, later, base, case);
        }
    }
}

impl Base for Writing {
    type Case = ListingCase;

    type Aimed = OfWriting;

    const TURN: usize = 31;

    fn of(r: &mut Random, format: Format) -> Writing {
        Writing(small(r, format))
    }

    fn sound_case(&self, r: &mut Random) -> ListingCase {
        let Mailed { format, text, listed } = &self.0;
        let given = marks(r, listed.v());
        let out = lent(r, listed.listing(&given).len());
        ListingCase { text: text.clone(), format: format.word(), given, out }
    }

    /// One in four has a fault of the text.
    fn spoil(&self, r: &mut Random, case: &mut ListingCase) {
        let first = r.pick(&[0, 10, 11, 12]);
        if first == 0 {
            spoil_text(r, self.0.format, case);
        }
        spoil_from(r, first, &self.0, case);
    }

    /// With a fault for the number that the situation comes with.
    fn case_for(&self, r: &mut Random, situation: &'static str) -> ListingCase {
        let mut case = self.sound_case(r);
        match OfWriting::number_of(situation) {
            None => (),
            Some(number) if NUMBERS.contains(&number) => spoil_from(r, number, &self.0, &mut case),
            Some(number) => return refused(r, self, self.0.format, number),
        }
        case
    }

    fn refused_case(r: &mut Random, turn: usize) -> ListingCase {
        refused_case::<Writing>(r, turn)
    }

    fn large_case(r: &mut Random, turn: usize) -> ListingCase {
        large_write(r, turn)
    }
}
