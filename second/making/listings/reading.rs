// Cases of listings that are read.

use super::super::bases::Base;
use super::super::chance::Random;
use super::large::large_read;
use super::lines::{Lines, Way};
use super::refused::{refused, refused_case, spoil_text};
use super::schemas::small;
use super::{bytes, edits, lent, lines, marks, names, orders, Mailed};
use crate::format::Format;
use crate::listing::lines as lines_of;
use crate::listing_case::{ListingCase, OF_TEXT};
use crate::situations::listings::OfListings;
use crate::situations::reading::OfReading;
use crate::situations::Aimed;
use crate::table::{total, ALLOWED, FORBIDDEN};

/// What a case is made of.
pub struct Reading(pub Mailed);

/// The ways to a line that is not one of these, and all ways.
fn of_lines() -> Vec<Way> {
    [lines::WAYS, names::WAYS, edits::WAYS].concat()
}

fn ways() -> Vec<Way> {
    [&of_lines(), orders::WAYS].concat()
}

/// A line of a privilege, or of none where there is no privilege.
fn any_line(r: &mut Random, base: &Mailed) -> Vec<u8> {
    let sign = r.pick(&["+", "-"]);
    let line = match base.listed.v() {
        0 => format!("{} text", base.listed.names[0]),
        v => base.listed.lines[r.below(v)].clone(),
    };
    format!("{} {}\n", sign, line).into_bytes()
}

/// The listing spoilt in a way.
fn spoil_lines(r: &mut Random, base: &Mailed, way: &Way, listing: &mut Vec<u8>) {
    let mut lines: Lines = lines_of(listing).map(<[u8]>::to_vec).collect();
    if lines.is_empty() {
        lines.push(any_line(r, base));
    }
    (way.1)(r, base, &mut lines);
    *listing = lines.concat();
}

/// A shorter result.
fn spoil_room(r: &mut Random, base: &Mailed, case: &mut ListingCase) {
    let v = base.listed.v();
    let other = if base.format == Format::One { Format::Two } else { Format::One };
    let lengths = [
        v.saturating_sub(1),
        v.saturating_sub(1),
        0,
        lines_of(&case.given).count(),
        total(other, &base.listed.table.types),
        r.below(v + 1),
    ];
    let length = r.pick(&lengths);
    case.out = bytes(r, length);
}

/// The lines up to some one and those behind it, spoilt in these ways.
fn spoil_parts(r: &mut Random, base: &Mailed, ways: &[Vec<Way>], listing: &mut Vec<u8>) {
    let count = lines_of(listing).count();
    let at = lines_of(listing).take(r.below(count + 1)).map(<[u8]>::len).sum();
    let mut parts = [listing[..at].to_vec(), listing[at..].to_vec()];
    for (part, ways) in parts.iter_mut().zip(ways) {
        let way = r.pick(ways);
        spoil_lines(r, base, &way, part);
    }
    *listing = parts.concat();
}

/// Faults of one part of the lines or of two.
fn spoil_some_lines(r: &mut Random, base: &Mailed, listing: &mut Vec<u8>) {
    let mut ways = || if r.one_in(3) { orders::WAYS.to_vec() } else { of_lines() };
    let ways = [ways(), ways()];
    let count = r.pick(&[1, 1, 2]);
    spoil_parts(r, base, &ways[..count], listing);
}

/// The ways of two faults, where the situation is one of two.
fn two_ways(situation: &str) -> Option<[Vec<Way>; 2]> {
    let (of_lines, of_orders) = (of_lines(), orders::WAYS.to_vec());
    match situation {
        "25, then 25" => Some([of_lines.clone(), of_lines]),
        "25, then 26" => Some([of_lines, of_orders]),
        "26, then 25" => Some([of_orders, of_lines]),
        "26, then 26" => Some([of_orders.clone(), of_orders]),
        _ => None,
    }
}

impl Reading {
    /// Each privilege has a line.
    fn full_case(&self, r: &mut Random) -> ListingCase {
        let marks: Vec<u8> = (0..self.0.listed.v()).map(|_| r.pick(&[ALLOWED, FORBIDDEN])).collect();
        ListingCase { given: self.0.listed.listing(&marks), ..self.sound_case(r) }
    }
}

impl Base for Reading {
    type Case = ListingCase;

    type Aimed = OfReading;

    const TURN: usize = 68;

    fn of(r: &mut Random, format: Format) -> Reading {
        Reading(small(r, format))
    }

    fn sound_case(&self, r: &mut Random) -> ListingCase {
        let Mailed { format, text, listed } = &self.0;
        let given = listed.listing(&marks(r, listed.v()));
        let out = lent(r, listed.v());
        ListingCase { text: text.clone(), format: format.word(), given, out }
    }

    /// A fault of the text, of lines, or of the room, and in some cases of later ones too.
    fn spoil(&self, r: &mut Random, case: &mut ListingCase) {
        let (first, more) = (r.pick(&[0, 1, 1, 2]), r.one_in(2));
        if first == 0 {
            spoil_text(r, self.0.format, case);
        }
        if first == 1 || first == 0 && more && r.one_in(2) {
            spoil_some_lines(r, &self.0, &mut case.given);
        }
        if first == 2 || more && r.one_in(2) {
            spoil_room(r, &self.0, case);
        }
    }

    /// Where there is a way to the situation, that is taken, as a rule with many lines.
    fn case_for(&self, r: &mut Random, situation: &'static str) -> ListingCase {
        let (way, two) = (ways().into_iter().find(|way| way.0 == situation), two_ways(situation));
        let mut case = if way.is_some() && r.one_in(2) { self.sound_case(r) } else { self.full_case(r) };
        match (way, two, OfReading::number_of(situation)) {
            (Some(way), ..) => spoil_lines(r, &self.0, &way, &mut case.given),
            (_, Some(two), _) => spoil_parts(r, &self.0, &two, &mut case.given),
            (_, _, Some(number)) if OF_TEXT.contains(&number) => {
                return refused(r, self, self.0.format, number);
            }
            (_, _, Some(12)) => {
                case = self.sound_case(r);
                spoil_room(r, &self.0, &mut case);
            }
            _ => return self.case(r, OfReading::is_of_faults(situation)),
        }
        if r.one_in(8) {
            spoil_room(r, &self.0, &mut case);
        }
        case
    }

    fn refused_case(r: &mut Random, turn: usize) -> ListingCase {
        refused_case::<Reading>(r, turn)
    }

    fn large_case(r: &mut Random, turn: usize) -> ListingCase {
        large_read(r, turn)
    }
}
