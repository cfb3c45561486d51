// Situations of long listings, or of as many privileges or types as there may be.

use super::super::listing::{Listing, Situation};
use crate::format::Format::{self, One, Two};
use crate::listing::Listed;
use crate::table::{ALLOWED, FORBIDDEN, MOST_PRIVILEGES, MOST_TYPES};

/// The first length that 16 bits do not hold.
const LONG: usize = 65_536;

/// Whether V is 4,096 in this format.
fn is_full(it: &Listing, format: Format) -> bool {
    it.has(format) && it.v() == MOST_PRIVILEGES
}

fn length(it: &Listing) -> usize {
    it.listed.as_ref().map_or(0, |listed: &Listed| listed.listing(&it.case.given).len())
}

/// Whether, with 4,096 privileges, a few lines are written, and the last privilege has one of them.
fn has_few(it: &Listing, format: Format) -> bool {
    let is_few = !it.listing.is_empty() && it.listing.len() < 1000;
    is_full(it, format) && is_few && [ALLOWED, FORBIDDEN].contains(&it.marks[it.v() - 1])
}

pub const SITUATIONS: &[Situation] = &[
    ("a listing over 65,535 bytes", |it| it.listing.len() >= LONG),
    ("12: as many bytes as 16 bits hold of the listing's length", |it| {
        it.is_refused(12) && length(it) >= LONG && it.case.out.len() == length(it) % LONG
    }),
    ("format 1: V 4,096, few lines", |it| has_few(it, One)),
    ("format 2: V 4,096, few lines", |it| has_few(it, Two)),
    ("V 4,096: 10, no mark", |it| it.is_refused(10) && it.v() == MOST_PRIVILEGES && it.case.given.is_empty()),
    ("V 4,096: 11 at the last privilege", |it| it.is_refused(11) && it.answer.place == MOST_PRIVILEGES - 1),
    ("256 types: lines of types of three digits", |it| {
        it.any(|listed, edit| listed.names.len() == MOST_TYPES && edit.of > 99 && edit.of >= listed.declared)
    }),
];
