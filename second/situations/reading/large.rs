// Situations of long listings, or of as many privileges or types as there may be.

use super::super::listing::{Listing, Situation};
use crate::format::Format::{self, One, Two};
use crate::table::{MOST_PRIVILEGES, MOST_TYPES, UNSET};

/// The first place that 16 bits do not hold.
const LONG: usize = 65_536;

/// Whether, with 4,096 privileges in this format, the marks of a few lines are read, the last privilege's among them.
fn has_few(it: &Listing, format: Format) -> bool {
    let is_full = it.is_done() && it.has(format) && it.v() == MOST_PRIVILEGES;
    is_full && it.listing.len() < 1000 && it.marks[it.v() - 1] != UNSET
}

pub const SITUATIONS: &[Situation] = &[
    ("a listing over 65,535 bytes", |it| it.listing.len() >= LONG),
    ("25 or 26 at a place over 65,535", |it| [25, 26].contains(&it.number()) && it.answer.place >= LONG),
    ("format 1: V 4,096, few lines", |it| has_few(it, One)),
    ("format 2: V 4,096, few lines", |it| has_few(it, Two)),
    ("V 4,096: 12, one byte short", |it| {
        it.is_refused(12) && it.v() == MOST_PRIVILEGES && it.case.out.len() == MOST_PRIVILEGES - 1
    }),
    ("256 types: lines of types of three digits", |it| {
        it.any(|listed, edit| listed.names.len() == MOST_TYPES && edit.of > 99 && edit.of >= listed.declared)
    }),
    ("256 types: 25 at the number 256", |it| {
        let is_full = it.listed.as_ref().is_some_and(|listed| listed.names.len() == MOST_TYPES);
        is_full
            && it.is_refused(25)
            && it.case.given[it.answer.place..].windows(4).any(|four| four == b"#256")
    }),
];
