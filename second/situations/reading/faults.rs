// Situations by where a line is refused, by two faults, and by the result.

use super::super::listing::{Listing, Numbered};
use crate::format::Format::{One, Two};

/// Whether a line is refused with 25, and of where it stands and how many there are that is known.
fn at(it: &Listing, known: impl Fn(usize, usize) -> bool) -> bool {
    it.is_refused(25) && known(it.at().0, it.at().1)
}

/// The lines behind the one that is refused.
fn behind<'a>(it: &'a Listing) -> Vec<&'a [u8]> {
    it.lines().split_off(it.at().0 + 1)
}

fn has_unknown_behind(it: &Listing) -> bool {
    behind(it).iter().any(|line| !it.is_line(line))
}

/// Whether a line that is refused stands before one that is not above the one before it.
fn has_fall_behind(it: &Listing) -> bool {
    let told: Vec<usize> = behind(it).iter().filter_map(|line| it.entry(line)).map(|entry| entry.0).collect();
    told.windows(2).any(|two| two[1] <= two[0])
}

/// Whether the call is refused with 12, and of the result's length and of V that is known.
fn twelve(it: &Listing, known: impl Fn(usize, usize) -> bool) -> bool {
    it.is_refused(12) && known(it.case.out.len(), it.v())
}

fn is_short(it: &Listing) -> bool {
    it.case.out.len() < it.v()
}

pub const SITUATIONS: &[Numbered] = &[
    (25, ("format 1: 25", |it| it.is_refused_in(One, 25))),
    (25, ("format 2: 25", |it| it.is_refused_in(Two, 25))),
    (26, ("format 1: 26", |it| it.is_refused_in(One, 26))),
    (26, ("format 2: 26", |it| it.is_refused_in(Two, 26))),
    (12, ("format 1: 12", |it| it.is_refused_in(One, 12))),
    (12, ("format 2: 12", |it| it.is_refused_in(Two, 12))),
    (25, ("25 in the only line", |it| at(it, |k, count| (k, count) == (0, 1)))),
    (25, ("25 in the first of several lines", |it| at(it, |k, count| k == 0 && count > 1))),
    (25, ("25 in the last of several lines", |it| at(it, |k, count| k > 0 && k + 1 == count))),
    (25, ("25 between", |it| at(it, |k, count| k > 0 && k + 1 < count))),
    (25, ("25 for V 0", |it| it.is_refused(25) && it.v() == 0)),
    (25, ("25, then 26", |it| it.is_refused(25) && has_fall_behind(it))),
    (25, ("25, then 25", |it| it.is_refused(25) && has_unknown_behind(it))),
    (26, ("26, then 25", |it| it.is_refused(26) && has_unknown_behind(it))),
    (26, ("26, then 26", |it| it.is_refused(26) && has_fall_behind(it))),
    (25, ("25, and the result is short", |it| it.is_refused(25) && is_short(it))),
    (25, ("25, and no result", |it| it.is_refused(25) && is_short(it) && it.case.out.is_empty())),
    (26, ("26, and the result is short", |it| it.is_refused(26) && is_short(it))),
    (12, ("12: one byte short", |it| twelve(it, |room, v| room + 1 == v))),
    (12, ("12: no result", |it| twelve(it, |room, v| v > 1 && room == 0))),
    (12, ("12: an empty listing", |it| twelve(it, |_, _| it.case.given.is_empty()))),
    (
        12,
        ("12: room for the lines, not for all privileges", |it| {
            twelve(it, |room, _| room >= it.lines().len())
        }),
    ),
    (
        12,
        ("12: as many bytes as the other format has privileges", |it| {
            twelve(it, |room, _| room == it.other_v())
        }),
    ),
];
