// Situations by a fault of the marks or of the result.

use super::super::listing::{Listing, Numbered};
use crate::format::Format::{One, Two};
use crate::listing::{lines, Listed};
use crate::table::{FORBIDDEN, UNSET};

/// Whether the call is refused with 10, and of the number of marks and of V that is known.
fn ten(it: &Listing, known: impl Fn(usize, usize) -> bool) -> bool {
    it.is_refused(10) && known(it.case.given.len(), it.v())
}

/// Where the marks are above 2.
fn bent(it: &Listing) -> Vec<usize> {
    (0..it.case.given.len()).filter(|&privilege| it.case.given[privilege] > FORBIDDEN).collect()
}

/// Whether the call is refused with 11, and of the marks above 2 and of V, which is over 1, that is known.
fn eleven(it: &Listing, known: impl Fn(&[usize], usize) -> bool) -> bool {
    it.is_refused(11) && it.v() > 1 && known(&bent(it), it.v())
}

/// The listing of the marks, where one above 2 counts as unset.
fn listing(it: &Listing) -> Vec<u8> {
    let set = |&mark: &u8| if mark > FORBIDDEN { UNSET } else { mark };
    let marks: Vec<u8> = it.case.given.iter().map(set).collect();
    it.listed.as_ref().map_or(Vec::new(), |listed: &Listed| listed.listing(&marks))
}

/// Whether the call is refused with 12, and of the result's length and of the listing that is known.
fn twelve(it: &Listing, known: impl Fn(usize, &[u8]) -> bool) -> bool {
    it.is_refused(12) && known(it.case.out.len(), &listing(it))
}

pub const SITUATIONS: &[Numbered] = &[
    (10, ("format 1: 10", |it| it.is_refused_in(One, 10))),
    (10, ("format 2: 10", |it| it.is_refused_in(Two, 10))),
    (10, ("10: one mark short", |it| ten(it, |marks, v| marks + 1 == v))),
    (10, ("10: one mark over", |it| ten(it, |marks, v| v > 0 && marks == v + 1))),
    (10, ("10: no mark", |it| ten(it, |marks, v| v > 1 && marks == 0))),
    (10, ("10: a mark for V 0", |it| ten(it, |_, v| v == 0))),
    (
        10,
        ("10: as many marks as the other format has privileges", |it| {
            ten(it, |marks, _| marks == it.other_v())
        }),
    ),
    (10, ("10, and a mark above 2", |it| ten(it, |_, _| !bent(it).is_empty()))),
    (10, ("10, and no result", |it| ten(it, |marks, _| marks > 0 && it.case.out.is_empty()))),
    (11, ("format 1: 11", |it| it.is_refused_in(One, 11))),
    (11, ("format 2: 11", |it| it.is_refused_in(Two, 11))),
    (11, ("11 at the first privilege", |it| eleven(it, |bent, _| bent == [0]))),
    (11, ("11 at the last privilege", |it| eleven(it, |bent, v| bent == [v - 1]))),
    (11, ("11 between", |it| eleven(it, |bent, v| bent[0] > 0 && bent[0] + 1 < v))),
    (11, ("11, two marks above 2", |it| eleven(it, |bent, _| bent.len() > 1))),
    (11, ("11: a mark of 3", |it| eleven(it, |bent, _| it.case.given[bent[0]] == 3))),
    (11, ("11: a mark of 255", |it| eleven(it, |bent, _| it.case.given[bent[0]] == 255))),
    (11, ("11: a sign's byte as a mark", |it| eleven(it, |bent, _| b"+-".contains(&it.case.given[bent[0]])))),
    (11, ("11, and the result is short", |it| eleven(it, |_, _| it.case.out.len() < listing(it).len()))),
    (12, ("format 1: 12", |it| it.is_refused_in(One, 12))),
    (12, ("format 2: 12", |it| it.is_refused_in(Two, 12))),
    (12, ("12: one byte short", |it| twelve(it, |room, listing| room + 1 == listing.len()))),
    (12, ("12: no result", |it| twelve(it, |room, _| room == 0))),
    (
        12,
        ("12: the last line has no room", |it| {
            twelve(it, |room, listing| {
                let last = lines(listing).last().map_or(0, <[u8]>::len);
                lines(listing).count() > 1 && room + last == listing.len()
            })
        }),
    ),
    (12, ("12: as many bytes as privileges", |it| twelve(it, |room, _| room == it.v()))),
    (12, ("12: as many bytes as lines", |it| twelve(it, |room, listing| room == lines(listing).count()))),
];
