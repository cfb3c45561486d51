// Situations of a call with a format and a DTD text (request 10): what they are refused with.

use super::listing::{Listing, Numbered};
use crate::dtd::check_text;
use crate::format::Format::{self, One, Two};
use crate::table::{total, FORBIDDEN, MOST_PRIVILEGES};

/// Whether the format is refused, and that is known of it.
fn one(it: &Listing, known: impl Fn(u16) -> bool) -> bool {
    it.is_refused(1) && known(it.case.format)
}

/// Whether the text is refused with 9, and the other format takes as many privileges as it has, or not.
fn nine(it: &Listing, format: Format, is_taken: bool) -> bool {
    let other = if format == One { Two } else { One };
    let taken = || check_text(&it.case.text).is_ok_and(|text| total(other, &text.types) <= MOST_PRIVILEGES);
    it.is_refused_in(format, 9) && taken() == is_taken
}

/// Whether the text is refused.
fn no_table(it: &Listing) -> bool {
    it.listed.is_none() && !it.is_refused(1)
}

pub const SITUATIONS: &[Numbered] = &[
    (1, ("1: format 0", |it| one(it, |format| format == 0))),
    (1, ("1: format 3", |it| one(it, |format| format == 3))),
    (1, ("1: format 65,535", |it| one(it, |format| format == 65_535))),
    (1, ("1: a format whose low byte is 1", |it| one(it, |format| format % 256 == 1))),
    (1, ("1: a format whose low byte is 2", |it| one(it, |format| format % 256 == 2))),
    (
        1,
        ("1: a format whose high byte is 1 or 2, the low one 0", |it| {
            one(it, |format| [256, 512].contains(&format))
        }),
    ),
    (1, ("1, and the text is refused too", |it| one(it, |_| check_text(&it.case.text).is_err()))),
    (20, ("format 1: 20", |it| it.is_refused_in(One, 20))),
    (21, ("format 1: 21", |it| it.is_refused_in(One, 21))),
    (22, ("format 1: 22", |it| it.is_refused_in(One, 22))),
    (4, ("format 1: 4", |it| it.is_refused_in(One, 4))),
    (7, ("format 1: 7", |it| it.is_refused_in(One, 7))),
    (19, ("format 1: 19", |it| it.is_refused_in(One, 19))),
    (8, ("format 1: 8", |it| it.is_refused_in(One, 8))),
    (9, ("format 1: 9", |it| nine(it, One, false))),
    (20, ("format 2: 20", |it| it.is_refused_in(Two, 20))),
    (21, ("format 2: 21", |it| it.is_refused_in(Two, 21))),
    (22, ("format 2: 22", |it| it.is_refused_in(Two, 22))),
    (4, ("format 2: 4", |it| it.is_refused_in(Two, 4))),
    (7, ("format 2: 7", |it| it.is_refused_in(Two, 7))),
    (19, ("format 2: 19", |it| it.is_refused_in(Two, 19))),
    (8, ("format 2: 8", |it| it.is_refused_in(Two, 8))),
    (9, ("format 2: 9", |it| nine(it, Two, false))),
    (9, ("format 2: 9, and format 1 takes the text", |it| nine(it, Two, true))),
    (20, ("a text refused, and no result", |it| no_table(it) && it.case.out.is_empty())),
    (20, ("a text refused, and nothing given", |it| no_table(it) && it.case.given.is_empty())),
    (
        20,
        ("a text refused, and a byte above 2 given", |it| {
            no_table(it) && it.case.given.iter().any(|&byte| byte > FORBIDDEN)
        }),
    ),
];
