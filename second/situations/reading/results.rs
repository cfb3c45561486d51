// Situations by the result as lent of a call that is done.

use super::super::listing::{Listing, Situation};
use crate::table::UNSET;

/// Whether marks are read.
fn is_read(it: &Listing) -> bool {
    !it.marks.is_empty()
}

/// Whether there is no privilege, and the result has bytes or not.
fn is_bare(it: &Listing, is_lent: bool) -> bool {
    it.is_done() && it.v() == 0 && it.case.out.is_empty() != is_lent
}

/// Whether a byte as lent is none of 0 to 2, and this mark is written over it.
fn is_over(it: &Listing, mark: u8) -> bool {
    it.marks.iter().zip(&it.case.out).any(|(&own, &lent)| own == mark && lent > 2)
}

pub const SITUATIONS: &[Situation] = &[
    ("a result just long enough", |it| is_read(it) && it.case.out.len() == it.v()),
    ("a result longer by one byte", |it| is_read(it) && it.case.out.len() == it.v() + 1),
    ("a result longer, bytes other than 0 kept behind", |it| {
        is_read(it) && it.case.out[it.v()..].iter().any(|&byte| byte != 0)
    }),
    ("V 0, and no result", |it| is_bare(it, false)),
    ("V 0, and a result, all of it kept", |it| is_bare(it, true)),
    ("0 written over another byte", |it| is_over(it, UNSET)),
    ("a set mark written over another byte", |it| is_over(it, 1) && is_over(it, 2)),
    ("a privilege unset between set ones", |it| {
        let set = |mark: &u8| *mark != UNSET;
        let (first, last) = (it.marks.iter().position(set), it.marks.iter().rposition(set));
        first.zip(last).is_some_and(|(first, last)| it.marks[first..last].contains(&UNSET))
    }),
    ("a listing over 255 bytes", |it| it.is_done() && it.listing.len() > 255),
];
