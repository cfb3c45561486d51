// Situations by the result as lent of a call that is done.

use super::super::listing::{Listing, Situation};

/// Whether a listing that is not empty is written.
fn is_written(it: &Listing) -> bool {
    !it.listing.is_empty()
}

/// Whether the listing is empty, V 0 or over it, and the result is so too or not.
fn is_empty(it: &Listing, is_bare: bool, is_lent: bool) -> bool {
    let is_empty = it.is_done() && it.listing.is_empty();
    is_empty && (it.v() == 0) == is_bare && it.case.out.is_empty() != is_lent
}

pub const SITUATIONS: &[Situation] = &[
    ("a result just long enough", |it| is_written(it) && it.case.out.len() == it.listing.len()),
    ("a result longer by one byte", |it| is_written(it) && it.case.out.len() == it.listing.len() + 1),
    ("a result longer, bytes other than 0 kept behind", |it| {
        is_written(it) && it.case.out[it.listing.len()..].iter().any(|&byte| byte != 0)
    }),
    ("an empty listing, and no result", |it| is_empty(it, false, false)),
    ("an empty listing, and a result, all of it kept", |it| is_empty(it, false, true)),
    ("V 0, and no result", |it| is_empty(it, true, false)),
    ("V 0, and a result, all of it kept", |it| is_empty(it, true, true)),
    ("fewer bytes than privileges", |it| is_written(it) && it.case.out.len() < it.v()),
    ("a listing over 255 bytes", |it| it.listing.len() > 255),
];
