// Situations by the roles that have a mark above 2.

use super::super::month::{Month, Role, Situation};
use crate::table::{ALLOWED, FORBIDDEN, UNSET};

/// Whether a role that is such stands between two others.
fn between(it: &Month, inner: fn(&Role) -> bool, outer: fn(&Role) -> bool) -> bool {
    let (first, last) = (it.roles().iter().position(outer), it.roles().iter().rposition(outer));
    let inside = first.zip(last).and_then(|(first, last)| it.roles().get(first + 1..last));
    inside.map_or(false, |roles| roles.iter().any(inner))
}

fn is_refused(role: &Role) -> bool {
    role.is_refused
}

fn is_counted(role: &Role) -> bool {
    role.is_counted()
}

/// Whether one mark alone, of more than one, is above 2, and of its privilege and of itself that is known.
fn by_one(it: &Month, known: impl Fn(usize, u8) -> bool) -> bool {
    it.v() > 1
        && it.any(|role| match role.bent()[..] {
            [privilege] => known(privilege, role.marks[privilege]),
            _ => false,
        })
}

pub const SITUATIONS: &[Situation] = &[
    ("no role refused", |it| it.all(is_counted)),
    ("all roles refused", |it| it.all(is_refused)),
    ("the first role refused, another counted", |it| {
        it.roles().first().map_or(false, is_refused) && it.any(is_counted)
    }),
    ("the last role refused, another counted", |it| {
        it.roles().last().map_or(false, is_refused) && it.any(is_counted)
    }),
    ("a role refused between two that are counted", |it| between(it, is_refused, is_counted)),
    ("a role counted between two that are refused", |it| between(it, is_counted, is_refused)),
    ("refused by a mark of 3 alone", |it| by_one(it, |_, mark| mark == 3)),
    ("refused by a mark of 255 alone", |it| by_one(it, |_, mark| mark == 255)),
    ("refused by the first mark alone", |it| by_one(it, |privilege, _| privilege == 0)),
    ("refused by the last mark alone", |it| by_one(it, |privilege, _| privilege + 1 == it.v())),
    ("refused by a mark in between alone", |it| {
        by_one(it, |privilege, _| privilege > 0 && privilege + 1 < it.v())
    }),
    ("refused by all marks", |it| it.v() > 1 && it.any(|role| role.bent().len() == it.v())),
    ("refused, and the three other marks besides", |it| {
        it.any(|role| {
            role.is_refused && [UNSET, ALLOWED, FORBIDDEN].iter().all(|mark| role.marks.contains(mark))
        })
    }),
    ("refused, and condition 1 broken", |it| it.any(|role| role.is_refused && role.broken[0])),
    ("refused, and condition 2 broken", |it| it.any(|role| role.is_refused && role.broken[1])),
    ("refused, and condition 3 broken", |it| it.any(|role| role.is_refused && role.broken[2])),
    ("refused and clean otherwise, no other role clean", |it| {
        it.any(|role| role.is_refused && role.first == 0) && it.any(is_counted) && it.figure(0) == 0
    }),
    ("other leaders than with the refused roles", |it| {
        it.any(is_counted) && it.leaders_of(0) != it.leaders_with_refused()
    }),
];
