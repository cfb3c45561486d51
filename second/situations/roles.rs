// Situations of a call on all roles of a show (request 5).

use super::show::{done, refused, Role, Show};
use crate::format::Format;
use crate::roles_case::RolesCase;
use crate::table::FORBIDDEN;

/// A situation of a call: its name, and whether a call is in it.
type Situation = (&'static str, fn(&Show) -> bool);

/// Whether so many roles with privileges are completed.
fn completes(show: &Show, count: usize) -> bool {
    show.is_done() && show.v() > 0 && show.count() == count
}

/// Whether roles without privileges are completed, of whose number that is known.
fn completes_none(show: &Show, known: impl Fn(usize) -> bool) -> bool {
    show.is_done() && show.v() == 0 && known(show.count())
}

/// Whether two roles or more have privileges, and all of them are such.
fn all_are(show: &Show, known: fn(&Role) -> bool) -> bool {
    show.v() > 0 && show.roles.len() > 1 && show.roles.iter().all(known)
}

fn any_is(show: &Show, known: impl Fn(&Role) -> bool) -> bool {
    show.roles.iter().any(known)
}

/// Whether that is known of two roles that follow one another.
fn two_are(show: &Show, known: impl Fn(&Role, &Role) -> bool) -> bool {
    show.roles.windows(2).any(|two| known(&two[0], &two[1]))
}

/// Whether a role that is such stands between two others.
fn between(show: &Show, inner: fn(&Role) -> bool, outer: fn(&Role) -> bool) -> bool {
    let first = show.roles.iter().position(outer);
    let last = show.roles.iter().rposition(outer);
    let inside = first.zip(last).and_then(|(first, last)| show.roles.get(first + 1..last));
    inside.map_or(false, |roles| roles.iter().any(inner))
}

/// Whether the first role is such, and another is done.
fn first_is(show: &Show, known: fn(&Role) -> bool) -> bool {
    show.roles.first().map_or(false, known) && any_is(show, done)
}

/// The same of the last.
fn last_is(show: &Show, known: fn(&Role) -> bool) -> bool {
    show.roles.last().map_or(false, known) && any_is(show, done)
}

fn has_number(show: &Show, number: usize) -> bool {
    show.numbers().contains(&number)
}

/// Whether roles come to each of the three numbers.
fn has_all_numbers(show: &Show, format: Format) -> bool {
    show.case.has(format) && [0, 11, 16].iter().all(|&number| has_number(show, number))
}

/// Whether a role is refused with 16 for a breach of this condition.
fn breaks(show: &Show, condition: usize) -> bool {
    any_is(show, |role| role.answer.number == 16 && role.answer.breach.condition == condition)
}

fn is_bent(mark: Option<&u8>) -> bool {
    mark.map_or(false, |&mark| mark > FORBIDDEN)
}

/// Whether bytes other than 0 stand behind the last stretch, whose role is such.
fn keeps_behind(show: &Show, known: fn(&Role) -> bool) -> bool {
    show.behind().iter().any(|&byte| byte != 0) && show.roles.last().map_or(false, known)
}

/// Whether the call is refused with 10, and of the number of marks, that of all roles and V that is known.
fn ten(show: &Show, known: impl Fn(usize, usize, usize) -> bool) -> bool {
    show.number == 10 && known(show.case.marks.len(), show.all(), show.v())
}

/// The same with 12 for the length of the result.
fn twelve(show: &Show, known: impl Fn(usize, usize, usize) -> bool) -> bool {
    show.number == 12 && known(show.case.out.len(), show.all(), show.v())
}

/// Whether the table is refused though there are roles.
fn no_table(show: &Show) -> bool {
    !show.has_table() && show.count() > 0
}

const SITUATIONS: &[Situation] = &[
    ("no role", |it| completes(it, 0)),
    ("one role", |it| completes(it, 1)),
    ("two roles", |it| completes(it, 2)),
    ("40 roles", |it| completes(it, 40)),
    ("more than 256 roles", |it| it.v() > 0 && it.roles.len() > 256),
    ("V 0: some roles", |it| completes_none(it, |count| count > 0)),
    ("V 0: 1,000 roles", |it| completes_none(it, |count| count == 1000)),
    ("V 0: no result", |it| completes_none(it, |count| count > 0 && it.case.out.is_empty())),
    ("V 0: a result, all of it kept", |it| completes_none(it, |count| count > 0 && !it.case.out.is_empty())),
    ("no role refused", |it| all_are(it, done)),
    ("all roles refused", |it| all_are(it, refused)),
    ("the first role refused, another done", |it| first_is(it, refused)),
    ("the last role refused, another done", |it| last_is(it, refused)),
    ("a role refused between two that are done", |it| between(it, refused, done)),
    ("a role done between two that are refused", |it| between(it, done, refused)),
    ("11 and 16 in one call", |it| has_number(it, 11) && has_number(it, 16)),
    ("format 1: 0, 11 and 16 in one call", |it| has_all_numbers(it, Format::One)),
    ("format 2: 0, 11 and 16 in one call", |it| has_all_numbers(it, Format::Two)),
    ("16 by condition 1", |it| breaks(it, 1)),
    ("16 by condition 2", |it| breaks(it, 2)),
    ("16 by condition 3", |it| breaks(it, 3)),
    ("11 by the first mark, behind a role that is done", |it| {
        two_are(it, |before, role| done(before) && is_bent(role.marks.first()))
    }),
    ("11 by the last mark, before a role that is done", |it| {
        two_are(it, |role, behind| done(behind) && is_bent(role.marks.last()))
    }),
    ("11, and a breach besides", |it| {
        any_is(it, |role| role.answer.number == 11 && it.is_broken(role.marks))
    }),
    ("done with other marks than its own", |it| any_is(it, |role| done(role) && role.stretch != role.marks)),
    ("done with its own marks", |it| {
        it.v() > 0 && any_is(it, |role| done(role) && role.stretch == role.marks)
    }),
    ("two done in a row, with different marks", |it| {
        two_are(it, |one, other| done(one) && done(other) && one.stretch != other.stretch)
    }),
    ("11: a stretch kept that nothing would write", |it| any_is(it, |role| role.keeps_with(11))),
    ("16: a stretch kept that nothing would write", |it| any_is(it, |role| role.keeps_with(16))),
    ("0 over another number", |it| any_is(it, |role| role.is_renumbered(0))),
    ("11 over another number", |it| any_is(it, |role| role.is_renumbered(11))),
    ("16 over another number", |it| any_is(it, |role| role.is_renumbered(16))),
    ("a result just as long as it must be", |it| it.all() > 0 && it.is_done() && it.behind().is_empty()),
    ("bytes kept behind the last stretch, which is written", |it| keeps_behind(it, done)),
    ("bytes kept behind the last stretch, which is kept", |it| keeps_behind(it, refused)),
    ("10: one mark short", |it| ten(it, |marks, all, v| v > 1 && marks + 1 == all)),
    ("10: one mark over", |it| ten(it, |marks, all, v| v > 1 && marks == all + 1)),
    ("10: no mark for two roles or more", |it| ten(it, |marks, _, _| marks == 0 && it.count() > 1)),
    ("10: marks for one role more", |it| ten(it, |marks, all, v| v > 1 && all > 0 && marks == all + v)),
    ("10: marks for one role fewer", |it| ten(it, |marks, all, v| v > 1 && marks > 0 && marks + v == all)),
    ("10: marks for no role", |it| ten(it, |_, _, v| v > 0 && it.count() == 0)),
    ("10: a mark for V 0", |it| ten(it, |_, _, v| v == 0 && it.count() > 0)),
    ("10, and the result is short", |it| ten(it, |_, all, _| it.case.out.len() < all)),
    ("10, and a mark above 2", |it| ten(it, |_, _, _| it.has_bent_mark())),
    ("12: one byte short", |it| twelve(it, |out, all, v| v > 1 && out + 1 == all)),
    ("12: no byte", |it| twelve(it, |out, _, _| out == 0)),
    ("12: room for one role fewer", |it| twelve(it, |out, all, v| v > 1 && out > 0 && out + v == all)),
    ("12, and a mark above 2", |it| twelve(it, |_, _, _| it.has_bent_mark())),
    ("12, and a breach", |it| twelve(it, |_, _, _| it.has_breach())),
    ("a table refused, and no mark", |it| no_table(it) && it.case.marks.is_empty()),
    ("a table refused, and no result", |it| no_table(it) && it.case.out.is_empty()),
];

pub fn names() -> Vec<&'static str> {
    SITUATIONS.iter().map(|situation| situation.0).collect()
}

pub fn found(case: &RolesCase) -> Vec<&'static str> {
    let show = Show::of(case);
    SITUATIONS.iter().filter(|situation| (situation.1)(&show)).map(|situation| situation.0).collect()
}

pub fn is_in(case: &RolesCase, name: &str) -> bool {
    let situation = SITUATIONS.iter().find(|situation| situation.0 == name);
    (situation.expect("a situation of that name").1)(&Show::of(case))
}
