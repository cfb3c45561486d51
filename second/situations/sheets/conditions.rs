// Situations by the conditions that the roles break.

use super::super::month::{Month, Role, Situation};
use crate::conditions::{forced, Forced};
use crate::format::Format::{self, One, Two};
use crate::table::{Table, ALLOWED, FORBIDDEN};

/// Whether, in this format, a role that is counted breaks these conditions and no others.
fn breaks(it: &Month, format: Format, conditions: [bool; 3]) -> bool {
    it.case.has(format) && it.any(|role| role.is_counted() && role.broken == conditions)
}

/// Whether the first breach of a role is of one condition, and it breaks another too.
fn breaks_behind(it: &Month, first: usize, other: usize) -> bool {
    it.any(|role| role.is_counted() && role.first == first && role.breaks(other))
}

/// Whether that is known of what is forced of a role that is counted, and of its marks.
fn forces(it: &Month, known: impl Fn(&Table, &[Forced], &[u8]) -> bool) -> bool {
    let holds = |table: &Table, role: &Role| {
        let all: Vec<Forced> = forced(table, role.marks).collect();
        role.is_counted() && known(table, &all, role.marks)
    };
    it.table.as_ref().map_or(false, |table| it.any(|role| holds(table, role)))
}

/// Whether a role breaks this condition at two types.
fn breaks_twice(it: &Month, condition: usize) -> bool {
    forces(it, |_, all, marks| {
        let broken = |at: &&Forced| at.condition == condition && marks[at.privilege] == FORBIDDEN;
        let types: Vec<usize> = all.iter().filter(broken).map(|at| at.of).collect();
        types.first() != types.last()
    })
}

/// Whether a role breaks this condition, and not where it first forces something.
fn breaks_later(it: &Month, condition: usize) -> bool {
    forces(it, |_, all, marks| {
        let own = || all.iter().filter(|at| at.condition == condition);
        let place = |at: &Forced| (at.of, at.i, at.j);
        let broken = own().find(|at| marks[at.privilege] == FORBIDDEN).map(place);
        broken.is_some() && broken != own().next().map(place)
    })
}

/// Whether, in format 2, a role breaks this condition, and all its breaches are such.
fn breaks_only(it: &Month, condition: usize, known: impl Fn(&Table, &Forced, &[u8]) -> bool) -> bool {
    it.case.has(Two)
        && forces(it, |table, all, marks| {
            let broken =
                || all.iter().filter(|at| at.condition == condition && marks[at.privilege] == FORBIDDEN);
            broken().count() > 0 && broken().all(|at| known(table, at, marks))
        })
}

/// Whether roles without a refused one are clean and broken, each or not.
fn judged(it: &Month, clean: bool, broken: bool) -> bool {
    let found = [true, false].map(|wanted| it.counted().any(|role| role.is_clean() == wanted));
    it.counted().count() > 1 && found == [clean, broken]
}

/// Whether three roles break one condition alone, each another one.
fn breaks_each(it: &Month) -> bool {
    let alone = [[true, false, false], [false, true, false], [false, false, true]];
    alone.iter().all(|&conditions| it.any(|role| role.is_counted() && role.broken == conditions))
}

pub const SITUATIONS: &[Situation] = &[
    ("format 1: condition 1 alone", |it| breaks(it, One, [true, false, false])),
    ("format 1: condition 2 alone", |it| breaks(it, One, [false, true, false])),
    ("format 1: condition 3 alone", |it| breaks(it, One, [false, false, true])),
    ("format 1: conditions 1 and 2 in one role", |it| breaks(it, One, [true, true, false])),
    ("format 1: conditions 1 and 3 in one role", |it| breaks(it, One, [true, false, true])),
    ("format 1: conditions 2 and 3 in one role", |it| breaks(it, One, [false, true, true])),
    ("format 1: all three in one role", |it| breaks(it, One, [true, true, true])),
    ("format 2: condition 1 alone", |it| breaks(it, Two, [true, false, false])),
    ("format 2: condition 2 alone", |it| breaks(it, Two, [false, true, false])),
    ("format 2: condition 3 alone", |it| breaks(it, Two, [false, false, true])),
    ("format 2: conditions 1 and 2 in one role", |it| breaks(it, Two, [true, true, false])),
    ("format 2: conditions 1 and 3 in one role", |it| breaks(it, Two, [true, false, true])),
    ("format 2: conditions 2 and 3 in one role", |it| breaks(it, Two, [false, true, true])),
    ("format 2: all three in one role", |it| breaks(it, Two, [true, true, true])),
    ("condition 1 first, and 2 broken too", |it| breaks_behind(it, 1, 2)),
    ("condition 1 first, and 3 broken too", |it| breaks_behind(it, 1, 3)),
    ("condition 2 first, and 1 broken too", |it| breaks_behind(it, 2, 1)),
    ("condition 2 first, and 3 broken too", |it| breaks_behind(it, 2, 3)),
    ("condition 3 first, and 1 broken too", |it| breaks_behind(it, 3, 1)),
    ("condition 3 first, and 2 broken too", |it| breaks_behind(it, 3, 2)),
    ("condition 1 broken at two types", |it| breaks_twice(it, 1)),
    ("condition 2 broken at two types", |it| breaks_twice(it, 2)),
    ("condition 3 broken at two types", |it| breaks_twice(it, 3)),
    ("condition 1 broken, not at the first star that forces", |it| breaks_later(it, 1)),
    ("condition 2 broken, not at the first pair that is reached", |it| breaks_later(it, 2)),
    ("condition 3 broken, not at the first kind that is reached from itself", |it| breaks_later(it, 3)),
    ("format 2: condition 1 by a forbidden exchange alone", |it| {
        breaks_only(it, 1, |table, at, _| table.exchange(at.of) == Some(at.privilege))
    }),
    ("format 2: condition 1 by an allowed exchange alone", |it| {
        breaks_only(it, 1, |table, at, marks| !table.allows_both(marks, at.of))
    }),
    ("format 2: condition 2 by i = j alone", |it| breaks_only(it, 2, |_, at, _| at.i == at.j)),
    ("format 2: condition 3 by a same-kind step", |it| {
        breaks_only(it, 3, |table, at, marks| marks[table.replacement(at.of, at.i, at.i)] == ALLOWED)
    }),
    ("clean roles and broken ones", |it| judged(it, true, true)),
    ("all roles clean", |it| judged(it, true, false)),
    ("no role clean", |it| judged(it, false, true)),
    ("three roles, each with another condition alone", breaks_each),
    ("all five figures over 0", |it| it.sheet.figures.iter().all(|&figure| figure > 0)),
    ("five different figures", |it| {
        let mut figures = it.sheet.figures.to_vec();
        figures.sort();
        figures.dedup();
        it.v() > 0 && figures.len() == 5
    }),
];
