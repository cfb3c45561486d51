// Situations by the breach that an edit tells, where the entries are right.

use super::super::edited::{Click, Done, Edited, Situation};
use crate::answers::Breach;
use crate::format::Format;
use crate::table::{Table, ALLOWED, FORBIDDEN};

/// By what a policy breaks a condition.
#[derive(Clone, Copy, PartialEq)]
pub enum Way {
    /// Condition 1: by insert and delete.
    Both,
    /// By the exchange.
    Exchange,
    /// By the exchange itself being forbidden.
    Barred,
    /// Condition 2.
    Chain,
    /// Condition 3.
    Cycle,
}

pub fn way_of(table: &Table, marks: &[u8], at: Breach) -> Way {
    let exchange = || table.exchange(at.of).map(|privilege| marks[privilege]);
    match at.condition {
        1 if !table.allows_both(marks, at.of) => Way::Exchange,
        1 if exchange() == Some(FORBIDDEN) => Way::Barred,
        1 => Way::Both,
        2 => Way::Chain,
        _ => Way::Cycle,
    }
}

/// Whether a breach of this way is told, of which that is known.
fn told(it: &Edited, way: Way, known: impl Fn(&Table, &Click, Breach) -> bool) -> bool {
    it.any_right(|table, click, done| {
        done.told.map_or(false, |at| way_of(table, &click.marks, at) == way && known(table, click, at))
    })
}

fn told_in(it: &Edited, format: Format, way: Way) -> bool {
    told(it, way, |table, _, _| table.format == format)
}

/// Whether an edit brings the first breach, of this way, to clean marks.
fn comes(it: &Edited, way: Way) -> bool {
    it.any_right(|table, click, done| {
        done.first_before.is_none() && done.told.map_or(false, |at| way_of(table, &click.marks, at) == way)
    })
}

/// Whether an edit takes the only breach, of this way, away.
fn goes(it: &Edited, way: Way) -> bool {
    it.any_right(|table, click, done| {
        let before = done.first_before.map(|at| way_of(table, &click.before.marks, at));
        before == Some(way) && done.told.is_none()
    })
}

/// Whether there was a breach and is one, of which that is known.
fn both(it: &Edited, known: impl Fn(&Click, &Done, Breach, Breach) -> bool) -> bool {
    it.any_right(|_, click, done| match (done.first_before, done.told) {
        (Some(before), Some(now)) => known(click, done, before, now),
        _ => false,
    })
}

pub fn place(at: Breach) -> [usize; 4] {
    [at.of, at.condition, at.i, at.j]
}

/// The own replacement of the position where condition 3 is broken is allowed.
fn is_by_own_kind(table: &Table, click: &Click, at: Breach) -> bool {
    table.format == Format::Two && click.marks[table.replacement(at.of, at.i, at.i)] == ALLOWED
}

pub const SITUATIONS: &[Situation] = &[
    ("format 1: condition 1 told", |it| told_in(it, Format::One, Way::Both)),
    ("format 1: condition 2 told", |it| told_in(it, Format::One, Way::Chain)),
    ("format 1: condition 3 told", |it| told_in(it, Format::One, Way::Cycle)),
    ("format 2: condition 1 told, by insert and delete", |it| told_in(it, Format::Two, Way::Both)),
    ("format 2: condition 1 told, by the exchange", |it| told_in(it, Format::Two, Way::Exchange)),
    ("format 2: condition 1 told, the exchange forbidden", |it| told_in(it, Format::Two, Way::Barred)),
    ("format 2: condition 2 told", |it| told_in(it, Format::Two, Way::Chain)),
    ("format 2: condition 3 told", |it| told_in(it, Format::Two, Way::Cycle)),
    ("condition 2 told, from i to i", |it| told(it, Way::Chain, |_, _, at| at.i == at.j)),
    ("condition 2 told, a chain of three or more", |it| told(it, Way::Chain, |_, _, at| at.chain.length > 2)),
    ("condition 3 told, by a replacement by the own kind", |it| told(it, Way::Cycle, is_by_own_kind)),
    ("condition 1 told, count 2 or more", |it| told(it, Way::Both, |_, _, at| at.forbidden > 1)),
    ("condition 3 told, count 2 or more", |it| told(it, Way::Cycle, |_, _, at| at.forbidden > 1)),
    ("the exchange forbidden told, and more forbidden below", |it| {
        it.any_right(|table, click, done| {
            let counted = |at: Breach| done.entries[table.types[at.of].children[0]][1] > 0;
            done.told.map_or(false, |at| way_of(table, &click.marks, at) == Way::Barred && counted(at))
        })
    }),
    ("condition 1 by insert and delete comes", |it| comes(it, Way::Both)),
    ("condition 1 by insert and delete goes", |it| goes(it, Way::Both)),
    ("condition 1 by the exchange comes", |it| comes(it, Way::Exchange)),
    ("condition 1 by the exchange goes", |it| goes(it, Way::Exchange)),
    ("condition 1 by a forbidden exchange comes", |it| comes(it, Way::Barred)),
    ("condition 1 by a forbidden exchange goes", |it| goes(it, Way::Barred)),
    ("condition 2 comes", |it| comes(it, Way::Chain)),
    ("condition 2 goes", |it| goes(it, Way::Chain)),
    ("condition 3 comes", |it| comes(it, Way::Cycle)),
    ("condition 3 goes", |it| goes(it, Way::Cycle)),
    ("another breach comes before the first", |it| both(it, |_, _, before, now| place(now) < place(before))),
    ("a later breach becomes the first", |it| both(it, |_, _, before, now| place(now) > place(before))),
    ("the same place with another count", |it| {
        both(it, |_, _, before, now| place(now) == place(before) && now.forbidden != before.forbidden)
    }),
    ("the same place with another privilege", |it| {
        both(it, |_, _, before, now| place(now) == place(before) && now.privilege != before.privilege)
    }),
    ("the same place with another chain", |it| {
        both(it, |_, _, before, now| place(now) == place(before) && now.chain != before.chain)
    }),
    ("the same breach, a mark being changed", |it| {
        both(it, |click, _, before, now| now == before && click.before.marks != click.marks)
    }),
    ("clean before and afterwards, with something forbidden", |it| {
        it.any_right(|_, click, done| {
            done.first_before.is_none()
                && done.told.is_none()
                && click.forbidden() > 0
                && click.forbidden_before() > 0
        })
    }),
];
