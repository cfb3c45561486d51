// Situations by several faults at once: the first in the order of the checks decides.

use super::super::edited::{Click, Edited, Situation};
use crate::editing::KEPT;
use crate::table::FORBIDDEN;

/// The faults of a call in the order of the checks, but for those of the table; of a refused table by what its words name.
struct Faults {
    number: usize,
    length: bool,
    bent: bool,
    privilege: bool,
    mark: bool,
    short: bool,
}

fn named(it: &Edited, at: usize) -> usize {
    it.case.words.get(at).map_or(0, |&word| word as usize)
}

fn faults(it: &Edited, click: &Click) -> Faults {
    let (v, e) = match it.table {
        Some(_) => (it.v(), it.e()),
        None => (named(it, 7), named(it, 2)),
    };
    Faults {
        number: click.number(),
        length: click.marks.len() != v,
        bent: click.marks.iter().any(|&mark| mark > FORBIDDEN),
        privilege: click.before.edit.privilege as usize >= v,
        mark: click.before.edit.mark > FORBIDDEN,
        short: click.kept.len() < KEPT * e,
    }
}

fn any(it: &Edited, known: impl Fn(Faults) -> bool) -> bool {
    it.clicks.iter().any(|click| known(faults(it, click)))
}

/// The table is refused, and that besides.
fn no_table(it: &Edited, known: impl Fn(Faults) -> bool) -> bool {
    it.table.is_none() && any(it, known)
}

/// 10 of the marks, and that besides.
fn length(it: &Edited, known: impl Fn(Faults) -> bool) -> bool {
    it.table.is_some() && any(it, |its| its.number == 10 && its.length && known(its))
}

/// 11 of the marks, and that besides.
fn bent(it: &Edited, known: impl Fn(Faults) -> bool) -> bool {
    it.table.is_some() && any(it, |its| its.number == 11 && its.bent && known(its))
}

/// 10 of the edit, and that besides.
fn privilege(it: &Edited, known: impl Fn(Faults) -> bool) -> bool {
    it.table.is_some() && any(it, |its| its.number == 10 && !its.length && known(its))
}

/// 11 of the edit, and that besides.
fn mark(it: &Edited, known: impl Fn(Faults) -> bool) -> bool {
    it.table.is_some() && any(it, |its| its.number == 11 && !its.bent && known(its))
}

pub const SITUATIONS: &[Situation] = &[
    ("a table refused, and 10 of the marks", |it| no_table(it, |its| its.length)),
    ("a table refused, and 11 of the marks", |it| no_table(it, |its| its.bent)),
    ("a table refused, and 10 of the edit", |it| no_table(it, |its| its.privilege)),
    ("a table refused, and 11 of the edit", |it| no_table(it, |its| its.mark)),
    ("a table refused, and 12", |it| no_table(it, |its| its.short)),
    ("a table refused, and all others", |it| {
        no_table(it, |its| its.length && its.bent && its.privilege && its.mark && its.short)
    }),
    ("10 of the marks, and 11 of the marks", |it| length(it, |its| its.bent)),
    ("10 of the marks, and 10 of the edit", |it| length(it, |its| its.privilege)),
    ("10 of the marks, and 11 of the edit", |it| length(it, |its| its.mark)),
    ("10 of the marks, and 12", |it| length(it, |its| its.short)),
    ("10 of the marks, and all later ones", |it| {
        length(it, |its| its.bent && its.privilege && its.mark && its.short)
    }),
    ("11 of the marks, and 10 of the edit", |it| bent(it, |its| its.privilege)),
    ("11 of the marks, and 11 of the edit", |it| bent(it, |its| its.mark)),
    ("11 of the marks, and 12", |it| bent(it, |its| its.short)),
    ("11 of the marks, and all later ones", |it| bent(it, |its| its.privilege && its.mark && its.short)),
    ("10 of the edit, and 11 of the edit", |it| privilege(it, |its| its.mark)),
    ("10 of the edit, and 12", |it| privilege(it, |its| its.short)),
    ("10 of the edit, and both", |it| privilege(it, |its| its.mark && its.short)),
    ("11 of the edit, and 12", |it| mark(it, |its| its.short)),
];
