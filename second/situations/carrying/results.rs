// Situations by what is carried and lost, by the formats, by V and by the results as lent.

use super::super::moves::{Move, Situation};
use crate::format::Format::{self, One, Two};
use crate::table::{ALLOWED, FORBIDDEN, UNSET};

/// Whether an old privilege with this mark has a new one.
fn carries(it: &Move, mark: u8) -> bool {
    it.any_old(|privilege| it.case.old_marks[privilege] == mark && it.home(privilege).is_some())
}

/// The same where it has none.
fn loses(it: &Move, mark: u8) -> bool {
    it.any_old(|privilege| it.case.old_marks[privilege] == mark && it.home(privilege).is_none())
}

/// Whether marks are carried and lost between these formats.
fn both(it: &Move, formats: [Format; 2]) -> bool {
    it.is_done_from(formats) && it.carries_any() && it.loses_any()
}

/// Whether tables of which that is known carry what they can.
fn sizes(it: &Move, known: impl Fn(usize, usize) -> bool) -> bool {
    it.is_done() && known(it.old_v(), it.new_v())
}

/// Whether a byte other than 0 stands in a run behind so many.
fn stands_behind(run: &[u8], count: usize) -> bool {
    run.iter().skip(count).any(|&byte| byte != 0)
}

pub const SITUATIONS: &[Situation] = &[
    ("an allowed mark carried", |it| carries(it, ALLOWED)),
    ("a forbidden mark carried", |it| carries(it, FORBIDDEN)),
    ("an unset mark carried over a byte other than 0", |it| {
        it.any_old(|privilege| {
            !it.is_set(privilege) && it.home(privilege).map_or(false, |home| it.case.out[home] != UNSET)
        })
    }),
    ("an allowed mark lost", |it| loses(it, ALLOWED)),
    ("a forbidden mark lost", |it| loses(it, FORBIDDEN)),
    ("an unset mark without a home", |it| loses(it, UNSET)),
    ("all three lost or without a home in one call", |it| {
        loses(it, ALLOWED) && loses(it, FORBIDDEN) && loses(it, UNSET)
    }),
    ("nothing lost, all marks set", |it| it.old_v() > 1 && it.all_old(|privilege| it.carries(privilege))),
    ("nothing lost, though some have no home", |it| it.carries_any() && loses(it, UNSET) && !it.loses_any()),
    ("all marks set and lost", |it| it.old_v() > 1 && it.all_old(|privilege| it.loses(privilege))),
    ("no mark set", |it| it.old_v() > 1 && it.all_old(|privilege| !it.is_set(privilege))),
    ("a new privilege unset over a byte other than 0", |it| {
        it.any_new(|privilege| it.is_fresh(privilege) && it.case.out[privilege] != UNSET)
    }),
    ("lost 1 over a byte other than 1", |it| {
        it.any_old(|privilege| it.loses(privilege) && it.case.lost[privilege] != 1)
    }),
    ("lost 0 over a byte other than 0", |it| {
        it.any_old(|privilege| it.carries(privilege) && it.case.lost[privilege] != 0)
    }),
    ("marks with a breach, carried", |it| it.is_broken() && it.carries_any()),
    ("format 1 to 1: marks carried and lost", |it| both(it, [One, One])),
    ("format 1 to 2: marks carried and lost", |it| both(it, [One, Two])),
    ("format 2 to 1: marks carried and lost", |it| both(it, [Two, One])),
    ("format 2 to 2: marks carried and lost", |it| both(it, [Two, Two])),
    ("V 0 in the old table", |it| sizes(it, |old, new| old == 0 && new > 0)),
    ("V 0 in the new table, marks lost", |it| sizes(it, |_, new| new == 0) && it.loses_any()),
    ("V 0 in both", |it| sizes(it, |old, new| old == 0 && new == 0)),
    ("V 0 in both, each result kept", |it| {
        sizes(it, |old, new| old == 0 && new == 0) && it.over().iter().all(|&over| over > 0)
    }),
    ("V greater in the new table", |it| sizes(it, |old, new| new > old) && it.carries_any()),
    ("V greater in the old table", |it| sizes(it, |old, new| new < old) && it.carries_any()),
    ("both results just as long as they must be", |it| it.is_done() && it.over() == [0, 0]),
    ("the result alone longer", |it| it.is_done() && it.over()[0] > 0 && it.over()[1] == 0),
    ("the lost run alone longer", |it| it.is_done() && it.over()[0] == 0 && it.over()[1] > 0),
    ("both longer, bytes kept behind both", |it| {
        it.is_done() && stands_behind(&it.case.out, it.new_v()) && stands_behind(&it.case.lost, it.old_v())
    }),
    ("the result as long as the old V, which is greater", |it| {
        sizes(it, |old, new| new < old && it.case.out.len() == old)
    }),
    ("the lost run as long as the new V, which is greater", |it| {
        sizes(it, |old, new| old < new && it.case.lost.len() == new)
    }),
];
