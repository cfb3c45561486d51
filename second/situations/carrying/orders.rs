// Situations of two faults at once, of which the check that comes first decides: the old table's, 10, 11, the new table's, 17, 18, 12.

use super::super::moves::{Move, Situation};
use crate::answers::answer;
use crate::calls::TABLE;
use crate::carry_case::CarryCase;
use crate::carrying::RAISED;
use crate::table::check;

/// Whether the old table is refused, and that is known besides.
fn no_old(it: &Move, known: impl Fn(&CarryCase) -> bool) -> bool {
    it.old.is_none() && known(it.case)
}

/// Whether the call is refused with this number, and that is known besides.
fn refused(it: &Move, number: usize, known: impl Fn(&Move) -> bool) -> bool {
    it.answer().number == number && known(it)
}

/// The same with a number of the new table.
fn no_new(it: &Move, known: impl Fn(&Move) -> bool) -> bool {
    it.answer().number > RAISED && known(it)
}

/// Whether the new table is accepted, and the list has a misfit.
fn eighteen(it: &Move) -> bool {
    it.new.is_some() && it.has_misfit()
}

/// Whether the new table is accepted, and a result is short.
fn twelve(it: &Move) -> bool {
    it.new.is_some() && it.lacks_room()
}

/// The rank of the check by which a table is refused.
fn rank(words: &[u16]) -> Option<usize> {
    let number = answer(check(words)).number;
    TABLE.iter().position(|&known| known == number)
}

/// Whether both tables are refused, and of the ranks of their checks that is known.
fn neither(it: &Move, known: impl Fn(Option<usize>, Option<usize>) -> bool) -> bool {
    let both = it.old.is_none() && it.new.is_none();
    both && known(rank(&it.case.old_words), rank(&it.case.new_words))
}

pub const SITUATIONS: &[Situation] = &[
    ("the old table refused, and no mark", |it| no_old(it, |case| case.old_marks.is_empty())),
    ("the old table refused, and a mark above 2", |it| no_old(it, |_| it.is_bent())),
    ("both tables refused, the old one by an earlier check", |it| neither(it, |old, new| old < new)),
    ("both tables refused, the new one by an earlier check", |it| neither(it, |old, new| new < old)),
    ("both tables refused, by the same check", |it| neither(it, |old, new| old == new)),
    ("the old table refused, and no entry", |it| no_old(it, |case| case.new_numbers.is_empty())),
    ("the old table refused, and a repeated number", |it| no_old(it, |_| it.has_repetition())),
    ("the old table refused, and no results", |it| {
        no_old(it, |case| case.out.is_empty() && case.lost.is_empty())
    }),
    ("10, and a mark above 2", |it| refused(it, 10, |it| it.is_bent())),
    ("10, and the new table refused", |it| refused(it, 10, |it| it.new.is_none())),
    ("10, and 17 besides", |it| refused(it, 10, |it| it.has_other_length())),
    ("10, and 18 besides", |it| refused(it, 10, eighteen)),
    ("10, and 12 besides", |it| refused(it, 10, twelve)),
    ("11, and the new table refused", |it| refused(it, 11, |it| it.new.is_none())),
    ("11, and 17 besides", |it| refused(it, 11, |it| it.has_other_length())),
    ("11, and 18 besides", |it| refused(it, 11, eighteen)),
    ("11, and 12 besides", |it| refused(it, 11, twelve)),
    ("the new table refused, and 17 besides", |it| no_new(it, |it| it.has_other_length())),
    ("the new table refused, and a repeated number", |it| no_new(it, |it| it.has_repetition())),
    ("the new table refused, and 12 besides", |it| no_new(it, |it| it.over()[1] < 0)),
    ("17, and 18 besides", |it| refused(it, 17, eighteen)),
    ("17, and 12 besides", |it| refused(it, 17, twelve)),
    ("18, and 12 besides", |it| refused(it, 18, twelve)),
    ("18, and the lost run alone short", |it| refused(it, 18, |it| it.over()[0] >= 0 && it.over()[1] < 0)),
    ("18, and the result alone short", |it| refused(it, 18, |it| it.over()[0] < 0 && it.over()[1] >= 0)),
];
