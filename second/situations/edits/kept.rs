// Situations by the kept run as it was lent: how long it is, and which entries were right.

use super::super::edited::{Click, Done, Edited, Entry, Situation};
use crate::editing::KEPT;

/// Whether the call is done on a run that has so many words behind all entries.
fn behind(it: &Edited, known: impl Fn(usize) -> bool) -> bool {
    it.any(|table, click, _| known(click.kept.len() - KEPT * table.types.len()))
}

/// Whether one entry alone was wrong, and of that type, its right entry and the one that stood there is known.
fn one_wrong(it: &Edited, known: impl Fn(&Done, usize, Entry, Entry) -> bool) -> bool {
    it.any(|table, _, done| match done.wrong_before()[..] {
        [t] => table.types.len() > 1 && known(done, t, done.right_before[t], done.entries_before[t]),
        _ => false,
    })
}

/// Whether such an entry stood at a type above the privilege, or at one that is not above it.
fn stood(it: &Edited, above: bool, known: impl Fn(usize, Entry) -> bool) -> bool {
    it.any(|table, _, done| {
        let fits = |t: usize| done.is_above(t) == above && known(table.v(), done.entries_before[t]);
        (0..done.entries.len()).any(fits)
    })
}

fn is_idle(_: usize, entry: Entry) -> bool {
    entry[1] == 0 && entry[0] > 0
}

fn is_no_privilege(v: usize, entry: Entry) -> bool {
    entry[1] > 0 && entry[0] as usize >= v
}

fn is_most(_: usize, entry: Entry) -> bool {
    entry[1] == u16::MAX
}

fn has_marks(click: &Click) -> bool {
    click.before.marks.iter().any(|&mark| mark != 0)
}

pub const SITUATIONS: &[Situation] = &[
    ("right entries of marks that are not fresh", |it| {
        it.any_right(|table, click, _| table.types.len() > 1 && click.forbidden_before() > 1)
    }),
    ("right entries, all 0, of marks that are not fresh", |it| {
        it.any_right(|_, click, _| has_marks(click) && click.forbidden_before() == 0)
    }),
    ("no word behind the entries", |it| behind(it, |words| words == 0)),
    ("one word behind the entries", |it| behind(it, |words| words == 1)),
    ("two words or more behind the entries", |it| behind(it, |words| words > 1)),
    ("all entries 0, though something is forbidden", |it| {
        it.any(|table, click, done| {
            let zero = done.entries_before.iter().all(|&entry| entry == [0, 0]);
            zero && table.types.len() > 2 && click.forbidden_before() > 0
        })
    }),
    ("one wrong entry, above the privilege: its lowest", |it| {
        one_wrong(it, |done, t, right, stood| {
            done.is_above(t) && right[0] != stood[0] && right[1] == stood[1]
        })
    }),
    ("one wrong entry, above the privilege: its count", |it| {
        one_wrong(it, |done, t, right, stood| {
            done.is_above(t) && right[0] == stood[0] && right[1] != stood[1]
        })
    }),
    ("one wrong entry, elsewhere: its lowest", |it| {
        one_wrong(it, |done, t, right, stood| {
            !done.is_above(t) && right[0] != stood[0] && right[1] == stood[1]
        })
    }),
    ("one wrong entry, elsewhere: its count", |it| {
        one_wrong(it, |done, t, right, stood| {
            !done.is_above(t) && right[0] == stood[0] && right[1] != stood[1]
        })
    }),
    ("all entries wrong, and still so where the privilege is not below", |it| {
        it.any(|table, _, done| {
            let e = table.types.len();
            e > 2
                && done.wrong_before().len() == e
                && done.wrong().len() + done.above.len() == e
                && done.wrong().len() > 0
        })
    }),
    ("all entries wrong, and right afterwards", |it| {
        it.any(|table, _, done| {
            table.types.len() > 2 && done.wrong_before().len() == table.types.len() && done.is_right()
        })
    }),
    ("the entries above the privilege wrong, the others right", |it| {
        it.any(|table, _, done| {
            done.wrong_before() == done.above && done.above.len() > 1 && done.above.len() < table.types.len()
        })
    }),
    ("the entries above the privilege right, the others wrong", |it| {
        it.any(|table, _, done| {
            let others: Vec<usize> = (0..table.types.len()).filter(|&t| !done.is_above(t)).collect();
            done.wrong_before() == others && others.len() > 1
        })
    }),
    ("a count 0 with a lowest, above the privilege", |it| stood(it, true, is_idle)),
    ("a count 0 with a lowest, elsewhere", |it| stood(it, false, is_idle)),
    ("a lowest that is no privilege, above the privilege", |it| stood(it, true, is_no_privilege)),
    ("a lowest that is no privilege, elsewhere", |it| stood(it, false, is_no_privilege)),
    ("a count of 65,535, above the privilege", |it| stood(it, true, is_most)),
    ("a count of 65,535, elsewhere", |it| stood(it, false, is_most)),
];
