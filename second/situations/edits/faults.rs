// Situations by a fault of the marks, of the edit or of the kept run.

use super::super::edited::{Click, Edited, Situation};
use crate::edit_case::Edit;
use crate::editing::above;
use crate::table::FORBIDDEN;

/// Whether an edit of an accepted table is refused with this number, and that is known of it.
fn refused(it: &Edited, number: usize, known: impl Fn(&Click) -> bool) -> bool {
    it.table.is_some() && it.clicks.iter().any(|click| click.number() == number && known(click))
}

/// 10 of the marks, how many there are being known; V is over 1.
fn ten_of_marks(it: &Edited, known: impl Fn(usize) -> bool) -> bool {
    it.v() > 1 && refused(it, 10, |click| click.marks.len() != it.v() && known(click.marks.len()))
}

/// 11 of the marks, the privileges whose marks are above 2 being known; V is over 2.
fn eleven_of_marks(it: &Edited, known: impl Fn(&Click, &[usize]) -> bool) -> bool {
    let bent = |click: &Click| -> Vec<usize> {
        (0..click.marks.len()).filter(|&privilege| click.marks[privilege] > FORBIDDEN).collect()
    };
    it.v() > 2 && refused(it, 11, |click| !bent(click).is_empty() && known(click, &bent(click)))
}

/// Whether the marks are in order.
fn has_marks(it: &Edited, click: &Click) -> bool {
    click.marks.len() == it.v() && click.marks.iter().all(|&mark| mark <= FORBIDDEN)
}

/// 10 of the edit, its privilege being known.
fn ten_of_edit(it: &Edited, known: impl Fn(usize) -> bool) -> bool {
    refused(it, 10, |click| has_marks(it, click) && known(click.before.edit.privilege as usize))
}

/// 11 of the edit.
fn eleven_of_edit(it: &Edited, known: impl Fn(Edit) -> bool) -> bool {
    it.v() > 1 && refused(it, 11, |click| has_marks(it, click) && known(click.before.edit))
}

/// 12, the number of words being known; there are two types or more.
fn twelve(it: &Edited, known: impl Fn(usize) -> bool) -> bool {
    it.e() > 1 && refused(it, 12, |click| known(click.kept.len()))
}

pub const SITUATIONS: &[Situation] = &[
    ("10 of the marks: one short", |it| ten_of_marks(it, |marks| marks + 1 == it.v())),
    ("10 of the marks: one over", |it| ten_of_marks(it, |marks| marks == it.v() + 1)),
    ("10 of the marks: none", |it| ten_of_marks(it, |marks| marks == 0)),
    ("10 of the marks: twice as many", |it| ten_of_marks(it, |marks| marks == 2 * it.v())),
    ("10 of the marks: one for V 0", |it| it.v() == 0 && refused(it, 10, |click| click.marks.len() == 1)),
    ("11 of the marks: at privilege 0", |it| eleven_of_marks(it, |_, bent| bent == [0])),
    ("11 of the marks: at the last privilege", |it| eleven_of_marks(it, |_, bent| bent == [it.v() - 1])),
    ("11 of the marks: at two privileges", |it| eleven_of_marks(it, |_, bent| bent.len() == 2)),
    ("11 of the marks: at the privilege of the edit", |it| {
        eleven_of_marks(it, |click, bent| bent == [click.before.edit.privilege as usize])
    }),
    ("11 of the marks: by 3", |it| eleven_of_marks(it, |click, bent| click.marks[bent[0]] == 3)),
    ("11 of the marks: by 255", |it| eleven_of_marks(it, |click, bent| click.marks[bent[0]] == 255)),
    ("10 of the edit: privilege V", |it| it.v() > 0 && ten_of_edit(it, |privilege| privilege == it.v())),
    ("10 of the edit: privilege V + 1", |it| {
        it.v() > 0 && ten_of_edit(it, |privilege| privilege == it.v() + 1)
    }),
    ("10 of the edit: a privilege as 8 bits hold it", |it| {
        ten_of_edit(it, |privilege| (256..65_536).contains(&privilege) && privilege % 256 < it.v())
    }),
    ("10 of the edit: a privilege as 16 bits hold it", |it| {
        ten_of_edit(it, |privilege| privilege >= 65_536 && privilege % 65_536 < it.v())
    }),
    ("10 of the edit: 4,294,967,295", |it| {
        it.v() > 0 && ten_of_edit(it, |privilege| privilege == 4_294_967_295)
    }),
    ("10 of the edit: V 0, privilege 0", |it| it.v() == 0 && ten_of_edit(it, |privilege| privilege == 0)),
    ("11 of the edit: 3", |it| eleven_of_edit(it, |edit| edit.mark == 3)),
    ("11 of the edit: 255", |it| eleven_of_edit(it, |edit| edit.mark == 255)),
    ("11 of the edit: a mark as two bits hold it", |it| {
        eleven_of_edit(it, |edit| edit.mark > 3 && edit.mark % 4 <= FORBIDDEN)
    }),
    ("11 of the edit: at privilege 0", |it| eleven_of_edit(it, |edit| edit.privilege == 0)),
    ("11 of the edit: at the last privilege", |it| {
        eleven_of_edit(it, |edit| edit.privilege as usize + 1 == it.v())
    }),
    ("12: one word short", |it| twelve(it, |words| words + 1 == it.all_words())),
    ("12: one entry short", |it| twelve(it, |words| words + 2 == it.all_words())),
    ("12: one word for each type", |it| it.e() > 2 && twelve(it, |words| words == it.e())),
    ("12: no word", |it| twelve(it, |words| words == 0)),
    ("12, though the entries above the privilege are there", |it| {
        it.e() > 2
            && refused(it, 12, |click| {
                let is_there = |t: &usize| 2 * t + 2 <= click.kept.len();
                let privilege = click.before.edit.privilege as usize;
                it.table.as_ref().map_or(false, |table| above(table, privilege).iter().all(is_there))
            })
    }),
];
