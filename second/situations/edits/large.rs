// Situations of as many privileges, types or children as there may be.

use super::super::edited::{Click, Done, Edited, Situation};
use crate::answers::Breach;
use crate::table::{Table, MOST_ENTRIES, MOST_PRIVILEGES, MOST_TYPES};

/// Whether each type but one has one child, and there are 256.
fn is_chain(table: &Table) -> bool {
    let leaves = table.types.iter().filter(|it| it.children.is_empty()).count();
    table.types.len() == MOST_TYPES && leaves == 1 && table.types.iter().all(|it| it.children.len() < 2)
}

fn chain(it: &Edited, known: impl Fn(&Click, &Done) -> bool) -> bool {
    it.any(|table, click, done| is_chain(table) && known(click, done))
}

fn full(it: &Edited, known: impl Fn(&Click, &Done) -> bool) -> bool {
    it.any(|table, click, done| table.v() == MOST_PRIVILEGES && known(click, done))
}

fn full_told(it: &Edited, known: impl Fn(Breach) -> bool) -> bool {
    full(it, |_, done| done.told.map_or(false, &known))
}

fn is_widest(table: &Table) -> bool {
    let entries: usize = table.types.iter().map(|it| it.children.len()).sum();
    table.types.len() == MOST_TYPES && entries == MOST_ENTRIES
}

fn widest(it: &Edited, known: impl Fn(&Click, &Done) -> bool) -> bool {
    it.any(|table, click, done| is_widest(table) && known(click, done))
}

fn refused(it: &Edited, number: usize, known: impl Fn(&Click) -> bool) -> bool {
    it.table.is_some() && it.clicks.iter().any(|click| click.number() == number && known(click))
}

fn is_fresh(click: &Click) -> bool {
    click.before.marks.iter().all(|&mark| mark == 0) && click.before.kept.iter().all(|&word| word == 0)
}

pub const SITUATIONS: &[Situation] = &[
    ("a chain of 256: an edit at the last, all entries written", |it| {
        chain(it, |_, done| done.above.len() == MOST_TYPES && done.entries != done.entries_before)
    }),
    ("a chain of 256: an edit at the root's own, one entry written", |it| {
        chain(it, |_, done| done.above.len() == 1)
    }),
    ("a chain of 256: a breach told by right entries", |it| {
        chain(it, |_, done| done.was_right() && done.told.is_some())
    }),
    ("a chain of 256: another told by wrong entries", |it| {
        chain(it, |_, done| !done.is_right() && done.told != done.first)
    }),
    ("256 types and 1,024 children: right entries", |it| {
        widest(it, |click, done| done.was_right() && click.forbidden_before() > 0)
    }),
    ("256 types and 1,024 children: entries wrong afterwards", |it| widest(it, |_, done| !done.is_right())),
    ("256 types and 1,024 children: more than 16 types above", |it| {
        widest(it, |_, done| done.above.len() > 16)
    }),
    ("V 4,096: from fresh", |it| full(it, |click, _| is_fresh(click))),
    ("V 4,096: right entries of marks that are not fresh", |it| {
        full(it, |click, done| done.was_right() && click.forbidden_before() > 0)
    }),
    ("V 4,096: entries wrong afterwards", |it| full(it, |_, done| !done.is_right())),
    ("V 4,096: the last privilege", |it| full(it, |_, done| done.privilege == MOST_PRIVILEGES - 1)),
    ("V 4,096: a count of 4,096", |it| {
        full(it, |_, done| done.entries.iter().any(|entry| entry[1] as usize == MOST_PRIVILEGES))
    }),
    ("V 4,096: a count falls from 256", |it| {
        full(it, |_, done| {
            done.above.iter().any(|&t| [done.entries_before[t][1], done.entries[t][1]] == [256, 255])
        })
    }),
    ("V 4,096: a lowest over 255 moves", |it| {
        full(it, |_, done| {
            let moves = |&t: &usize| {
                done.entries_before[t][0] > 255 && done.entries[t][0] != done.entries_before[t][0]
            };
            done.was_right() && done.above.iter().any(moves)
        })
    }),
    ("V 4,096: told a count over 255", |it| full_told(it, |at| at.forbidden > 255)),
    ("V 4,096: told a privilege over 255", |it| full_told(it, |at| at.privilege > 255)),
    ("V 4,096: 10 of the edit, privilege 4,096", |it| {
        it.v() == MOST_PRIVILEGES
            && refused(it, 10, |click| {
                click.marks.len() == MOST_PRIVILEGES
                    && click.before.edit.privilege as usize == MOST_PRIVILEGES
            })
    }),
    ("V 4,096: 11 of the edit at 4,095", |it| {
        it.v() == MOST_PRIVILEGES
            && refused(it, 11, |click| click.before.edit.mark > 2 && click.answer.place == 4095)
    }),
    ("V 4,096: 11 of the marks at 4,095", |it| {
        it.v() == MOST_PRIVILEGES && refused(it, 11, |click| click.marks[MOST_PRIVILEGES - 1] > 2)
    }),
    ("256 types: 12, one word short", |it| {
        it.e() == MOST_TYPES && refused(it, 12, |click| click.kept.len() == 2 * MOST_TYPES - 1)
    }),
    ("256 types: 2,048 words, most of them kept", |it| {
        it.e() == MOST_TYPES && it.any(|_, click, _| click.kept.len() == 2048)
    }),
];
