// Situations by which entries an edit writes and how they change, where they were right before.

use super::super::edited::{Click, Done, Edited, Entry, Situation};
use crate::table::{Table, ALLOWED, FORBIDDEN, UNSET};

/// Whether the edit takes the mark of its privilege from this one to that one.
fn turns(it: &Edited, from: u8, to: u8, known: impl Fn(&Table, &Click, &Done) -> bool) -> bool {
    it.any_right(|table, click, done| {
        [click.before.marks[done.privilege], click.marks[done.privilege]] == [from, to]
            && known(table, click, done)
    })
}

/// Whether the entry of a type that the privilege is below changes in such a way.
fn changes(it: &Edited, known: impl Fn(Entry, Entry) -> bool) -> bool {
    it.any_right(|_, _, done| done.above.iter().any(|&t| known(done.entries_before[t], done.entries[t])))
}

/// The same where something is forbidden below it before and afterwards.
fn moves(it: &Edited, known: impl Fn(Entry, Entry) -> bool) -> bool {
    changes(it, |before, now| before[1] > 0 && now[1] > 0 && known(before, now))
}

fn parents(table: &Table, x: usize) -> usize {
    table.types.iter().filter(|it| it.children.contains(&x)).count()
}

/// The type of the privilege that is edited.
fn owner(table: &Table, done: &Done) -> usize {
    table.owner[done.privilege]
}

/// How many children of a type the privilege is below.
fn ways_down(table: &Table, done: &Done, t: usize) -> usize {
    table.types[t].children.iter().filter(|&&child| done.is_above(child)).count()
}

fn is_leaf(table: &Table, t: usize) -> bool {
    table.types[t].children.is_empty()
}

/// Whether something is forbidden below each type.
fn all_counted(entries: &[Entry]) -> bool {
    entries.iter().all(|entry| entry[1] > 0)
}

pub const SITUATIONS: &[Situation] = &[
    ("unset to allowed", |it| turns(it, UNSET, ALLOWED, |_, _, _| true)),
    ("unset to forbidden", |it| turns(it, UNSET, FORBIDDEN, |_, _, _| true)),
    ("allowed to unset", |it| turns(it, ALLOWED, UNSET, |_, _, _| true)),
    ("allowed to forbidden", |it| turns(it, ALLOWED, FORBIDDEN, |_, _, _| true)),
    ("forbidden to unset", |it| turns(it, FORBIDDEN, UNSET, |_, _, _| true)),
    ("forbidden to allowed", |it| turns(it, FORBIDDEN, ALLOWED, |_, _, _| true)),
    ("nothing changes: unset again", |it| turns(it, UNSET, UNSET, |_, click, _| click.forbidden() > 0)),
    ("nothing changes: allowed again", |it| turns(it, ALLOWED, ALLOWED, |_, click, _| click.forbidden() > 0)),
    ("nothing changes: forbidden again", |it| turns(it, FORBIDDEN, FORBIDDEN, |_, _, _| true)),
    ("a mark changes and no entry, something being forbidden", |it| {
        it.any_right(|_, click, _| {
            click.before.marks != click.marks && click.before.kept == click.kept && click.forbidden() > 0
        })
    }),
    ("the first forbidden mark: all entries were 0", |it| {
        it.any_right(|_, click, done| {
            done.above.len() > 1 && click.forbidden_before() == 0 && click.forbidden() == 1
        })
    }),
    ("the last forbidden mark taken away: all entries are 0", |it| {
        it.any_right(|_, click, done| {
            done.above.len() > 1 && click.forbidden_before() == 1 && click.forbidden() == 0
        })
    }),
    ("the last one below a type taken away, others below another", |it| {
        it.any_right(|_, _, done| {
            let is_last = |&t: &usize| done.entries_before[t][1] == 1 && done.entries[t] == [0, 0];
            done.above.iter().any(is_last) && done.above.iter().any(|&t| done.entries[t][1] > 0)
        })
    }),
    ("a lowest moves up", |it| moves(it, |before, now| now[0] > before[0])),
    ("a lowest moves down", |it| moves(it, |before, now| now[0] < before[0])),
    ("a lowest stays, and the count grows", |it| {
        moves(it, |before, now| now[0] == before[0] && now[1] > before[1])
    }),
    ("a lowest stays, and the count falls", |it| {
        moves(it, |before, now| now[0] == before[0] && now[1] < before[1])
    }),
    ("a lowest that is privilege 0 comes", |it| changes(it, |before, now| before == [0, 0] && now == [0, 1])),
    ("a lowest that is privilege 0 goes", |it| changes(it, |before, now| before == [0, 1] && now == [0, 0])),
    ("two types with different entries change", |it| {
        it.any_right(|_, _, done| {
            let changed = |&&t: &&usize| done.entries_before[t] != done.entries[t];
            let mut all: Vec<Entry> = done.above.iter().filter(changed).map(|&t| done.entries[t]).collect();
            all.dedup();
            all.len() > 1
        })
    }),
    ("an edit below a type by two of its children: counted once", |it| {
        it.any_right(|table, click, done| {
            let shared = |&t: &usize| ways_down(table, done, t) > 1;
            click.forbidden() > click.forbidden_before() && done.above.iter().any(shared)
        })
    }),
    ("the same, and no longer forbidden", |it| {
        it.any_right(|table, click, done| {
            let shared = |&t: &usize| ways_down(table, done, t) > 1;
            click.forbidden() < click.forbidden_before() && done.above.iter().any(shared)
        })
    }),
    ("an edit at a type with two parents or more", |it| {
        it.any_right(|table, _, done| parents(table, owner(table, done)) > 1)
    }),
    ("an edit at the root's own privilege: one entry of several", |it| {
        it.any_right(|table, click, done| {
            table.types.len() > 2 && done.above == [click.before.words[3] as usize] && click.forbidden() > 0
        })
    }),
    ("an edit at a leaf, six types or more above it", |it| {
        it.any_right(|table, _, done| is_leaf(table, owner(table, done)) && done.above.len() >= 6)
    }),
    ("an edit at a type that has children and parents", |it| {
        it.any_right(|table, _, done| {
            !is_leaf(table, owner(table, done)) && parents(table, owner(table, done)) > 0
        })
    }),
    ("an edit that is below all types", |it| {
        it.any_right(|table, _, done| table.types.len() > 2 && done.above.len() == table.types.len())
    }),
    ("an edit that is not below some types, whose entries are not 0", |it| {
        it.any_right(|_, _, done| {
            (0..done.entries.len()).any(|t| !done.is_above(t) && done.entries[t][1] > 0)
        })
    }),
    ("types with lower and with greater numbers above", |it| {
        it.any_right(|table, _, done| {
            let x = owner(table, done);
            done.above.iter().any(|&t| t < x) && done.above.iter().any(|&t| t > x)
        })
    }),
    ("one type only", |it| it.any_right(|table, _, _| table.types.len() == 1)),
    ("something forbidden below each of three types or more", |it| {
        it.any_right(|_, _, done| done.entries.len() > 2 && all_counted(&done.entries))
    }),
];
