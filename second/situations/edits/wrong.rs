// Situations by what an edit tells where kept entries are wrong: they hide or invent breaches, and those of types above the privilege are put right.

use super::super::edited::{Done, Edited, Situation};
use super::verdicts::{place, way_of, Way};
use crate::answers::Breach;
use crate::table::Table;

/// Whether the marks have a first breach of this condition, which the entries hide, and of what is told instead that is known.
fn hidden(it: &Edited, condition: usize, known: impl Fn(Breach, Option<Breach>) -> bool) -> bool {
    it.any_wrong(|_, _, done| {
        let is_hidden = |first: Breach| done.told.map_or(true, |told| place(told) > place(first));
        let of = |first: Breach| first.condition == condition && is_hidden(first) && known(first, done.told);
        done.first.map_or(false, of)
    })
}

/// Whether a breach of this condition is told that the marks do not have, and of their own first one that is known.
fn invented(it: &Edited, condition: usize, known: impl Fn(&Done, Breach, Option<Breach>) -> bool) -> bool {
    it.any_wrong(|_, _, done| {
        let is_invented = |told: Breach| done.first.map_or(true, |first| place(told) < place(first));
        let of =
            |told: Breach| told.condition == condition && is_invented(told) && known(done, told, done.first);
        done.told.map_or(false, of)
    })
}

/// Whether a breach is told by a wrong entry where the marks have one too, and of both that is known.
fn altered(it: &Edited, known: impl Fn(Breach, Breach) -> bool) -> bool {
    it.any_wrong(|_, _, done| match (done.first, done.told) {
        (Some(first), Some(told)) => place(first) == place(told) && known(first, told),
        _ => false,
    })
}

fn told(it: &Edited, known: impl Fn(&Table, Breach) -> bool) -> bool {
    it.any_wrong(|table, _, done| done.told.map_or(false, |told| known(table, told)))
}

/// Whether the edit put all entries right, and the ones before would have told something else.
fn put_right(it: &Edited, known: impl Fn(Option<Breach>, Option<Breach>) -> bool) -> bool {
    it.any(|_, _, done| !done.was_right() && done.is_right() && known(done.first_as_before, done.told))
}

pub const SITUATIONS: &[Situation] = &[
    ("wrong: a breach of condition 1 hidden, told clean", |it| hidden(it, 1, |_, told| told.is_none())),
    ("wrong: a breach of condition 3 hidden, told clean", |it| hidden(it, 3, |_, told| told.is_none())),
    ("wrong: a breach of condition 1 hidden, a later one told", |it| hidden(it, 1, |_, told| told.is_some())),
    ("wrong: a breach of condition 3 hidden, a later one told", |it| hidden(it, 3, |_, told| told.is_some())),
    ("wrong: condition 1 invented, the marks clean", |it| invented(it, 1, |_, _, first| first.is_none())),
    ("wrong: condition 3 invented, the marks clean", |it| invented(it, 3, |_, _, first| first.is_none())),
    ("wrong: one entry alone, condition 1 invented, the marks clean", |it| {
        invented(it, 1, |done, _, first| first.is_none() && done.wrong().len() == 1)
    }),
    ("wrong: one entry alone, condition 3 invented, the marks clean", |it| {
        invented(it, 3, |done, _, first| first.is_none() && done.wrong().len() == 1)
    }),
    ("wrong: condition 1 invented before the first breach", |it| {
        invented(it, 1, |_, _, first| first.is_some())
    }),
    ("wrong: condition 3 invented before the first breach", |it| {
        invented(it, 3, |_, _, first| first.is_some())
    }),
    ("wrong: invented though nothing is forbidden", |it| {
        it.any_wrong(|_, click, done| click.forbidden() == 0 && done.told.is_some())
    }),
    ("wrong: another privilege told", |it| altered(it, |first, told| first.privilege != told.privilege)),
    ("wrong: another count told", |it| altered(it, |first, told| first.forbidden != told.forbidden)),
    ("wrong: a privilege told that there is not", |it| told(it, |table, at| at.privilege >= table.v())),
    ("wrong: privilege 65,535 told", |it| told(it, |_, at| at.privilege == 65_535)),
    ("wrong: a count of 65,535 told", |it| told(it, |_, at| at.forbidden == 65_535)),
    ("wrong: a count told that is more than V", |it| told(it, |table, at| at.forbidden > table.v())),
    ("wrong: the breach of the marks told", |it| {
        it.any_wrong(|_, _, done| done.told.is_some() && done.told == done.first)
    }),
    ("wrong: clean told, and the marks clean", |it| {
        it.any_wrong(|_, click, done| done.told.is_none() && done.first.is_none() && click.forbidden() > 0)
    }),
    ("wrong: condition 2 told, whatever is kept", |it| told(it, |_, at| at.condition == 2)),
    ("wrong: the exchange forbidden told, whatever is kept of the child", |it| {
        it.any_wrong(|table, click, done| {
            let child = |at: Breach| table.types[at.of].children[0];
            let is_wrong = |at: Breach| done.wrong().contains(&child(at));
            done.told.map_or(false, |at| way_of(table, &click.marks, at) == Way::Barred && is_wrong(at))
        })
    }),
    ("wrong: a count 0 with a lowest, and no breach by it", |it| {
        it.any_wrong(|_, _, done| {
            let is_idle = |&t: &usize| done.entries[t][1] == 0 && done.entries[t][0] > 0;
            done.told.is_none() && done.wrong().iter().any(is_idle)
        })
    }),
    ("put right: a breach not invented", |it| {
        put_right(it, |as_before, told| as_before.is_some() && told.is_none())
    }),
    ("put right: a breach not hidden", |it| {
        put_right(it, |as_before, told| as_before.is_none() && told.is_some())
    }),
    ("put right: the same place, another count or privilege", |it| {
        put_right(it, |as_before, told| match (as_before, told) {
            (Some(one), Some(other)) => place(one) == place(other) && one != other,
            _ => false,
        })
    }),
];
