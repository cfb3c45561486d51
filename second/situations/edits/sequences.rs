// Situations by the edits of a case as a whole: how many, which of them are refused, and what comes of them together.

use super::super::edited::{Click, Edited, Situation};
use crate::table::UNSET;

fn is_zero(kept: &[u16]) -> bool {
    kept.iter().all(|&word| word == 0)
}

fn is_unset(marks: &[u8]) -> bool {
    marks.iter().all(|&mark| mark == UNSET)
}

/// Whether all marks and entries are 0 before the first edit, there is a privilege, and of the edits that is known.
fn fresh(it: &Edited, known: impl Fn(&[Click]) -> bool) -> bool {
    let kept = it.case.kept.get(..it.all_words());
    it.v() > 0
        && it.case.marks.len() == it.v()
        && is_unset(&it.case.marks)
        && kept.map_or(false, is_zero)
        && known(&it.clicks)
}

/// The same of their numbers.
fn fresh_by(it: &Edited, known: impl Fn(&[usize]) -> bool) -> bool {
    fresh(it, |clicks| known(&clicks.iter().map(Click::number).collect::<Vec<usize>>()))
}

/// Whether one privilege is edited so often.
fn edits_one(clicks: &[Click], times: usize) -> bool {
    let count =
        |privilege: u32| clicks.iter().filter(|click| click.before.edit.privilege == privilege).count();
    clicks.iter().any(|click| count(click.before.edit.privilege) >= times)
}

/// The entries after each edit.
fn entries<'a>(it: &'a Edited, clicks: &'a [Click]) -> impl Iterator<Item = &'a [u16]> {
    clicks.iter().map(|click| &click.kept[..it.all_words()])
}

fn ends_without_entries(it: &Edited, clicks: &[Click]) -> bool {
    entries(it, clicks).any(|kept| !is_zero(kept)) && entries(it, clicks).last().map_or(false, is_zero)
}

fn ends_unset(clicks: &[Click]) -> bool {
    clicks.iter().any(|click| !is_unset(&click.marks))
        && clicks.last().map_or(false, |click| is_unset(&click.marks))
}

/// Whether every privilege is edited once, in ascending order.
fn edits_in(it: &Edited, clicks: &[Click]) -> bool {
    clicks.iter().map(|click| click.before.edit.privilege as usize).eq(0..it.v())
}

/// The condition told by each edit that is done.
fn conditions(clicks: &[Click]) -> Vec<usize> {
    clicks.iter().filter(|click| click.is_done()).map(|click| click.answer.breach.condition).collect()
}

/// Whether it is clean, broken, clean and broken in turn.
fn turns_twice(clicks: &[Click]) -> bool {
    let mut broken: Vec<bool> = conditions(clicks).iter().map(|&condition| condition != 0).collect();
    broken.dedup();
    broken.len() >= 4
}

pub const SITUATIONS: &[Situation] = &[
    ("no edit", |it| it.table.is_some() && it.clicks.is_empty()),
    ("from fresh: one edit", |it| fresh(it, |clicks| clicks.len() == 1)),
    ("from fresh: 2 to 9 edits", |it| fresh(it, |clicks| (2..10).contains(&clicks.len()))),
    ("from fresh: 10 to 99 edits", |it| fresh(it, |clicks| (10..100).contains(&clicks.len()))),
    ("from fresh: 100 edits or more", |it| fresh(it, |clicks| clicks.len() >= 100)),
    ("from fresh: 200 edits", |it| fresh(it, |clicks| clicks.len() == 200)),
    ("from fresh: an edit refused with 10 between two that are done", |it| {
        fresh_by(it, |numbers| numbers.windows(3).any(|three| three == [0, 10, 0]))
    }),
    ("from fresh: an edit refused with 11 between two that are done", |it| {
        fresh_by(it, |numbers| numbers.windows(3).any(|three| three == [0, 11, 0]))
    }),
    ("from fresh: the first edit refused, the next one done", |it| {
        fresh_by(it, |numbers| numbers.len() > 1 && numbers[0] != 0 && numbers[1] == 0)
    }),
    ("from fresh: the last edit refused, the one before done", |it| {
        fresh_by(it, |numbers| numbers.windows(2).last().map_or(false, |two| two[0] == 0 && two[1] != 0))
    }),
    ("from fresh: two edits in a row refused, the next one done", |it| {
        let is_so = |three: &[usize]| three[0] != 0 && three[1] != 0 && three[2] == 0;
        fresh_by(it, |numbers| numbers.windows(3).any(is_so))
    }),
    ("from fresh: one privilege edited five times", |it| fresh(it, |clicks| edits_one(clicks, 5))),
    ("from fresh: all entries 0 again at the end", |it| fresh(it, |clicks| ends_without_entries(it, clicks))),
    ("from fresh: all marks unset again at the end", |it| fresh(it, ends_unset)),
    ("from fresh: a policy edited in, mark by mark", |it| {
        it.v() > 2 && fresh(it, |clicks| edits_in(it, clicks))
    }),
    ("from fresh: clean, broken, clean and broken in turn", |it| fresh(it, turns_twice)),
    ("from fresh: two conditions told in turn", |it| {
        let told = |clicks: &[Click], condition| conditions(clicks).contains(&condition);
        fresh(it, |clicks| [1, 2, 3].iter().filter(|&&condition| told(clicks, condition)).count() > 1)
    }),
    ("marks that are not fresh: three edits or more", |it| {
        it.clicks.len() > 2 && it.clicks.iter().all(Click::is_done) && !is_unset(&it.case.marks)
    }),
];
