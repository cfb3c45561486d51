// Situations by the counts: as lent, and as they are written.

use super::super::month::{Month, Situation};
use crate::sheet::{COUNTED, COUNTS};

/// Whether two roles or more are counted, and a privilege has the same mark in all of them, the one at this place among the three.
fn same(it: &Month, place: usize) -> bool {
    let all = it.counted().count() as u32;
    all > 1 && it.threes().any(|three| three[place] == all)
}

/// Whether that is known of a number as lent and of the count that is written over it.
fn lent_and_written(it: &Month, known: impl Fn(u32, u32) -> bool) -> bool {
    let written = it.threes().flatten();
    it.case.counts.iter().zip(written).any(|(&lent, &written)| known(lent, written))
}

/// Whether of two leaders that are allowed equally often the higher one is allowed in an earlier role.
fn comes_later(it: &Month) -> bool {
    let first = |privilege: usize| it.counted().position(|role| role.marks[privilege] == COUNTED[0]);
    let leaders = &it.sheet.leaders[..it.sheet.leader_count as usize];
    let times = |privilege: usize| it.counts[COUNTS * privilege];
    leaders
        .windows(2)
        .any(|two| times(two[0]) == times(two[1]) && times(two[0]) > 0 && first(two[1]) < first(two[0]))
}

pub const SITUATIONS: &[Situation] = &[
    ("a privilege allowed, forbidden and unset", |it| {
        it.threes().any(|three| three.iter().all(|&count| count > 0))
    }),
    ("a privilege with three different counts", |it| {
        it.threes().any(|three| three[0] != three[1] && three[1] != three[2] && three[2] != three[0])
    }),
    ("a privilege allowed in all roles", |it| same(it, 0)),
    ("a privilege forbidden in all roles", |it| same(it, 1)),
    ("a privilege unset in all roles", |it| same(it, 2)),
    ("counts just as long as they must be", |it| {
        it.counted().count() > 0 && it.case.counts.len() == it.all_counts()
    }),
    ("counts longer, numbers other than 0 kept behind", |it| {
        it.counted().count() > 0 && it.case.counts[it.all_counts()..].iter().any(|&number| number != 0)
    }),
    ("0 written over another number", |it| lent_and_written(it, |lent, written| lent != 0 && written == 0)),
    ("a count written over 4,294,967,295", |it| {
        lent_and_written(it, |lent, written| lent == u32::MAX && written > 0)
    }),
    ("no role: counts written over other numbers", |it| {
        it.case.roles == 0 && it.v() > 0 && lent_and_written(it, |lent, _| lent != 0)
    }),
    ("all roles refused: counts written over other numbers", |it| {
        it.all(|role| role.is_refused) && lent_and_written(it, |lent, _| lent != 0)
    }),
    ("other leaders than by what is forbidden", |it| {
        it.counted().count() > 0 && it.leaders_of(0) != it.leaders_of(1)
    }),
    ("other leaders than by what is unset", |it| {
        it.counted().count() > 0 && it.leaders_of(0) != it.leaders_of(2)
    }),
    ("other leaders than by what is set", |it| {
        let set = |privilege: usize| it.counts[COUNTS * privilege] + it.counts[COUNTS * privilege + 1];
        it.counted().count() > 0 && it.leaders_of(0) != it.leaders_by(set)
    }),
    ("equal leaders, the higher one allowed in an earlier role", |it| {
        it.counted().count() > 0 && comes_later(it)
    }),
];
