// Situations of as many privileges as there may be, or of more than a byte counts.

use super::super::month::{Month, Situation};
use crate::table::MOST_PRIVILEGES;

fn is_full(it: &Month) -> bool {
    it.v() == MOST_PRIVILEGES
}

/// Whether the call is refused with 10 for a full table.
fn ten(it: &Month, known: impl Fn(u64, u64) -> bool) -> bool {
    is_full(it) && it.number() == 10 && known(it.case.marks.len() as u64, it.case.roles as u64)
}

pub const SITUATIONS: &[Situation] = &[
    ("V 4,096: two roles or three", |it| is_full(it) && (2..=3).contains(&it.roles().len())),
    ("V over 4,000: a role refused, another counted", |it| {
        it.v() > 4000 && it.figure(4) > 0 && it.counted().count() > 0
    }),
    ("V over 4,000: a role clean, another broken", |it| {
        it.v() > 4000 && it.figure(0) > 0 && it.counted().any(|role| !role.is_clean())
    }),
    ("V over 4,000: leaders over 255, not in ascending order", |it| {
        let leaders = it.sheet.leaders;
        it.v() > 4000 && leaders.iter().all(|&leader| leader > 255) && !leaders.is_sorted()
    }),
    ("more than 255 roles clean", |it| it.v() > 0 && it.figure(0) > 255),
    ("more than 255 roles break condition 1", |it| it.figure(1) > 255),
    ("more than 255 roles break condition 2", |it| it.figure(2) > 255),
    ("more than 255 roles break condition 3", |it| it.figure(3) > 255),
    ("more than 255 roles refused", |it| it.figure(4) > 255),
    ("a count over 255", |it| it.threes().flatten().any(|&count| count > 255)),
    ("V 4,096: 10, 4,294,967,295 roles", |it| ten(it, |_, roles| roles == u32::MAX as u64)),
    ("V 4,096: 10, 2^20 roles and no mark", |it| ten(it, |marks, roles| marks == 0 && roles == 1 << 20)),
    ("V 4,096: 10, 2^20 roles and one more, the marks of one", |it| {
        ten(it, |marks, roles| marks == 4096 && roles == (1 << 20) + 1)
    }),
    ("V 4,096: 12, no counts", |it| is_full(it) && it.number() == 12 && it.case.counts.is_empty()),
];
