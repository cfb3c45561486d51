// Situations of as many privileges as there may be, or of more than a byte counts.

use super::super::sum::{Situation, Sum};
use crate::table::MOST_PRIVILEGES;

fn is_summed(it: &Sum) -> bool {
    it.is_done() && it.v() == MOST_PRIVILEGES
}

pub const SITUATIONS: &[Situation] = &[
    ("V 4,096", is_summed),
    ("V 4,096, the last privilege a leader", |it| {
        is_summed(it) && it.leaders().contains(&(MOST_PRIVILEGES - 1))
    }),
    ("V over 255: leaders over 255, not in ascending order", |it| {
        it.v() > 255 && it.leaders().iter().all(|&leader| leader > 255) && !it.leaders().is_sorted()
    }),
    ("V over 255: 30 at a privilege over 255", |it| {
        it.number() == 30 && (256..it.v()).contains(&it.sheet.place)
    }),
    ("V over 255: 30 at place V", |it| it.number() == 30 && it.v() > 255 && it.sheet.place == it.v()),
    ("V 4,096: 12, no counts", |it| {
        it.v() == MOST_PRIVILEGES
            && it.number() == 12
            && it.case.counts.is_empty()
            && it.case.more_counts.is_empty()
    }),
];
