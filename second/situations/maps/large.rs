// Situations of as many privileges as there may be, and of those that need as many bytes.

use super::super::bits::{Bits, Situation};
use crate::table::MOST_PRIVILEGES;

fn is_full(bits: &Bits) -> bool {
    bits.v() == MOST_PRIVILEGES
}

fn is_nearly_full(bits: &Bits) -> bool {
    (MOST_PRIVILEGES - 7..MOST_PRIVILEGES).contains(&bits.v())
}

pub const SITUATIONS: &[Situation] = &[
    ("V 4,089 to 4,095: completed", |it| is_nearly_full(it) && it.is_completed()),
    ("V 4,089 to 4,095: mended, count over 0", |it| is_nearly_full(it) && it.is_changed()),
    ("V 4,089 to 4,095: 24", |it| is_nearly_full(it) && it.verdict().number == 24),
    ("V 4,096: completed", |it| is_full(it) && it.is_completed()),
    ("V 4,096: mended, count over 0", |it| is_full(it) && it.is_changed()),
    ("V 4,096: 23 at a privilege over 255", |it| {
        is_full(it) && it.verdict().number == 23 && it.verdict().place > 255
    }),
    ("V 4,096: 15 at a privilege over 255", |it| {
        is_full(it) && it.proposing().number == 15 && it.proposing().place > 255
    }),
    ("V 4,096: accepted, count over 0", |it| is_full(it) && it.proposing().count > 0),
];
