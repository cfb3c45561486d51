// Situations of as many privileges or types as there may be.

use super::super::moves::{Move, Situation};
use crate::table::{MOST_PRIVILEGES, MOST_TYPES};

/// Whether the old and the new table are full, each or not, and marks are carried.
fn full(it: &Move, old: bool, new: bool) -> bool {
    let is_full = [it.old_v(), it.new_v()].map(|v| v == MOST_PRIVILEGES);
    is_full == [old, new] && it.carries_any()
}

/// Whether they have 256 types, each or not, and marks are carried.
fn many(it: &Move, old: bool, new: bool) -> bool {
    let has_most = [it.old_e(), it.new_e()].map(|e| e == MOST_TYPES);
    has_most == [old, new] && it.carries_any()
}

/// Whether the highest of so many types is one of both tables and at another number.
fn moves_last(it: &Move) -> bool {
    it.any_kept(|kept| kept.t == MOST_TYPES - 1 && kept.n != kept.t)
}

pub const SITUATIONS: &[Situation] = &[
    ("V 4,096 in the old table", |it| full(it, true, false) && it.loses_any()),
    ("V 4,096 in the new table", |it| full(it, false, true)),
    ("V 4,096 in both", |it| full(it, true, true)),
    ("V 4,096 in both, a mark at the last privilege carried to another", |it| {
        let last = MOST_PRIVILEGES - 1;
        full(it, true, true) && it.carries(last) && it.home(last) != Some(last)
    }),
    ("256 types in the old table", |it| many(it, true, false) && it.loses_any()),
    ("256 types in the new table", |it| many(it, false, true)),
    ("256 types in both", |it| many(it, true, true)),
    ("256 types, the last at another number", moves_last),
    ("256 types: 18 at a type over 127 by a repeated number", |it| {
        let answer = it.answer();
        it.old_e() == MOST_TYPES && answer.number == 18 && answer.place > 127 && it.is_repeated(answer.place)
    }),
    ("256 types: 18 by 256", |it| {
        it.new_e() == MOST_TYPES
            && it.answer().number == 18
            && it.number(it.answer().place) == Some(MOST_TYPES)
    }),
];
