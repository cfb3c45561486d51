// Situations by a fault of the marks, of the number of roles or of the counts.

use super::super::month::{Month, Situation};
use crate::sheet::COUNTS;

/// Whether the call is refused with 10, and of the number of marks, of all that there should be and of V that is known.
fn ten(it: &Month, known: impl Fn(u64, u64, u64) -> bool) -> bool {
    it.number() == 10 && known(it.case.marks.len() as u64, it.all_marks(), it.v() as u64)
}

/// The same where V is over 1.
fn ten_of_many(it: &Month, known: impl Fn(u64, u64, u64) -> bool) -> bool {
    it.v() > 1 && ten(it, known)
}

/// Whether there are as many marks as this many bits hold of the number that there should be.
fn ten_by_bits(it: &Month, bits: u32, known: impl Fn(u64) -> bool) -> bool {
    ten_of_many(it, |marks, all, _| marks == all % (1 << bits) && known(marks))
}

/// Whether there are the marks of as many roles as 16 bits hold of their number.
fn ten_by_roles(it: &Month) -> bool {
    ten_of_many(it, |marks, _, v| marks > 0 && marks == it.case.roles as u64 % 65_536 * v)
}

/// Whether the call is refused with 12, and of the number of counts and of V that is known; V is over 1.
fn twelve(it: &Month, known: impl Fn(usize, usize) -> bool) -> bool {
    it.number() == 12 && it.v() > 1 && known(it.case.counts.len(), it.v())
}

/// Whether the table is refused though there are roles, and that is known besides.
fn no_table(it: &Month, known: impl Fn(u64) -> bool) -> bool {
    let named = it.case.words.get(7).map_or(0, |&word| word as u64);
    it.table.is_none() && it.case.roles > 0 && known(it.case.roles as u64 * named)
}

pub const SITUATIONS: &[Situation] = &[
    ("10: one mark short", |it| ten_of_many(it, |marks, all, _| marks + 1 == all)),
    ("10: one mark over", |it| ten_of_many(it, |marks, all, _| all > 0 && marks == all + 1)),
    ("10: no mark for two roles or more", |it| {
        ten_of_many(it, |marks, all, v| marks == 0 && (2 * v..100 * v).contains(&all))
    }),
    ("10: marks for one role more", |it| ten_of_many(it, |marks, all, v| all > 0 && marks == all + v)),
    ("10: marks for one role fewer", |it| ten_of_many(it, |marks, all, v| marks > 0 && marks + v == all)),
    ("10: marks for no role", |it| ten_of_many(it, |marks, all, _| all == 0 && marks > 0)),
    ("10: marks of one role, and no role", |it| ten_of_many(it, |marks, all, v| all == 0 && marks == v)),
    ("10: a mark for V 0", |it| ten(it, |_, _, v| v == 0 && it.case.roles > 0)),
    ("10: as many marks as roles for V 0", |it| {
        ten(it, |marks, _, v| v == 0 && marks == it.case.roles as u64)
    }),
    ("10: 4,294,967,295 roles", |it| ten_of_many(it, |_, _, _| it.case.roles == u32::MAX)),
    ("10: 2^32 marks in all, and none", |it| ten_by_bits(it, 32, |marks| marks == 0 && it.case.roles > 0)),
    ("10: more than 2^32 marks in all, and as many as 32 bits hold", |it| {
        ten_by_bits(it, 32, |marks| marks > 0)
    }),
    ("10: 2^16 marks in all, and none", |it| {
        ten_by_bits(it, 16, |marks| marks == 0 && it.all_marks() == 65_536)
    }),
    ("10: more than 2^16 marks in all, and as many as 16 bits hold", |it| {
        ten_by_bits(it, 16, |marks| marks > 0 && it.all_marks() <= u32::MAX as u64)
    }),
    ("10: marks for as many roles as 16 bits hold of their number", ten_by_roles),
    ("10, and the counts are short", |it| ten(it, |_, _, _| it.lacks_room())),
    ("10, and a mark above 2", |it| ten(it, |_, _, _| it.has_bent_mark())),
    ("12: one count short", |it| twelve(it, |counts, v| counts + 1 == COUNTS * v)),
    ("12: two counts short", |it| twelve(it, |counts, v| counts + 2 == COUNTS * v)),
    ("12: room for one privilege fewer", |it| twelve(it, |counts, v| counts + COUNTS == COUNTS * v)),
    ("12: as many counts as privileges", |it| twelve(it, |counts, v| counts == v)),
    ("12: two counts for each privilege", |it| twelve(it, |counts, v| v > 2 && counts == 2 * v)),
    ("12: no counts", |it| twelve(it, |counts, _| counts == 0)),
    ("12, and no role", |it| twelve(it, |_, _| it.case.roles == 0)),
    ("12, and a mark above 2", |it| twelve(it, |_, _| it.has_bent_mark())),
    ("a table refused, and no mark", |it| no_table(it, |all| all > 0 && it.case.marks.is_empty())),
    ("a table refused, and other marks than it names", |it| {
        no_table(it, |all| all > 0 && !it.case.marks.is_empty() && all != it.case.marks.len() as u64)
    }),
    ("a table refused, and no counts", |it| no_table(it, |_| it.case.counts.is_empty())),
    ("a table refused, and 4,294,967,295 roles", |it| no_table(it, |_| it.case.roles == u32::MAX)),
];
