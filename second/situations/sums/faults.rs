// Situations by a run of counts that is short, by a sheet that was refused, and by two faults at once.

use super::super::sum::{Situation, Sum};
use crate::sheet::COUNTS;

/// Whether the call is refused with 12, and by how many numbers each run is longer than it must be is known; V is over 1.
fn twelve(it: &Sum, known: impl Fn([isize; 2]) -> bool) -> bool {
    it.number() == 12 && it.v() > 1 && known(it.over())
}

/// Whether the call is refused with 29, and of the numbers of the two sheets that is known.
fn twenty_nine(it: &Sum, known: impl Fn(usize, usize) -> bool) -> bool {
    it.number() == 29 && known(it.case.sheet.number, it.case.more.number)
}

/// Whether the number of the sheet that is told is one of these.
fn by_number(it: &Sum, numbers: &[usize]) -> bool {
    twenty_nine(it, |one, more| numbers.contains(&if one != 0 { one } else { more }))
}

fn no_table(it: &Sum, known: impl Fn() -> bool) -> bool {
    it.table.is_none() && known()
}

pub const SITUATIONS: &[Situation] = &[
    ("12: the first run one count short", |it| twelve(it, |over| over[0] == -1 && over[1] >= 0)),
    ("12: the second run one count short", |it| twelve(it, |over| over[0] >= 0 && over[1] == -1)),
    ("12: both runs one count short", |it| twelve(it, |over| over == [-1, -1])),
    ("12: the first run short, the second longer", |it| twelve(it, |over| over[0] < 0 && over[1] > 0)),
    ("12: the first run longer, the second short", |it| twelve(it, |over| over[0] > 0 && over[1] < 0)),
    ("12: no first run", |it| twelve(it, |over| it.case.counts.is_empty() && over[1] >= 0)),
    ("12: no second run", |it| twelve(it, |over| over[0] >= 0 && it.case.more_counts.is_empty())),
    ("12: room for one privilege fewer in the first run", |it| {
        twelve(it, |over| over[0] == -(COUNTS as isize))
    }),
    ("12: room for one privilege fewer in the second run", |it| {
        twelve(it, |over| over[1] == -(COUNTS as isize))
    }),
    ("29 for the first sheet", |it| twenty_nine(it, |one, more| one != 0 && more == 0)),
    ("29 for the second sheet", |it| twenty_nine(it, |one, more| one == 0 && more != 0)),
    ("29 for both sheets", |it| twenty_nine(it, |one, more| one != 0 && more != 0)),
    ("29 for both sheets, by different numbers", |it| {
        twenty_nine(it, |one, more| one != 0 && more != 0 && one != more)
    }),
    ("29 by a number of the table", |it| by_number(it, &[1, 2, 3, 4, 5, 6, 7, 8, 9, 19])),
    ("29 by 10, 12, 29 or 30", |it| by_number(it, &[10, 12, 29, 30])),
    ("29 by a number that 8 bits do not hold", |it| by_number(it, &[256])),
    ("29 by a number that 16 bits do not hold", |it| by_number(it, &[65_536])),
    ("29 with V 0", |it| it.v() == 0 && it.number() == 29),
    ("29, and a place", |it| twenty_nine(it, |_, _| it.case.sheet.place > 1 && it.case.more.place > 1)),
    ("12, and 29 for the first sheet besides", |it| twelve(it, |_| it.refused() == [true, false])),
    ("12, and 29 for the second sheet besides", |it| twelve(it, |_| it.refused() == [false, true])),
    ("12, and a sum that runs over besides", |it| twelve(it, |_| it.runs_over())),
    ("29 for the first sheet, and a sum that runs over besides", |it| {
        twenty_nine(it, |one, _| one != 0 && it.runs_over())
    }),
    ("29 for the second sheet, and a sum that runs over besides", |it| {
        twenty_nine(it, |one, _| one == 0 && it.runs_over())
    }),
    ("a table refused, and no counts", |it| {
        no_table(it, || it.case.counts.is_empty() || it.case.more_counts.is_empty())
    }),
    ("a table refused, and 29 for the first sheet besides", |it| no_table(it, || it.refused()[0])),
    ("a table refused, and 29 for the second sheet besides", |it| {
        no_table(it, || it.refused() == [false, true])
    }),
    ("a table refused, and a figure that runs over", |it| no_table(it, || !it.figures_over().is_empty())),
];
