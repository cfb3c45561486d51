// Situations by a fault of the marks, of the list or of the results.

use super::super::moves::{Move, Situation};
use crate::carrying::GONE;
use crate::table::FORBIDDEN;

/// Whether the call is refused with this number, and that is known besides.
fn refused(it: &Move, number: usize, known: impl Fn() -> bool) -> bool {
    it.answer().number == number && known()
}

/// Whether it is refused with 10 for a number of marks of which, beside the old V, over 1, and the new V, that is known.
fn ten(it: &Move, known: impl Fn(usize, usize, usize) -> bool) -> bool {
    refused(it, 10, || it.old_v() > 1 && known(it.case.old_marks.len(), it.old_v(), it.new_v()))
}

/// Whether it is refused with 11, and of the privileges with a mark above 2 that is known; V is over 1.
fn eleven(it: &Move, known: impl Fn(&[usize]) -> bool) -> bool {
    let bent: Vec<usize> =
        (0..it.case.old_marks.len()).filter(|&p| it.case.old_marks[p] > FORBIDDEN).collect();
    refused(it, 11, || it.old_v() > 1 && known(&bent))
}

/// The same with 17, the length of the list, the old E and the new E.
fn seventeen(it: &Move, known: impl Fn(usize, usize, usize) -> bool) -> bool {
    refused(it, 17, || known(it.case.new_numbers.len(), it.old_e(), it.new_e()))
}

/// Whether it is refused with 18 at a type of which that is known.
fn eighteen(it: &Move, known: impl Fn(usize) -> bool) -> bool {
    refused(it, 18, || known(it.answer().place))
}

/// The same for a number that the new table does not have, of which that is known.
fn over(it: &Move, known: impl Fn(usize) -> bool) -> bool {
    eighteen(it, |t| it.is_over(t) && it.number(t).map_or(false, &known))
}

/// The same for a number that an earlier type, which is given too, has.
fn repeated(it: &Move, known: impl Fn(usize, usize) -> bool) -> bool {
    let earlier = |t: usize| (0..t).find(|&earlier| it.number(earlier) == it.number(t));
    eighteen(it, |t| !it.is_over(t) && earlier(t).map_or(false, |earlier| known(earlier, t)))
}

/// Whether that is known of a type behind this one.
fn later(it: &Move, t: usize, known: impl Fn(usize) -> bool) -> bool {
    (t + 1..it.old_e()).any(known)
}

/// How many types before this one are gone.
fn gone_before(it: &Move, t: usize) -> usize {
    it.case.new_numbers[..t].iter().filter(|&&number| number == GONE).count()
}

/// Whether it is refused with 12, and by how many bytes each result is longer than it must be is known; each must have more than one.
fn twelve(it: &Move, known: impl Fn([isize; 2]) -> bool) -> bool {
    refused(it, 12, || it.old_v() > 1 && it.new_v() > 1 && known(it.over()))
}

pub const SITUATIONS: &[Situation] = &[
    ("10: one mark short", |it| ten(it, |marks, old, _| marks + 1 == old)),
    ("10: one mark over", |it| ten(it, |marks, old, _| marks == old + 1)),
    ("10: no mark", |it| ten(it, |marks, _, _| marks == 0)),
    ("10: as many marks as the new table needs", |it| ten(it, |marks, _, new| marks == new)),
    ("10: a mark for V 0", |it| refused(it, 10, || it.old_v() == 0)),
    ("11 at privilege 0", |it| eleven(it, |at| at[0] == 0)),
    ("11 at the last privilege", |it| eleven(it, |at| at[0] + 1 == it.old_v())),
    ("11 at the first of several", |it| eleven(it, |at| at.len() > 1 && at[0] > 0)),
    ("17: one entry short", |it| seventeen(it, |entries, old, _| old > 1 && entries + 1 == old)),
    ("17: one entry over", |it| seventeen(it, |entries, old, _| entries == old + 1)),
    ("17: one entry over, which is 65,535", |it| {
        seventeen(it, |entries, old, _| entries == old + 1 && it.case.new_numbers.last() == Some(&GONE))
    }),
    ("17: no entry", |it| seventeen(it, |entries, old, _| old > 1 && entries == 0)),
    ("17: as many entries as the new table has types", |it| seventeen(it, |entries, _, new| entries == new)),
    ("17: no entry, the only type", |it| seventeen(it, |entries, old, _| old == 1 && entries == 0)),
    ("18 by the new E", |it| over(it, |number| number == it.new_e())),
    ("18 by one over the new E", |it| over(it, |number| number == it.new_e() + 1)),
    ("18 by 65,534", |it| over(it, |number| number == 65_534)),
    ("18 by a number between", |it| over(it, |number| number > it.new_e() + 1 && number < 65_534)),
    ("18 by a number below the old E and not below the new", |it| over(it, |number| number < it.old_e())),
    ("18 at type 0", |it| over(it, |_| it.old_e() > 1 && it.answer().place == 0)),
    ("18 at the last type, by its number", |it| {
        over(it, |_| it.old_e() > 1 && it.answer().place + 1 == it.old_e())
    }),
    ("18 by the number of the type before", |it| repeated(it, |earlier, t| earlier + 1 == t)),
    ("18 by the number of a type some way before", |it| repeated(it, |earlier, t| earlier + 1 < t)),
    ("18 at the last type, by a repeated number", |it| repeated(it, |_, t| t + 1 == it.old_e())),
    ("18 by the number of type 0", |it| repeated(it, |earlier, _| earlier == 0)),
    ("18 by the number 0, repeated", |it| repeated(it, |earlier, _| it.number(earlier) == Some(0))),
    ("18 by the first of two repeated numbers", |it| {
        repeated(it, |_, t| later(it, t, |other| it.is_repeated(other)))
    }),
    ("18 by the first of two that the new table does not have", |it| {
        over(it, |_| later(it, it.answer().place, |other| it.is_over(other)))
    }),
    ("18 by a number over, and a repeated one behind it", |it| {
        over(it, |_| later(it, it.answer().place, |other| !it.is_over(other) && it.is_repeated(other)))
    }),
    ("18 by a repeated number, and one over behind it", |it| {
        repeated(it, |_, t| later(it, t, |other| it.is_over(other)))
    }),
    ("18 by a number over, and the same again behind it", |it| {
        let at = it.answer().place;
        over(it, |_| later(it, at, |other| it.number(other) == it.number(at)))
    }),
    ("18 by a number over, behind 65,535 twice", |it| over(it, |_| gone_before(it, it.answer().place) > 1)),
    ("18 by a repeated number, behind 65,535 twice", |it| repeated(it, |_, t| gone_before(it, t) > 1)),
    ("12: the result one byte short", |it| twelve(it, |over| over[0] == -1 && over[1] >= 0)),
    ("12: the lost run one byte short", |it| twelve(it, |over| over[0] >= 0 && over[1] == -1)),
    ("12: both one byte short", |it| twelve(it, |over| over == [-1, -1])),
    ("12: one short, the other longer", |it| twelve(it, |over| over[0] * over[1] < 0)),
    ("12: no result", |it| twelve(it, |over| it.case.out.is_empty() && over[1] >= 0)),
    ("12: no lost run", |it| twelve(it, |over| it.case.lost.is_empty() && over[0] >= 0)),
    ("12: a result as long as the old V", |it| {
        twelve(it, |over| over[1] >= 0 && it.case.out.len() == it.old_v())
    }),
    ("12: a lost run as long as the new V", |it| {
        twelve(it, |over| over[0] >= 0 && it.case.lost.len() == it.new_v())
    }),
    ("12: no lost run, V 0 in the new table", |it| {
        refused(it, 12, || it.new_v() == 0 && it.case.lost.is_empty())
    }),
    ("12: no result, V 0 in the old table", |it| {
        refused(it, 12, || it.old_v() == 0 && it.case.out.is_empty())
    }),
];
