// Situations by the lengths of the policy's own maps and of the proposed ones.

use super::super::bits::{Bits, Situation};
use crate::maps_case::Maps;

/// Whether the policy is refused for lengths of which that is known, and V is over 8, so that a map one byte short is not empty.
fn ten(bits: &Bits, known: impl Fn([isize; 2]) -> bool) -> bool {
    bits.v() > 8 && bits.verdict().number == 10 && known(bits.over(&bits.case.own))
}

/// The same of a proposed pair.
fn thirteen(bits: &Bits, known: impl Fn([isize; 2]) -> bool) -> bool {
    bits.v() > 8 && bits.proposing().number == 13 && known(bits.over(&bits.case.proposed))
}

/// Whether the maps are as long together as they must be, one being one byte short.
fn are_apart(over: [isize; 2]) -> bool {
    over == [-1, 1] || over == [1, -1]
}

/// Whether one map alone has one byte too many, and that byte is 0.
fn ends_with_zero(bits: &Bits, maps: &Maps) -> bool {
    let last = |map: &[u8]| map.last() == Some(&0);
    match bits.over(maps) {
        [1, 0] => last(&maps.allowed),
        [0, 1] => last(&maps.forbidden),
        _ => false,
    }
}

fn is_empty(maps: &Maps, which: usize) -> bool {
    maps.both()[which].is_empty()
}

/// Whether both maps have a byte for each privilege.
fn are_marks(bits: &Bits, maps: &Maps) -> bool {
    maps.both().iter().all(|map| map.len() == bits.v())
}

pub const SITUATIONS: &[Situation] = &[
    ("10: the allowed map one byte short", |it| ten(it, |over| over == [-1, 0])),
    ("10: the allowed map one byte long", |it| ten(it, |over| over == [1, 0])),
    ("10: the forbidden map one byte short", |it| ten(it, |over| over == [0, -1])),
    ("10: the forbidden map one byte long", |it| ten(it, |over| over == [0, 1])),
    ("10: both maps one byte short", |it| ten(it, |over| over == [-1, -1])),
    ("10: both maps one byte long", |it| ten(it, |over| over == [1, 1])),
    ("10: one map one byte short, the other one byte long", |it| ten(it, are_apart)),
    ("10: no allowed map", |it| ten(it, |_| is_empty(&it.case.own, 0))),
    ("10: no forbidden map", |it| ten(it, |_| is_empty(&it.case.own, 1))),
    ("10: a byte for each privilege", |it| ten(it, |_| are_marks(it, &it.case.own))),
    ("10: one byte too many, which is 0", |it| ten(it, |_| ends_with_zero(it, &it.case.own))),
    ("10: one byte too many, V 8n", |it| ten(it, |over| it.v() % 8 == 0 && over.contains(&1))),
    ("10, and a privilege with both bits", |it| ten(it, |_| !it.doubles(&it.case.own).is_empty())),
    ("10, and a spare bit", |it| ten(it, |_| it.has_spare(&it.case.own))),
    ("10, and a result is short", |it| ten(it, |_| it.lacks_room())),
    ("10, and 13 besides", |it| ten(it, |_| it.over(&it.case.proposed) != [0, 0])),
    ("10, and 14 besides", |it| ten(it, |_| it.is_bent(&it.case.proposed))),
    ("13: the allowed map one byte short", |it| thirteen(it, |over| over == [-1, 0])),
    ("13: the allowed map one byte long", |it| thirteen(it, |over| over == [1, 0])),
    ("13: the forbidden map one byte short", |it| thirteen(it, |over| over == [0, -1])),
    ("13: the forbidden map one byte long", |it| thirteen(it, |over| over == [0, 1])),
    ("13: both maps one byte short", |it| thirteen(it, |over| over == [-1, -1])),
    ("13: both maps one byte long", |it| thirteen(it, |over| over == [1, 1])),
    ("13: one map one byte short, the other one byte long", |it| thirteen(it, are_apart)),
    ("13: no allowed map", |it| thirteen(it, |_| is_empty(&it.case.proposed, 0))),
    ("13: no forbidden map", |it| thirteen(it, |_| is_empty(&it.case.proposed, 1))),
    ("13: one byte too many, which is 0", |it| thirteen(it, |_| ends_with_zero(it, &it.case.proposed))),
    ("13, and a privilege with both bits", |it| thirteen(it, |_| !it.doubles(&it.case.proposed).is_empty())),
    ("13, and a spare bit", |it| thirteen(it, |_| it.has_spare(&it.case.proposed))),
];
