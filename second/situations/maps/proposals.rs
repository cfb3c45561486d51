// Situations by the bits of a proposed pair of maps.

use super::super::bits::{Bits, Situation};
use crate::format::Format;
use crate::table::{ALLOWED, FORBIDDEN, UNSET};

/// Whether the proposed pair is refused with 14, and of the privileges with both bits, one or more, that is known; V is over 8.
fn both_bits(bits: &Bits, known: impl Fn(&[usize]) -> bool) -> bool {
    let doubles = bits.doubles(&bits.case.proposed);
    bits.v() > 8 && bits.proposing().number == 14 && !doubles.is_empty() && known(&doubles)
}

/// Whether it is refused with 14 for spare bits alone, of which that is known.
fn spare_bits(bits: &Bits, known: impl Fn(&[usize], &[usize]) -> bool) -> bool {
    let [allowed, forbidden] = bits.spares(&bits.case.proposed);
    let fourteen = bits.proposing().number == 14 && bits.doubles(&bits.case.proposed).is_empty();
    fourteen && known(&allowed, &forbidden)
}

/// The changed marks: privilege, old mark and new mark.
fn changes(bits: &Bits) -> Vec<(usize, u8, u8)> {
    let [old, new] = [&bits.case.own, &bits.case.proposed].map(|maps| bits.marks(maps));
    let both = old.into_iter().zip(new).enumerate().map(|(privilege, (old, new))| (privilege, old, new));
    both.filter(|(_, old, new)| old != new).collect()
}

/// The changes other than from 1 to 2, but for privileges with both bits.
fn other_changes(bits: &Bits) -> Vec<(usize, u8, u8)> {
    let doubles = bits.doubles(&bits.case.proposed);
    let is_other = |&(privilege, old, new): &(usize, u8, u8)| {
        (old, new) != (ALLOWED, FORBIDDEN) && !doubles.contains(&privilege)
    };
    changes(bits).into_iter().filter(is_other).collect()
}

/// Whether the pair is refused with 15, and the lowest other change is this one.
fn fifteen(bits: &Bits, old: u8, new: u8) -> bool {
    let place = bits.proposing().place;
    bits.proposing().number == 15 && other_changes(bits).first() == Some(&(place, old, new))
}

/// Whether the pair is answered with this number, and of the changed privileges that is known.
fn answered(bits: &Bits, number: usize, known: impl Fn(&[usize]) -> bool) -> bool {
    let changed = || changes(bits).iter().map(|change| change.0).collect::<Vec<usize>>();
    bits.has_table() && bits.v() > 0 && bits.proposing().number == number && known(&changed())
}

/// Whether the pair is refused in this format for a breach of this condition.
fn breaks(bits: &Bits, format: Format, condition: usize) -> bool {
    let refusal = bits.proposing();
    bits.case.has(format) && refusal.number == 16 && refusal.breach.condition == condition
}

/// Whether privileges of two bytes are among these.
fn in_two_bytes(privileges: &[usize]) -> bool {
    privileges.iter().any(|privilege| privilege / 8 != privileges[0] / 8)
}

pub const SITUATIONS: &[Situation] = &[
    ("14 by both bits at privilege 0", |it| both_bits(it, |at| at == [0])),
    ("14 by both bits at privilege 7", |it| both_bits(it, |at| at == [7])),
    ("14 by both bits at privilege 8", |it| both_bits(it, |at| at == [8])),
    ("14 by both bits at the last privilege", |it| both_bits(it, |at| at == [it.v() - 1])),
    ("14 by both bits at several privileges", |it| both_bits(it, |at| at.len() > 1)),
    ("14 by both bits over privilege 0, and a spare bit", |it| {
        both_bits(it, |at| at[0] > 0 && it.has_spare(&it.case.proposed))
    }),
    ("14 by both bits, and another change before them", |it| {
        both_bits(it, |at| other_changes(it).iter().any(|change| change.0 < at[0]))
    }),
    ("14 by both bits, and a breach", |it| both_bits(it, |_| it.is_broken(&it.case.proposed))),
    ("14 by a spare bit of the allowed map alone", |it| spare_bits(it, |_, forbidden| forbidden.is_empty())),
    ("14 by a spare bit of the forbidden map alone", |it| spare_bits(it, |allowed, _| allowed.is_empty())),
    ("14 by the same spare bit of both maps", |it| spare_bits(it, |allowed, forbidden| allowed == forbidden)),
    ("14 by a spare bit, and another change over privilege 0", |it| {
        spare_bits(it, |_, _| other_changes(it).first().map_or(false, |change| change.0 > 0))
    }),
    ("14 by a spare bit, and a breach", |it| spare_bits(it, |_, _| it.is_broken(&it.case.proposed))),
    ("15: from 0 to 1", |it| fifteen(it, UNSET, ALLOWED)),
    ("15: from 0 to 2", |it| fifteen(it, UNSET, FORBIDDEN)),
    ("15: from 1 to 0", |it| fifteen(it, ALLOWED, UNSET)),
    ("15: from 2 to 0", |it| fifteen(it, FORBIDDEN, UNSET)),
    ("15: from 2 to 1", |it| fifteen(it, FORBIDDEN, ALLOWED)),
    ("15 at a privilege over 7", |it| answered(it, 15, |_| it.proposing().place > 7)),
    ("15 at the last privilege", |it| answered(it, 15, |_| it.v() > 8 && it.proposing().place + 1 == it.v())),
    ("15 at the lowest of several", |it| answered(it, 15, |_| other_changes(it).len() > 1)),
    ("15, and a change from 1 to 2 before it", |it| {
        answered(it, 15, |changed| changed[0] < it.proposing().place)
    }),
    ("15, and a breach", |it| answered(it, 15, |_| it.is_broken(&it.case.proposed))),
    ("format 1: 16 by condition 1 when proposing", |it| breaks(it, Format::One, 1)),
    ("format 1: 16 by condition 2 when proposing", |it| breaks(it, Format::One, 2)),
    ("format 1: 16 by condition 3 when proposing", |it| breaks(it, Format::One, 3)),
    ("format 2: 16 by condition 1 when proposing", |it| breaks(it, Format::Two, 1)),
    ("format 2: 16 by condition 2 when proposing", |it| breaks(it, Format::Two, 2)),
    ("format 2: 16 by condition 3 when proposing", |it| breaks(it, Format::Two, 3)),
    ("16 by the policy's own maps", |it| answered(it, 16, |changed| changed.is_empty())),
    ("16 by other maps", |it| answered(it, 16, |changed| !changed.is_empty())),
    ("16, and the policy is clean", |it| answered(it, 16, |_| !it.is_broken(&it.case.own))),
    ("accepted: the policy's own maps", |it| answered(it, 0, |changed| changed.is_empty())),
    ("accepted, count over 0", |it| answered(it, 0, |changed| !changed.is_empty())),
    ("accepted, count over 0 for a clean policy", |it| {
        answered(it, 0, |changed| !changed.is_empty() && !it.is_broken(&it.case.own))
    }),
    ("accepted, count over 7", |it| answered(it, 0, |changed| changed.len() > 7)),
    ("accepted, changes in two bytes", |it| answered(it, 0, in_two_bytes)),
];
