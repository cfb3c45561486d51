// Situations by the results: too short, longer than they must be, and what a call writes over what was lent.

use super::super::bits::Writing::{Completing, Mending};
use super::super::bits::{Bits, Situation, Writing};
use crate::format::Format;
use crate::maps::has_bit;
use crate::table::UNSET;

/// Whether both calls that write are refused with 12, for lengths of which that is known; V is over 8, so that a result one byte short is not
/// empty.
fn twelve(bits: &Bits, known: impl Fn([isize; 2]) -> bool) -> bool {
    let refused = |call: Writing| bits.writes(call).number == 12;
    bits.v() > 8 && refused(Completing) && refused(Mending) && known(bits.over(&bits.case.out))
}

/// Whether a call writes results for one privilege or more.
fn done(bits: &Bits, call: Writing) -> bool {
    bits.v() > 0 && bits.writes(call).number == 0
}

/// Whether a call writes, and each result has a byte other than 0 behind what is written.
fn keeps_behind(bits: &Bits, call: Writing) -> bool {
    let over = bits.over(&bits.case.out);
    let behind = |map: &[u8], over: isize| map.iter().rev().take(over as usize).any(|&byte| byte != 0);
    let [allowed, forbidden] = bits.case.out.both();
    done(bits, call) && behind(allowed, over[0]) && behind(forbidden, over[1])
}

/// Whether a call writes, and spare bits are cleared in this one of the results.
fn clears_spares(bits: &Bits, call: Writing, which: usize) -> bool {
    done(bits, call) && !bits.spares(&bits.case.out)[which].is_empty()
}

/// Whether a call writes, and in each result a privilege's bit is cleared and another is set.
fn turns_bits(bits: &Bits, call: Writing) -> bool {
    let turns = |lent: &[u8], after: &[u8], to: bool| {
        (0..bits.v()).any(|privilege| has_bit(lent, privilege) != to && has_bit(after, privilege) == to)
    };
    let (lent, after) = (bits.case.out.both(), bits.written(call));
    done(bits, call) && (0..2).all(|k| [true, false].iter().all(|&to| turns(lent[k], after[k], to)))
}

/// Whether completing is refused in this format for a breach of this condition, and each result is kept that nothing would write: neither
/// zeros nor the policy's own map.
fn keeps_with_16(bits: &Bits, format: Format, condition: usize) -> bool {
    let refusal = bits.writes(Completing);
    let known = |(lent, own): (&[u8], &[u8])| lent.iter().all(|&byte| byte == 0) || lent == own;
    let maps = bits.case.out.both().into_iter().zip(bits.case.own.both());
    let is_told = refusal.number == 16 && refusal.breach.condition == condition;
    bits.case.has(format) && is_told && !maps.into_iter().any(known)
}

/// Whether a call writes, and the results are the policy's own maps, which have bits.
fn copies(bits: &Bits, call: Writing) -> bool {
    let own = bits.case.own.both();
    let same = own.iter().zip(bits.written(call)).all(|(own, after)| after.starts_with(own));
    done(bits, call) && same && own.concat().iter().any(|&byte| byte != 0)
}

/// Whether a mend takes away privileges of two bytes.
fn mends_bytes(bits: &Bits) -> bool {
    let (own, after) = (&bits.case.own.allowed, bits.written(Mending)[0]);
    done(bits, Mending) && own.iter().zip(after).filter(|(own, after)| own != after).count() > 1
}

/// Whether a mend leaves a privilege unset of which both bits were lent set.
fn unsets(bits: &Bits) -> bool {
    let marks = bits.marks(&bits.case.own);
    let lent = |privilege: usize| bits.case.out.pair().has_both_bits(privilege);
    done(bits, Mending) && (0..bits.v()).any(|privilege| marks[privilege] == UNSET && lent(privilege))
}

pub const SITUATIONS: &[Situation] = &[
    ("12: the allowed result one byte short", |it| twelve(it, |over| over[0] == -1 && over[1] >= 0)),
    ("12: the forbidden result one byte short", |it| twelve(it, |over| over[0] >= 0 && over[1] == -1)),
    ("12: both results one byte short", |it| twelve(it, |over| over == [-1, -1])),
    ("12: one result short, the other long", |it| twelve(it, |over| over[0] * over[1] < 0)),
    ("12: no allowed result", |it| twelve(it, |_| it.case.out.allowed.is_empty())),
    ("12: no forbidden result", |it| twelve(it, |_| it.case.out.forbidden.is_empty())),
    ("12: no result", |it| twelve(it, |_| it.case.out.both().concat().is_empty())),
    ("12, and a breach", |it| twelve(it, |_| it.is_broken(&it.case.own))),
    ("results just as long as they must be, V 8n", |it| {
        done(it, Mending) && it.over(&it.case.out) == [0, 0] && it.v() % 8 == 0
    }),
    ("results just as long as they must be, V not 8n", |it| {
        done(it, Mending) && it.over(&it.case.out) == [0, 0] && it.v() % 8 != 0
    }),
    ("the allowed result alone longer", |it| {
        done(it, Mending) && it.over(&it.case.out)[0] > 0 && it.over(&it.case.out)[1] == 0
    }),
    ("the forbidden result alone longer", |it| {
        done(it, Mending) && it.over(&it.case.out)[0] == 0 && it.over(&it.case.out)[1] > 0
    }),
    ("completing: bytes kept behind both results", |it| keeps_behind(it, Completing)),
    ("mending: bytes kept behind both results", |it| keeps_behind(it, Mending)),
    ("completing: a spare bit of the allowed result cleared", |it| clears_spares(it, Completing, 0)),
    ("completing: a spare bit of the forbidden result cleared", |it| clears_spares(it, Completing, 1)),
    ("mending: a spare bit of the allowed result cleared", |it| clears_spares(it, Mending, 0)),
    ("mending: a spare bit of the forbidden result cleared", |it| clears_spares(it, Mending, 1)),
    ("completing: bits set and cleared in each result", |it| turns_bits(it, Completing)),
    ("mending: bits set and cleared in each result", |it| turns_bits(it, Mending)),
    ("format 1: 16 by condition 1 when completing, both results kept", |it| {
        keeps_with_16(it, Format::One, 1)
    }),
    ("format 1: 16 by condition 2 when completing, both results kept", |it| {
        keeps_with_16(it, Format::One, 2)
    }),
    ("format 1: 16 by condition 3 when completing, both results kept", |it| {
        keeps_with_16(it, Format::One, 3)
    }),
    ("format 2: 16 by condition 1 when completing, both results kept", |it| {
        keeps_with_16(it, Format::Two, 1)
    }),
    ("format 2: 16 by condition 2 when completing, both results kept", |it| {
        keeps_with_16(it, Format::Two, 2)
    }),
    ("format 2: 16 by condition 3 when completing, both results kept", |it| {
        keeps_with_16(it, Format::Two, 3)
    }),
    ("completing: a decided policy copied", |it| copies(it, Completing)),
    ("mending: a clean policy copied", |it| copies(it, Mending)),
    ("mending: privileges of two bytes taken away", mends_bytes),
    ("mending: a privilege left unset of which both bits were lent", unsets),
];
