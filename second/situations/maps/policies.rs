// Situations by the bits of a policy's own maps, and those of a refused table.

use super::super::bits::{Bits, Situation};

/// Whether the policy is refused with 23, and of the privileges with both bits that is known.
fn both_bits(bits: &Bits, known: impl Fn(&[usize]) -> bool) -> bool {
    bits.verdict().number == 23 && known(&bits.doubles(&bits.case.own))
}

/// The same where V is over 8.
fn both_bits_of_many(bits: &Bits, known: impl Fn(&[usize]) -> bool) -> bool {
    bits.v() > 8 && both_bits(bits, known)
}

/// Whether the policy is refused with 24, and of the spare bits that each map has that is known.
fn spare_bits(bits: &Bits, known: impl Fn(&[usize], &[usize]) -> bool) -> bool {
    let [allowed, forbidden] = bits.spares(&bits.case.own);
    bits.verdict().number == 24 && known(&allowed, &forbidden)
}

/// Whether it is refused with 24 for one bit alone, of which that is known, and more bits are spare.
fn one_spare_bit(bits: &Bits, known: impl Fn(usize) -> bool) -> bool {
    spare_bits(bits, |allowed, forbidden| match [allowed, forbidden].concat()[..] {
        [k] => bits.v() % 8 < 7 && known(k),
        _ => false,
    })
}

/// Whether the policy is refused with this number, and that is known besides.
fn refused(bits: &Bits, number: usize, known: impl Fn() -> bool) -> bool {
    bits.verdict().number == number && known()
}

/// Whether the first breach is one of this condition, at a privilege that is not in byte 0.
fn breaks_behind(bits: &Bits, condition: usize) -> bool {
    let breach = &bits.verdict().breach;
    breach.condition == condition && breach.privilege > 7
}

/// Whether the policy is clean, and each of its maps has a bit behind byte 0.
fn clean_behind(bits: &Bits) -> bool {
    let reaches = |map: &&[u8]| map.iter().skip(1).any(|&byte| byte != 0);
    let clean = bits.verdict().number == 0 && bits.verdict().breach.condition == 0;
    clean && bits.case.own.both().iter().all(reaches)
}

fn no_table(bits: &Bits, known: impl Fn() -> bool) -> bool {
    !bits.has_table() && known()
}

pub const SITUATIONS: &[Situation] = &[
    ("23 at privilege 0", |it| both_bits_of_many(it, |at| at == [0])),
    ("23 at privilege 7", |it| both_bits_of_many(it, |at| at == [7])),
    ("23 at privilege 8", |it| both_bits_of_many(it, |at| at == [8])),
    ("23 at the last privilege", |it| both_bits_of_many(it, |at| at == [it.v() - 1])),
    ("23 at the last privilege, V 8n", |it| it.v() % 8 == 0 && both_bits(it, |at| at == [it.v() - 1])),
    ("23 at two privileges of a byte", |it| both_bits(it, |at| at.len() > 1 && at[0] / 8 == at[1] / 8)),
    ("23 at privileges of two bytes", |it| both_bits(it, |at| at[0] / 8 != at[at.len() - 1] / 8)),
    ("23 behind byte 0, at several privileges", |it| both_bits(it, |at| at.len() > 1 && at[0] > 7)),
    ("23, and a spare bit", |it| refused(it, 23, || it.has_spare(&it.case.own))),
    ("23, and the same spare bit of both maps", |it| {
        let [allowed, forbidden] = it.spares(&it.case.own);
        refused(it, 23, || !allowed.is_empty() && allowed == forbidden)
    }),
    ("23, and a result is short", |it| refused(it, 23, || it.lacks_room())),
    ("23, and 13 besides", |it| refused(it, 23, || it.over(&it.case.proposed) != [0, 0])),
    ("23, and 14 besides", |it| refused(it, 23, || it.is_bent(&it.case.proposed))),
    ("24 by the allowed map alone", |it| spare_bits(it, |_, forbidden| forbidden.is_empty())),
    ("24 by the forbidden map alone", |it| spare_bits(it, |allowed, _| allowed.is_empty())),
    ("24 by the same bit of both maps", |it| spare_bits(it, |allowed, forbidden| allowed == forbidden)),
    ("24 by other bits of both maps", |it| {
        spare_bits(it, |allowed, forbidden| {
            allowed.len() == 1 && forbidden.len() == 1 && allowed != forbidden
        })
    }),
    ("24 by the first spare bit", |it| one_spare_bit(it, |k| k == it.v())),
    ("24 by the last spare bit", |it| one_spare_bit(it, |k| k % 8 == 7)),
    ("24 by a spare bit between others", |it| one_spare_bit(it, |k| k > it.v() && k % 8 < 7)),
    ("24 with V 8n + 7", |it| refused(it, 24, || it.v() % 8 == 7)),
    ("24 with V under 8", |it| refused(it, 24, || it.v() < 8)),
    ("24, and a breach", |it| refused(it, 24, || it.is_broken(&it.case.own))),
    ("24, and a result is short", |it| refused(it, 24, || it.lacks_room())),
    ("24, and 13 besides", |it| refused(it, 24, || it.over(&it.case.proposed) != [0, 0])),
    ("24, and 14 besides", |it| refused(it, 24, || it.is_bent(&it.case.proposed))),
    ("condition 1 at a privilege over 7", |it| breaks_behind(it, 1)),
    ("condition 2 at a privilege over 7", |it| breaks_behind(it, 2)),
    ("condition 3 at a privilege over 7", |it| breaks_behind(it, 3)),
    ("clean, with bits of both maps behind byte 0", clean_behind),
    ("a table refused, and no map", |it| no_table(it, || it.case.own.both().concat().is_empty())),
    ("a table refused, and both bits of privilege 0", |it| {
        no_table(it, || it.case.own.pair().has_both_bits(0))
    }),
    ("a table refused, and no result", |it| no_table(it, || it.case.out.both().concat().is_empty())),
    ("a table refused, and no proposed map", |it| {
        no_table(it, || it.case.proposed.both().concat().is_empty())
    }),
];
