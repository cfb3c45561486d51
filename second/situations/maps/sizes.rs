// Situations by the number of privileges: each remainder by 8, and none.

use super::super::bits::{Bits, Situation};
use crate::maps::has_bit;

/// Whether V is over 0 and has this remainder by 8.
fn leaves(bits: &Bits, remainder: usize) -> bool {
    bits.v() > 0 && bits.v() % 8 == remainder
}

/// Whether the policy is judged and the last privilege is set.
fn last_is_set(bits: &Bits) -> bool {
    let set = |map: &&[u8]| bits.v() > 0 && has_bit(map, bits.v() - 1);
    bits.verdict().number == 0 && bits.case.own.both().iter().any(set)
}

fn no_privilege(bits: &Bits) -> bool {
    bits.has_table() && bits.v() == 0
}

/// Whether there is no privilege, and each call is done.
fn none_done(bits: &Bits) -> bool {
    no_privilege(bits) && bits.is_completed() && bits.proposing().number == 0
}

/// Whether there is no privilege, and the maps are refused for their lengths.
fn none_refused(bits: &Bits, over: fn([isize; 2]) -> bool) -> bool {
    no_privilege(bits) && bits.verdict().number == 10 && over(bits.over(&bits.case.own))
}

pub const SITUATIONS: &[Situation] = &[
    ("V 8n: completed", |it| leaves(it, 0) && it.is_completed()),
    ("V 8n + 1: completed", |it| leaves(it, 1) && it.is_completed()),
    ("V 8n + 2: completed", |it| leaves(it, 2) && it.is_completed()),
    ("V 8n + 3: completed", |it| leaves(it, 3) && it.is_completed()),
    ("V 8n + 4: completed", |it| leaves(it, 4) && it.is_completed()),
    ("V 8n + 5: completed", |it| leaves(it, 5) && it.is_completed()),
    ("V 8n + 6: completed", |it| leaves(it, 6) && it.is_completed()),
    ("V 8n + 7: completed", |it| leaves(it, 7) && it.is_completed()),
    ("V 8n: mended, count over 0", |it| leaves(it, 0) && it.is_changed()),
    ("V 8n + 1: mended, count over 0", |it| leaves(it, 1) && it.is_changed()),
    ("V 8n + 2: mended, count over 0", |it| leaves(it, 2) && it.is_changed()),
    ("V 8n + 3: mended, count over 0", |it| leaves(it, 3) && it.is_changed()),
    ("V 8n + 4: mended, count over 0", |it| leaves(it, 4) && it.is_changed()),
    ("V 8n + 5: mended, count over 0", |it| leaves(it, 5) && it.is_changed()),
    ("V 8n + 6: mended, count over 0", |it| leaves(it, 6) && it.is_changed()),
    ("V 8n + 7: mended, count over 0", |it| leaves(it, 7) && it.is_changed()),
    ("V 8n: judged, the last privilege set", |it| leaves(it, 0) && last_is_set(it)),
    ("V 8n + 1: judged, the last privilege set", |it| leaves(it, 1) && last_is_set(it)),
    ("V 8n + 7: judged, the last privilege set", |it| leaves(it, 7) && last_is_set(it)),
    ("V 0: all done", none_done),
    ("V 0: all done, each result kept", |it| {
        none_done(it) && it.case.out.both().iter().all(|map| !map.is_empty())
    }),
    ("V 0: 10 for a byte of the allowed map", |it| none_refused(it, |over| over == [1, 0])),
    ("V 0: 10 for a byte of the forbidden map", |it| none_refused(it, |over| over == [0, 1])),
    ("V 0: 10 for bytes of both maps", |it| none_refused(it, |over| over[0] > 0 && over[1] > 0)),
    ("V 0: 13", |it| no_privilege(it) && it.proposing().number == 13),
];
