// Situations by the number of roles and of privileges.

use super::super::month::{Month, Situation};

/// Whether so many roles with privileges are counted.
fn counts(it: &Month, roles: u32) -> bool {
    it.is_done() && it.v() > 0 && it.case.roles == roles
}

/// Whether roles without privileges are counted, of whose number that is known.
fn counts_none(it: &Month, known: impl Fn(u32) -> bool) -> bool {
    it.is_done() && it.v() == 0 && known(it.case.roles)
}

pub const SITUATIONS: &[Situation] = &[
    ("no role", |it| counts(it, 0)),
    ("no role, V under 3", |it| counts(it, 0) && it.v() < 3),
    ("one role", |it| counts(it, 1)),
    ("two roles", |it| counts(it, 2)),
    ("40 roles", |it| counts(it, 40)),
    ("more than 256 roles", |it| it.roles().len() > 256),
    ("V 0: no role", |it| counts_none(it, |roles| roles == 0)),
    ("V 0: few roles", |it| counts_none(it, |roles| (1..=40).contains(&roles))),
    ("V 0: 65,536 roles", |it| counts_none(it, |roles| roles == 65_536)),
    ("V 0: 4,294,967,295 roles", |it| counts_none(it, |roles| roles == u32::MAX)),
    ("V 0: no counts", |it| counts_none(it, |roles| roles > 0 && it.case.counts.is_empty())),
    ("V 0: counts, all of them kept", |it| counts_none(it, |roles| roles > 0 && !it.case.counts.is_empty())),
    ("V 1", |it| it.v() == 1 && it.counted().count() > 1),
    ("V 2", |it| it.v() == 2 && it.counted().count() > 1),
    ("V 3", |it| it.v() == 3 && it.counted().count() > 1),
    ("V over 3", |it| it.v() > 3 && it.counted().count() > 1),
];
