// Situations by what a completion decides.

use super::policy::Policy;
use super::Situation;
use crate::table::{ALLOWED, CHOICE, FORBIDDEN, STAR, UNSET};

/// Whether the policy is completed and has a type of this kind of which that is known.
fn completed(policy: &Policy, kind: u16, known: impl Fn(usize) -> bool) -> bool {
    let types = &policy.table.types;
    policy.completion().is_some() && (0..types.len()).any(|t| types[t].kind == kind && known(t))
}

/// Whether an unset privilege is completed to this mark.
fn becomes(policy: &Policy, privilege: usize, mark: u8) -> bool {
    let completed = policy.completion().map(|marks| marks[privilege]);
    policy.mark(privilege) == UNSET && completed == Some(mark)
}

/// Whether the exchange is allowed and insert and delete are not both.
fn by_exchange_alone(policy: &Policy, star: usize) -> bool {
    policy.allows(policy.exchange(star)) && !policy.allows_both(star)
}

fn opens(policy: &Policy, t: usize, i: usize) -> bool {
    !policy.below(t, i, UNSET).is_empty()
}

pub const SITUATIONS: &[Situation] = &[
    ("completing: the exchange allowed for insert and delete", |it| {
        completed(it, STAR, |t| it.allows_both(t) && becomes(it, it.exchange(t), ALLOWED))
    }),
    ("completing: the exchange forbidden", |it| {
        completed(it, STAR, |t| becomes(it, it.exchange(t), FORBIDDEN))
    }),
    ("completing: what is below allowed for the exchange alone", |it| {
        completed(it, STAR, |t| by_exchange_alone(it, t) && opens(it, t, 0))
    }),
    ("completing: i by i allowed for a way over others", |it| {
        let over_others = |t, i| it.comes_round(t, i) && becomes(it, it.same_kind(t, i), ALLOWED);
        completed(it, CHOICE, |t| it.positions(t).any(|i| over_others(t, i)))
    }),
    ("completing: i by i forbidden", |it| {
        completed(it, CHOICE, |t| it.positions(t).any(|i| becomes(it, it.same_kind(t, i), FORBIDDEN)))
    }),
    ("completing: what is below allowed for a same-kind step alone", |it| {
        let alone = |t, i| it.by_same_kind_alone(t, i) && opens(it, t, i);
        completed(it, CHOICE, |t| it.positions(t).any(|i| alone(t, i)))
    }),
    ("completing: what is below allowed for a choice of one kind", |it| {
        completed(it, CHOICE, |t| {
            it.positions(t).len() == 1 && it.allows(it.same_kind(t, 0)) && opens(it, t, 0)
        })
    }),
];
