// Situations by how many are forbidden below (request 8), of policies of both formats.

use super::policy::{first, told, Policy};
use super::Situation;
use crate::answers::Breach;
use crate::table::{Type, FORBIDDEN};

/// The forbidden privileges below the child of a breach.
fn below(policy: &Policy, at: Breach) -> Vec<usize> {
    policy.below(at.of, at.i, FORBIDDEN)
}

/// Whether they are what the breach counts.
fn counts_below(policy: &Policy, at: Breach) -> bool {
    below(policy, at).contains(&at.privilege)
}

/// Whether the breach counts one, and more are forbidden below the child.
fn counts_itself(policy: &Policy, at: Breach) -> bool {
    at.forbidden == 1 && !counts_below(policy, at) && !below(policy, at).is_empty()
}

/// How many paths lead from a type to another, or 2 where there are more; `known` has it for types that were asked.
fn paths(types: &[Type], from: usize, to: usize, known: &mut Vec<Option<usize>>) -> usize {
    if from == to {
        return 1;
    }
    if known[from].is_none() {
        let sum: usize = types[from].children.iter().map(|&child| paths(types, child, to, known)).sum();
        known[from] = Some(sum.min(2));
    }
    known[from].unwrap_or(0)
}

/// Whether two paths lead from the child of a breach to a privilege that is counted.
fn counts_shared(policy: &Policy, at: Breach) -> bool {
    let types = &policy.table.types;
    let child = types[at.of].children[at.i];
    let twice = |to: usize| paths(types, child, to, &mut vec![None; types.len()]) == 2;
    counts_below(policy, at) && below(policy, at).iter().any(|&p| twice(policy.table.owner[p]))
}

/// Whether privileges of two types are counted.
fn counts_types(policy: &Policy, at: Breach) -> bool {
    let other = |p: usize| policy.table.owner[p] != policy.table.owner[at.privilege];
    counts_below(policy, at) && below(policy, at).iter().any(|&p| other(p))
}

fn all_forbidden(policy: &Policy) -> usize {
    policy.case.marks.iter().filter(|&&mark| mark == FORBIDDEN).count()
}

pub const SITUATIONS: &[Situation] = &[
    ("count 0: clean, with something forbidden", |it| it.breach.is_none() && all_forbidden(it) > 0),
    ("condition 1: count 1", |it| first(it, 1, |at| at.forbidden == 1)),
    ("condition 1: count 2 or more", |it| first(it, 1, |at| at.forbidden >= 2)),
    ("condition 1: count 1 at the exchange, more forbidden below", |it| {
        first(it, 1, |at| counts_itself(it, at))
    }),
    ("condition 2: count 1, more forbidden below the child at i", |it| {
        first(it, 2, |at| counts_itself(it, at))
    }),
    ("condition 3: count 1", |it| first(it, 3, |at| at.forbidden == 1)),
    ("condition 3: count 2 or more", |it| first(it, 3, |at| at.forbidden >= 2)),
    ("count 10 or more", |it| told(it.breach, |at| at.forbidden >= 10)),
    ("two paths lead to what is counted", |it| told(it.breach, |at| counts_shared(it, at))),
    ("privileges of two types are counted", |it| told(it.breach, |at| counts_types(it, at))),
    ("more is forbidden that is not below", |it| {
        told(it.breach, |at| counts_below(it, at) && at.forbidden < all_forbidden(it))
    }),
    ("completing: 16 with count 1", |it| told(it.completing(), |at| at.forbidden == 1)),
    ("completing: 16 with count 2 or more", |it| told(it.completing(), |at| at.forbidden >= 2)),
    ("completing: 16 with count 10 or more", |it| told(it.completing(), |at| at.forbidden >= 10)),
    ("proposing: 16 with count 1", |it| told(it.proposing(), |at| at.forbidden == 1)),
    ("proposing: 16 with count 2 or more", |it| told(it.proposing(), |at| at.forbidden >= 2)),
    ("proposing: 16 with count 10 or more", |it| told(it.proposing(), |at| at.forbidden >= 10)),
    ("proposing: 16 with another count than the policy's own", |it| {
        told(it.proposing(), |at| told(it.breach, |own| own.forbidden != at.forbidden))
    }),
];
