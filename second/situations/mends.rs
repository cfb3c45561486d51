// Situations by what a mend forbids.

use super::policy::Policy;
use super::Situation;

/// Whether it forbids, for a breach of this condition, a replacement by the same kind.
fn takes_same_kind(policy: &Policy, condition: usize) -> bool {
    let same_kind = |privilege: usize| policy.table.is_same_kind(privilege);
    policy.steps().iter().any(|(at, taken)| at.condition == condition && same_kind(*taken))
}

/// Whether it forbids the delete of a star, and then its exchange.
fn takes_both(policy: &Policy) -> bool {
    let takes = |privilege: usize| policy.steps().iter().any(|(_, taken)| *taken == privilege);
    let stars = policy.steps().iter().filter(|(at, _)| at.condition == 1).map(|(at, _)| at.of);
    stars.into_iter().any(|star| takes(policy.table.delete(star)) && takes(policy.exchange(star)))
}

pub const SITUATIONS: &[Situation] = &[
    ("mending condition 1: the exchange", |it| takes_same_kind(it, 1)),
    ("mending condition 1: the delete, then the exchange", takes_both),
    ("mending condition 2: i by i", |it| takes_same_kind(it, 2)),
    ("mending condition 2: at i = j", |it| {
        it.steps().iter().any(|(at, _)| at.condition == 2 && at.i == at.j)
    }),
    ("mending condition 3: i by i", |it| takes_same_kind(it, 3)),
];
