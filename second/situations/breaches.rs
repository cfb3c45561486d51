// Situations by the first breach.

use super::policy::{first, Policy};
use super::Situation;
use crate::answers::Breach;
use crate::table::{FORBIDDEN, MOST_CHILDREN, UNSET};

/// Whether the exchange is the privilege of the breach, and of what is forbidden below that is known.
fn exchange_forbidden(policy: &Policy, known: impl Fn(usize, &[usize]) -> bool) -> bool {
    let below = |star: usize| policy.below(star, 0, FORBIDDEN);
    let is_exchange = |breach: Breach| breach.privilege == policy.exchange(breach.of);
    first(policy, 1, |breach| is_exchange(breach) && known(breach.privilege, &below(breach.of)))
}

fn is_broken(policy: &Policy, choice: usize, i: usize, j: usize) -> bool {
    let forbidden = policy.mark(policy.table.replacement(choice, i, j)) == FORBIDDEN;
    forbidden && policy.reaches(choice, i, j)
}

/// Whether a same-kind step is allowed at a position on a way from i to j.
fn same_kind_between(policy: &Policy, choice: usize, i: usize, j: usize) -> bool {
    let leads = |a: usize, b: usize| a == b || policy.reaches(choice, a, b);
    let own = |k: usize| policy.allows(policy.same_kind(choice, k));
    policy.positions(choice).any(|k| own(k) && leads(i, k) && leads(k, j))
}

fn greater_too(policy: &Policy, at: Breach) -> bool {
    policy.positions(at.of).any(|j| j > at.i && is_broken(policy, at.of, at.i, j))
}

pub const SITUATIONS: &[Situation] = &[
    ("condition 1: the exchange forbidden, nothing below", |it| {
        exchange_forbidden(it, |_, below| below.is_empty())
    }),
    ("condition 1: the exchange forbidden, a lower privilege below too", |it| {
        exchange_forbidden(it, |exchange, below| below.iter().any(|&p| p < exchange))
    }),
    ("condition 1: the exchange forbidden, only higher privileges below too", |it| {
        exchange_forbidden(it, |exchange, below| !below.is_empty() && below.iter().all(|&p| p > exchange))
    }),
    ("condition 1: insert and delete allowed, the exchange unset", |it| {
        first(it, 1, |at| it.mark(it.exchange(at.of)) == UNSET)
    }),
    ("condition 1: the exchange allowed, insert and delete not both", |it| {
        first(it, 1, |at| !it.allows_both(at.of))
    }),
    ("condition 1: insert, delete and exchange allowed", |it| {
        first(it, 1, |at| it.allows_both(at.of) && it.allows(it.exchange(at.of)))
    }),
    ("condition 2: i = j", |it| first(it, 2, |at| at.i == at.j)),
    ("condition 2: i = j, a greater j too", |it| first(it, 2, |at| at.i == at.j && greater_too(it, at))),
    ("condition 2: j under i, i = j too", |it| {
        first(it, 2, |at| at.j < at.i && is_broken(it, at.of, at.i, at.i))
    }),
    ("condition 2: a same-kind step on the chain", |it| {
        first(it, 2, |at| at.i != at.j && same_kind_between(it, at.of, at.i, at.j))
    }),
    ("condition 2: a choice of 16 kinds", |it| first(it, 2, |at| it.positions(at.of).len() == MOST_CHILDREN)),
    ("condition 3: by a same-kind step alone", |it| first(it, 3, |at| it.by_same_kind_alone(at.of, at.i))),
    ("condition 3: over others, the same-kind step unset", |it| {
        first(it, 3, |at| it.mark(it.same_kind(at.of, at.i)) == UNSET)
    }),
    ("condition 3: a choice of one kind", |it| first(it, 3, |at| it.positions(at.of).len() == 1)),
    ("condition 3: a choice of 16 kinds", |it| first(it, 3, |at| it.positions(at.of).len() == MOST_CHILDREN)),
];
