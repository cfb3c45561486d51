// Situations by the chain of a breach (request 6), of policies of both formats.

use super::policy::{first, told, Policy};
use super::Situation;
use crate::answers::Breach;

/// Whether the first breach has a chain of which that is known.
fn chained(policy: &Policy, known: impl Fn(Breach) -> bool) -> bool {
    told(policy.breach, |at| at.chain.length > 0 && known(at))
}

fn positions(at: Breach) -> Vec<usize> {
    at.chain.positions().iter().map(|&position| position as usize).collect()
}

/// All ways from i to j that are as short as the chain, in ascending order.
fn equally_short(policy: &Policy, at: Breach) -> Vec<Vec<usize>> {
    let mut ways = vec![vec![at.i]];
    for left in (0..at.chain.length - 1).rev() {
        let on = |way: &Vec<usize>| {
            let steps = policy.positions(at.of).filter(|&k| policy.steps_to(at.of, way[way.len() - 1], k));
            let fits = steps.filter(|&k| policy.leads_in(at.of, k, at.j, left));
            fits.map(|k| [&way[..], &[k]].concat()).collect::<Vec<_>>()
        };
        ways = ways.iter().flat_map(on).collect();
    }
    ways
}

/// Whether an equally short way goes with the chain over so many positions and leaves it at the next.
fn parts_behind(policy: &Policy, at: Breach, together: usize) -> bool {
    let told = positions(at);
    let parts = |way: &Vec<usize>| way[..together] == told[..together] && way[together] != told[together];
    equally_short(policy, at).iter().any(parts)
}

/// Whether an equally short way is lower at the last difference.
fn lower_from_behind(policy: &Policy, at: Breach) -> bool {
    let backwards = |way: &Vec<usize>| way.iter().rev().copied().collect::<Vec<_>>();
    let told = backwards(&positions(at));
    equally_short(policy, at).iter().any(|way| backwards(way) < told)
}

/// Whether at one of these steps of the chain a lower position can be gone to of which that is known.
fn passes_over(policy: &Policy, at: Breach, steps: &[[usize; 2]], known: impl Fn(usize) -> bool) -> bool {
    let lower = |[from, to]: &[usize; 2]| (0..*to).any(|k| policy.steps_to(at.of, *from, k) && known(k));
    steps.iter().any(lower)
}

fn steps(at: Breach) -> Vec<[usize; 2]> {
    positions(at).windows(2).map(|two| [two[0], two[1]]).collect()
}

/// Whether at one of these steps a lower position leads to j on a longer way.
fn longer_by_lower(policy: &Policy, at: Breach, steps: &[[usize; 2]]) -> bool {
    passes_over(policy, at, steps, |k| policy.reaches(at.of, k, at.j))
}

/// Whether a same-kind step can be made on a chain that makes none.
fn same_kind_not_taken(policy: &Policy, at: Breach) -> bool {
    at.chain.length > 2 && positions(at).iter().any(|&k| policy.steps_to(at.of, k, k))
}

pub const SITUATIONS: &[Situation] = &[
    ("condition 1: no chain", |it| first(it, 1, |at| at.chain.length == 0)),
    ("condition 2: a chain of 3", |it| first(it, 2, |at| at.chain.length == 3)),
    ("condition 2: a chain of 4", |it| first(it, 2, |at| at.chain.length == 4)),
    ("condition 2: a chain of 5 or more", |it| first(it, 2, |at| at.chain.length >= 5)),
    ("condition 2: a chain of 9 or more", |it| first(it, 2, |at| at.chain.length >= 9)),
    ("condition 2: a chain of 16", |it| first(it, 2, |at| at.chain.length == 16)),
    ("condition 2: a chain from i to i", |it| first(it, 2, |at| at.i == at.j)),
    ("condition 2: a chain of 17, from i to i", |it| first(it, 2, |at| at.chain.length == 17)),
    ("condition 3: a chain of 2, the same-kind step", |it| first(it, 3, |at| at.chain.length == 2)),
    ("condition 3: a chain of 3", |it| first(it, 3, |at| at.chain.length == 3)),
    ("condition 3: a chain of 4", |it| first(it, 3, |at| at.chain.length == 4)),
    ("condition 3: a chain of 5 or more", |it| first(it, 3, |at| at.chain.length >= 5)),
    ("condition 3: a chain of 9 or more", |it| first(it, 3, |at| at.chain.length >= 9)),
    ("condition 3: a chain of 17", |it| first(it, 3, |at| at.chain.length == 17)),
    ("an equally short chain, higher at the first step", |it| chained(it, |at| parts_behind(it, at, 1))),
    ("an equally short chain, higher at a later step", |it| {
        chained(it, |at| (2..at.chain.length).any(|together| parts_behind(it, at, together)))
    }),
    ("an equally short chain, lower at the last difference", |it| {
        chained(it, |at| lower_from_behind(it, at))
    }),
    ("a lower first step, on a longer way", |it| chained(it, |at| longer_by_lower(it, at, &steps(at)[..1]))),
    ("a lower step later, on a longer way", |it| chained(it, |at| longer_by_lower(it, at, &steps(at)[1..]))),
    ("a lower step that does not lead to j", |it| {
        chained(it, |at| passes_over(it, at, &steps(at), |k| !it.reaches(at.of, k, at.j)))
    }),
    ("a same-kind step on the chain, not taken", |it| chained(it, |at| same_kind_not_taken(it, at))),
    ("position 15 on the chain", |it| chained(it, |at| positions(at).contains(&15))),
    ("completing: 16 with a chain", |it| told(it.completing(), |at| at.chain.length > 0)),
    ("completing: 16 with a chain of 9 or more", |it| told(it.completing(), |at| at.chain.length >= 9)),
    ("completing: 16 with a chain of 17", |it| told(it.completing(), |at| at.chain.length == 17)),
    ("proposing: 16 with a chain", |it| told(it.proposing(), |at| at.chain.length > 0)),
    ("proposing: 16 with a chain of 9 or more", |it| told(it.proposing(), |at| at.chain.length >= 9)),
    ("proposing: 16 with a chain of 17", |it| told(it.proposing(), |at| at.chain.length == 17)),
    ("proposing: 16 with another chain than the policy's own", |it| {
        told(it.proposing(), |at| at.chain.length > 0 && told(it.breach, |own| own.chain != at.chain))
    }),
];
