// A policy that is not refused, and what is asked of it. What speaks of the exchange or of replacing i by i is asked in format 2 only.

use crate::answers::{Breach, Outcome};
use crate::completing::{complete, completion};
use crate::conditions::{check_policy, first_breach, reached};
use crate::format::Format;
use crate::mending::{judge_mend, mending_steps};
use crate::policy_case::PolicyCase;
use crate::table::{Table, ALLOWED, UNSET};
use std::cell::OnceCell;
use std::ops::Range;

pub struct Policy<'a> {
    pub case: &'a PolicyCase,
    pub table: Table,
    pub breach: Option<Breach>,
    steps: OnceCell<Vec<(Breach, usize)>>,
    completion: OnceCell<Option<Vec<u8>>>,
}

/// Whether there is a breach of which that is known.
pub fn told(breach: Option<Breach>, known: impl Fn(Breach) -> bool) -> bool {
    breach.map_or(false, known)
}

/// Whether the first breach is one of this condition of which that is known.
pub fn first(policy: &Policy, condition: usize, known: impl Fn(Breach) -> bool) -> bool {
    told(policy.breach, |at| at.condition == condition && known(at))
}

/// The breach of a refusal with 16.
fn refused_breach(outcome: Outcome) -> Option<Breach> {
    outcome.err().filter(|refusal| refusal.number == 16).map(|refusal| refusal.breach)
}

impl Policy<'_> {
    pub fn of(case: &PolicyCase) -> Option<Policy<'_>> {
        let table = check_policy(&case.words, &case.marks).ok()?;
        let breach = first_breach(&table, &case.marks);
        Some(Policy { case, table, breach, steps: OnceCell::new(), completion: OnceCell::new() })
    }

    /// The same, of format 2.
    pub fn of_two(case: &PolicyCase) -> Option<Policy<'_>> {
        Policy::of(case).filter(|policy| policy.table.format == Format::Two)
    }

    fn has_room(&self) -> bool {
        self.case.out.len() >= self.table.v()
    }

    /// The steps of its mending; none where there is no room for the result.
    pub fn steps(&self) -> &[(Breach, usize)] {
        let steps =
            || if self.has_room() { mending_steps(&self.table, &self.case.marks) } else { Vec::new() };
        self.steps.get_or_init(steps)
    }

    /// Its completion, where that is not refused.
    pub fn completion(&self) -> Option<&Vec<u8>> {
        let refused = self.breach.is_some() || !self.has_room();
        let made = || if refused { None } else { Some(completion(&self.table, &self.case.marks)) };
        self.completion.get_or_init(made).as_ref()
    }

    /// The breach with which completing is refused.
    pub fn completing(&self) -> Option<Breach> {
        let PolicyCase { words, marks, out, .. } = self.case;
        refused_breach(complete(words, marks, &mut out.clone()))
    }

    /// The breach with which the proposed mend is refused.
    pub fn proposing(&self) -> Option<Breach> {
        let PolicyCase { words, marks, proposed, .. } = self.case;
        refused_breach(judge_mend(words, marks, proposed))
    }

    pub fn mark(&self, privilege: usize) -> u8 {
        self.case.marks[privilege]
    }

    pub fn allows(&self, privilege: usize) -> bool {
        self.mark(privilege) == ALLOWED
    }

    pub fn allows_both(&self, star: usize) -> bool {
        self.table.allows_both(&self.case.marks, star)
    }

    pub fn exchange(&self, star: usize) -> usize {
        self.table.exchange(star).expect("a star of format 2 has one")
    }

    pub fn positions(&self, choice: usize) -> Range<usize> {
        0..self.table.types[choice].children.len()
    }

    /// The replacement of i by i.
    pub fn same_kind(&self, choice: usize, i: usize) -> usize {
        self.table.replacement(choice, i, i)
    }

    /// The privileges below the child at i that have this mark.
    pub fn below(&self, t: usize, i: usize, mark: u8) -> Vec<usize> {
        let below = &self.table.below[self.table.types[t].children[i]];
        below.iter().copied().filter(|&p| self.mark(p) == mark).collect()
    }

    /// Whether the replacement of i by j is allowed.
    pub fn steps_to(&self, choice: usize, i: usize, j: usize) -> bool {
        self.table.allows(&self.case.marks, choice, i, j)
    }

    /// Whether exactly so many allowed replacements can lead from i to j.
    pub fn leads_in(&self, choice: usize, i: usize, j: usize, steps: usize) -> bool {
        let mut ends: Vec<usize> = vec![i];
        for _ in 0..steps {
            let is_next = |&k: &usize| ends.iter().any(|&end| self.steps_to(choice, end, k));
            ends = self.positions(choice).filter(is_next).collect();
        }
        ends.contains(&j)
    }

    pub fn reaches(&self, choice: usize, i: usize, j: usize) -> bool {
        reached(&self.table, &self.case.marks, choice, i)[j]
    }

    /// Whether i is reached from i over others, without the replacement of i by i.
    pub fn comes_round(&self, choice: usize, i: usize) -> bool {
        let mut without = self.case.marks.clone();
        without[self.same_kind(choice, i)] = UNSET;
        reached(&self.table, &without, choice, i)[i]
    }

    /// Whether i is reached from i by the replacement of i by i and not without it.
    pub fn by_same_kind_alone(&self, choice: usize, i: usize) -> bool {
        self.allows(self.same_kind(choice, i)) && !self.comes_round(choice, i)
    }
}
