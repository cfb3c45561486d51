// A call that adds two sheets (request 12), and what is asked of it.

use super::counted::Counted;
use super::leading::Leading;
use crate::sum_case::{SumCase, CALLS};

pub type Sum<'a> = Counted<'a, SumCase>;

/// A situation of such a call: its name, and whether a case is in it.
pub type Situation = (&'static str, fn(&Sum) -> bool);

/// What is added to one number.
pub type Pair = [u32; 2];

pub fn is_over([one, other]: Pair) -> bool {
    one.checked_add(other).is_none()
}

/// Whether the sum is just as much as 32 bits hold.
pub fn is_most([one, other]: Pair) -> bool {
    one.checked_add(other) == Some(u32::MAX)
}

pub fn sum_of(case: &SumCase) -> Sum<'_> {
    Counted::of(case, &case.words, (CALLS[0].make)(case))
}

impl Sum<'_> {
    /// By how many numbers each run of counts is longer than it must be.
    pub fn over(&self) -> [isize; 2] {
        [&self.case.counts, &self.case.more_counts].map(|run| run.len() as isize - self.all_counts() as isize)
    }

    /// The two numbers of each count, as far as both runs have it.
    pub fn pairs(&self) -> Vec<Pair> {
        let SumCase { counts, more_counts, .. } = self.case;
        counts.iter().zip(more_counts).take(self.all_counts()).map(|(&one, &other)| [one, other]).collect()
    }

    /// The two numbers of each figure.
    pub fn figures(&self) -> [Pair; 5] {
        [0, 1, 2, 3, 4].map(|k| [self.case.sheet.figures[k], self.case.more.figures[k]])
    }

    /// The counts that run over.
    pub fn counts_over(&self) -> Vec<usize> {
        let pairs = self.pairs();
        (0..pairs.len()).filter(|&k| is_over(pairs[k])).collect()
    }

    /// The figures that do.
    pub fn figures_over(&self) -> Vec<usize> {
        (0..5).filter(|&k| is_over(self.figures()[k])).collect()
    }

    pub fn runs_over(&self) -> bool {
        !self.counts_over().is_empty() || !self.figures_over().is_empty()
    }

    /// Which of the two sheets was itself refused.
    pub fn refused(&self) -> [bool; 2] {
        [self.case.sheet, self.case.more].map(|given| given.number != 0)
    }

    /// Where the call is done and there is a privilege.
    pub fn leading(&self) -> Option<Leading> {
        let leads = self.is_done() && self.v() > 0;
        leads.then(|| Leading::of(&self.counts[..self.all_counts()]))
    }

    /// The leaders of each of the two sheets, where the call is done.
    pub fn leaders_before(&self) -> [Vec<usize>; 2] {
        let SumCase { counts, more_counts, .. } = self.case;
        [counts, more_counts].map(|counts| match self.is_done() {
            true => Leading::of(&counts[..self.all_counts()]).leaders().to_vec(),
            false => Vec::new(),
        })
    }

    /// Those of the sum.
    pub fn leaders(&self) -> &[usize] {
        &self.sheet.leaders[..self.sheet.leader_count as usize]
    }
}
