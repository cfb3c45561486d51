// Situations of a sum that 32 bits do not hold.

use super::super::sum::{Pair, Situation, Sum};
use crate::sheet::COUNTS;

/// Whether the call is refused with 30, and of the counts and of the figures that run over that is known.
fn thirty(it: &Sum, known: impl Fn(&[usize], &[usize]) -> bool) -> bool {
    it.number() == 30 && known(&it.counts_over(), &it.figures_over())
}

/// Whether one count alone runs over, of which that is known; there are three privileges or more.
fn one_count(it: &Sum, known: impl Fn(usize) -> bool) -> bool {
    it.v() > 2 && thirty(it, |counts, figures| counts.len() == 1 && figures.is_empty() && known(counts[0]))
}

/// Whether one figure alone does.
fn one_figure(it: &Sum, figure: usize) -> bool {
    thirty(it, |counts, figures| counts.is_empty() && *figures == [figure])
}

/// Whether counts of two privileges run over, of which that is known.
fn two_privileges(it: &Sum, known: impl Fn(usize, usize) -> bool) -> bool {
    thirty(it, |counts, figures| {
        let mut privileges: Vec<usize> = counts.iter().map(|k| k / COUNTS).collect();
        privileges.dedup();
        privileges.len() > 1 && figures.is_empty() && known(privileges[0], privileges[1])
    })
}

/// Whether a sum runs over by one.
fn is_one_over([one, other]: Pair) -> bool {
    one as u64 + other as u64 == 1 << 32
}

pub const SITUATIONS: &[Situation] = &[
    ("30 at privilege 0", |it| one_count(it, |k| k / COUNTS == 0)),
    ("30 at privilege 1", |it| one_count(it, |k| k / COUNTS == 1)),
    ("30 at the last privilege", |it| one_count(it, |k| k / COUNTS + 1 == it.v())),
    ("30 by the last count of all", |it| one_count(it, |k| k + 1 == it.all_counts())),
    ("30 by an allowed count", |it| one_count(it, |k| k % COUNTS == 0)),
    ("30 by a forbidden count", |it| one_count(it, |k| k % COUNTS == 1)),
    ("30 by an unset count", |it| one_count(it, |k| k % COUNTS == 2)),
    ("30 by a sum of 4,294,967,296", |it| one_count(it, |k| is_one_over(it.pairs()[k]))),
    ("30 by 4,294,967,295 twice", |it| one_count(it, |k| it.pairs()[k] == [u32::MAX; 2])),
    ("30 by 1 in the first sheet", |it| one_count(it, |k| it.pairs()[k] == [1, u32::MAX])),
    ("30 by 1 in the second sheet", |it| one_count(it, |k| it.pairs()[k] == [u32::MAX, 1])),
    ("30 at the lower of two privileges", |it| two_privileges(it, |low, high| low > 0 && low < high)),
    ("30 at two privileges, the higher by an earlier count", |it| {
        thirty(it, |counts, _| {
            counts
                .windows(2)
                .any(|two| two[0] / COUNTS < two[1] / COUNTS && two[0] % COUNTS > two[1] % COUNTS)
        })
    }),
    ("30 by all three counts of a privilege", |it| {
        thirty(it, |counts, figures| {
            counts.len() == 3 && counts[0] / COUNTS == counts[2] / COUNTS && figures.is_empty()
        })
    }),
    ("30 at place V by clean", |it| one_figure(it, 0)),
    ("30 at place V by condition 1", |it| one_figure(it, 1)),
    ("30 at place V by condition 2", |it| one_figure(it, 2)),
    ("30 at place V by condition 3", |it| one_figure(it, 3)),
    ("30 at place V by refused", |it| one_figure(it, 4)),
    ("30 at place V by two figures", |it| {
        thirty(it, |counts, figures| counts.is_empty() && figures.len() > 1)
    }),
    ("30 by a figure that comes to 4,294,967,296", |it| {
        thirty(it, |counts, figures| counts.is_empty() && is_one_over(it.figures()[figures[0]]))
    }),
    ("30 by a count, and a figure besides", |it| {
        thirty(it, |counts, figures| !counts.is_empty() && !figures.is_empty())
    }),
    ("30 at place 0 with V 0", |it| it.v() == 0 && thirty(it, |_, figures| !figures.is_empty())),
];
