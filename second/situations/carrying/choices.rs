// Situations of a choice that is one still: with kinds lost, gained and in another order.

use super::super::moves::{Kept, Move, Situation};
use crate::format::Format::{self, One, Two};
use crate::table::{CHOICE, MOST_CHILDREN};

/// The kinds of a choice before and after, as numbers of the new table.
struct Kinds {
    moved: Vec<Option<usize>>,
    now: Vec<usize>,
}

impl Kinds {
    fn of(kept: &Kept) -> Kinds {
        Kinds { moved: kept.moved(), now: kept.is().children.clone() }
    }

    /// The kinds that stayed, in the order before.
    fn stayed(&self) -> Vec<usize> {
        self.moved.iter().flatten().copied().filter(|kind| self.now.contains(kind)).collect()
    }

    fn lost(&self) -> usize {
        self.moved.len() - self.stayed().len()
    }

    fn gained(&self) -> usize {
        self.now.len() - self.stayed().len()
    }

    /// Whether the kinds that stayed have another order.
    fn is_reordered(&self) -> bool {
        let stayed = self.stayed();
        let order: Vec<usize> = self.now.iter().copied().filter(|kind| stayed.contains(kind)).collect();
        order != stayed
    }

    /// Whether kinds were lost, gained and reordered, each or not.
    fn changed(&self, lost: bool, gained: bool, reordered: bool) -> bool {
        (self.lost() > 0, self.gained() > 0, self.is_reordered()) == (lost, gained, reordered)
    }

    /// Whether a kind that is gone or no kind any more has another in its place.
    fn has_other_in_place(&self) -> bool {
        let is_other = |(moved, now): (&Option<usize>, &usize)| *moved != Some(*now);
        self.moved.len() == self.now.len()
            && self.lost() == 1
            && self.moved.iter().zip(&self.now).filter(|&pair| is_other(pair)).count() == 1
    }
}

fn choice(it: &Move, known: impl Fn(&Kept, &Kinds) -> bool) -> bool {
    it.any_kept(|kept| kept.becomes(CHOICE, CHOICE) && known(kept, &Kinds::of(kept)))
}

fn between(it: &Move, formats: [Format; 2], known: impl Fn(&Kept, &Kinds) -> bool) -> bool {
    it.is_done_from(formats) && choice(it, known)
}

/// Whether two kinds of a choice take each other's number and stay in their places, and a carried mark is not where it was.
fn takes_turns(it: &Move, kept: &Kept) -> bool {
    let children = &kept.was().children;
    let is_turned = |&kind: &usize| {
        let other = it.number(kind).filter(|other| *other != kind && children.contains(other));
        other.map_or(false, |other| it.number(other) == Some(kind))
    };
    *children == kept.is().children && children.iter().any(is_turned) && kept.is_elsewhere()
}

pub const SITUATIONS: &[Situation] = &[
    ("format 1 to 1: a choice as it was, marks carried", |it| {
        between(it, [One, One], |kept, kinds| kinds.changed(false, false, false) && kept.carries())
    }),
    ("format 1 to 2: a choice as it was, marks carried, same-kind replacements unset", |it| {
        between(it, [One, Two], |kept, kinds| kinds.changed(false, false, false) && kept.carries())
    }),
    ("format 2 to 1: a choice as it was, marks carried, same-kind replacements lost", |it| {
        between(it, [Two, One], |kept, kinds| {
            kinds.changed(false, false, false) && kept.carries() && kept.loses_same_kind()
        })
    }),
    ("format 2 to 2: a choice as it was, same-kind replacements carried", |it| {
        between(it, [Two, Two], |kept, kinds| kinds.changed(false, false, false) && kept.carries_same_kind())
    }),
    ("a choice lost kinds", |it| {
        choice(it, |kept, kinds| kinds.changed(true, false, false) && kept.carries() && kept.loses())
    }),
    ("a choice gained kinds", |it| {
        choice(it, |kept, kinds| kinds.changed(false, true, false) && kept.carries() && kept.has_fresh())
    }),
    ("a choice gained a kind before the others", |it| {
        choice(it, |kept, kinds| {
            kinds.changed(false, true, false) && kept.carries() && !kinds.stayed().contains(&kinds.now[0])
        })
    }),
    ("a choice lost its first kind", |it| {
        choice(it, |kept, kinds| {
            kinds.changed(true, false, false)
                && kept.carries()
                && !kinds.moved[0].map_or(false, |kind| kinds.now.contains(&kind))
        })
    }),
    ("a choice reordered", |it| {
        choice(it, |kept, kinds| kinds.changed(false, false, true) && kept.is_elsewhere())
    }),
    ("a choice lost and gained kinds", |it| {
        choice(it, |kept, kinds| kinds.changed(true, true, false) && kept.carries() && kept.loses())
    }),
    ("a choice lost kinds and was reordered", |it| {
        choice(it, |kept, kinds| kinds.changed(true, false, true) && kept.carries() && kept.loses())
    }),
    ("a choice gained kinds and was reordered", |it| {
        choice(it, |kept, kinds| kinds.changed(false, true, true) && kept.carries() && kept.has_fresh())
    }),
    ("a choice lost and gained kinds and was reordered", |it| {
        choice(it, |kept, kinds| kinds.changed(true, true, true) && kept.carries() && kept.loses())
    }),
    ("a choice with another kind in the place of one", |it| {
        choice(it, |kept, kinds| kinds.has_other_in_place() && kept.carries() && kept.loses())
    }),
    ("a choice whose kinds are all gone", |it| {
        choice(it, |kept, kinds| kinds.moved.iter().all(Option::is_none) && kept.loses())
    }),
    ("a choice whose kinds were all exchanged, none of them gone", |it| {
        choice(it, |kept, kinds| {
            kinds.moved.iter().all(Option::is_some) && kinds.stayed().is_empty() && kept.loses()
        })
    }),
    ("format 1 to 2: a choice reordered, with same-kind replacements unset", |it| {
        between(it, [One, Two], |kept, kinds| kinds.is_reordered() && kept.carries())
    }),
    ("format 2 to 1: a choice reordered, with same-kind replacements lost", |it| {
        between(it, [Two, One], |kept, kinds| {
            kinds.is_reordered() && kept.carries() && kept.loses_same_kind()
        })
    }),
    ("format 2 to 2: a choice reordered, with same-kind replacements carried", |it| {
        between(it, [Two, Two], |kept, kinds| kinds.is_reordered() && kept.carries_same_kind())
    }),
    ("format 2 to 2: a choice of one kind, its replacement carried", |it| {
        between(it, [Two, Two], |kept, kinds| {
            kinds.moved.len() == 1 && kinds.now.len() == 1 && kept.carries_same_kind()
        })
    }),
    ("a choice of 16 kinds reordered", |it| {
        choice(it, |kept, kinds| kinds.now.len() == MOST_CHILDREN && kinds.is_reordered() && kept.carries())
    }),
    ("a choice of fewer kinds becomes one of 16", |it| {
        choice(it, |kept, kinds| {
            kinds.moved.len() < MOST_CHILDREN && kinds.now.len() == MOST_CHILDREN && kept.carries()
        })
    }),
    ("a choice of 16 kinds becomes one of fewer", |it| {
        choice(it, |kept, kinds| {
            kinds.moved.len() == MOST_CHILDREN && kinds.now.len() < MOST_CHILDREN && kept.carries()
        })
    }),
    ("two kinds of a choice take each other's number in their places", |it| {
        choice(it, |kept, _| takes_turns(it, kept))
    }),
];
