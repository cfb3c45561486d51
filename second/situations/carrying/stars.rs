// Situations of a star: kept, with another child, and become a choice or made of one.

use super::super::moves::{Kept, Move, Situation};
use crate::format::Format::{self, One, Two};
use crate::table::{CHOICE, STAR};

/// Whether that is known of a star that is one still, and of whether its child is the same.
fn star(it: &Move, known: impl Fn(&Kept, bool) -> bool) -> bool {
    let has_same = |kept: &Kept| kept.moved()[0] == Some(kept.is().children[0]);
    it.any_kept(|kept| kept.becomes(STAR, STAR) && known(kept, has_same(kept)))
}

/// Whether between these formats that is known of a star that kept its child.
fn same(it: &Move, formats: [Format; 2], known: impl Fn(&Kept) -> bool) -> bool {
    it.is_done_from(formats) && star(it, |kept, has_same| has_same && known(kept))
}

/// The marks of two edits of a star by their places: both carried, and they differ.
fn carries_both(it: &Move, kept: &Kept, [one, other]: [usize; 2]) -> bool {
    let marks = &it.case.old_marks[kept.privileges()];
    kept.privileges().skip(one).take(other + 1 - one).all(|privilege| it.carries(privilege))
        && marks[one] != marks[other]
}

/// Whether between these formats a star has become a choice, of whether its child is one of the kinds that is known.
fn star_to_choice(it: &Move, formats: [Format; 2], known: impl Fn(&Kept, bool) -> bool) -> bool {
    let holds = |kept: &Kept| kept.moved()[0].map_or(false, |child| kept.is().children.contains(&child));
    it.is_done_from(formats) && it.any_kept(|kept| kept.becomes(STAR, CHOICE) && known(kept, holds(kept)))
}

/// The same of a choice that has become a star.
fn choice_to_star(it: &Move, formats: [Format; 2], known: impl Fn(&Kept, bool) -> bool) -> bool {
    let held = |kept: &Kept| kept.moved().contains(&Some(kept.is().children[0]));
    it.is_done_from(formats) && it.any_kept(|kept| kept.becomes(CHOICE, STAR) && known(kept, held(kept)))
}

pub const SITUATIONS: &[Situation] = &[
    ("format 1 to 1: a star kept, marks carried", |it| same(it, [One, One], |kept| kept.carries())),
    ("format 1 to 2: a star kept, marks carried, its replacement unset", |it| {
        same(it, [One, Two], |kept| kept.carries() && kept.has_fresh_same_kind())
    }),
    ("format 2 to 1: a star kept, marks carried, its replacement lost", |it| {
        same(it, [Two, One], |kept| kept.carries() && kept.loses_same_kind())
    }),
    ("format 2 to 2: a star kept, its replacement carried", |it| {
        same(it, [Two, Two], |kept| kept.carries_same_kind())
    }),
    ("format 2 to 2: a star kept, other marks to delete and to replace", |it| {
        same(it, [Two, Two], |kept| carries_both(it, kept, [1, 2]))
    }),
    ("a star kept, other marks to insert and to delete", |it| {
        star(it, |kept, has_same| has_same && carries_both(it, kept, [0, 1]))
    }),
    ("a star kept, its child at another number", |it| {
        star(it, |kept, has_same| has_same && kept.carries() && kept.was().children != kept.is().children)
    }),
    ("a star whose child was exchanged for one added", |it| {
        let is_added = |kept: &Kept| (0..it.old_e()).all(|t| it.number(t) != Some(kept.is().children[0]));
        star(it, |kept, has_same| !has_same && kept.loses() && is_added(kept))
    }),
    ("a star whose child was exchanged for another old type, both kept", |it| {
        let is_old = |kept: &Kept| (0..it.old_e()).any(|t| it.number(t) == Some(kept.is().children[0]));
        star(it, |kept, has_same| !has_same && kept.loses() && kept.moved()[0].is_some() && is_old(kept))
    }),
    ("a star whose child is gone", |it| star(it, |kept, _| kept.loses() && kept.moved()[0].is_none())),
    ("a star whose child is another at the same number", |it| {
        star(it, |kept, has_same| !has_same && kept.loses() && kept.was().children == kept.is().children)
    }),
    ("format 1 to 1: a star becomes a choice with its child", |it| {
        star_to_choice(it, [One, One], |kept, holds| holds && kept.loses())
    }),
    ("format 1 to 2: a star becomes a choice with its child, its replacement unset", |it| {
        star_to_choice(it, [One, Two], |kept, holds| holds && kept.loses() && kept.has_fresh_same_kind())
    }),
    ("format 2 to 1: a star becomes a choice with its child, its replacement lost", |it| {
        star_to_choice(it, [Two, One], |kept, holds| holds && kept.loses_same_kind())
    }),
    ("format 2 to 2: a star becomes a choice with its child, its replacement carried", |it| {
        star_to_choice(it, [Two, Two], |kept, holds| holds && kept.carries_same_kind())
    }),
    ("format 2 to 2: a star becomes a choice with its child not first, its replacement carried", |it| {
        star_to_choice(it, [Two, Two], |kept, _| {
            kept.carries_same_kind() && kept.moved()[0] != Some(kept.is().children[0])
        })
    }),
    ("format 2 to 2: a star becomes a choice without its child", |it| {
        star_to_choice(it, [Two, Two], |kept, holds| !holds && kept.loses_same_kind())
    }),
    ("format 1 to 1: a choice becomes a star of one of its kinds", |it| {
        choice_to_star(it, [One, One], |kept, held| held && kept.loses())
    }),
    ("format 1 to 2: a choice becomes a star of one of its kinds, its replacement unset", |it| {
        choice_to_star(it, [One, Two], |kept, held| held && kept.loses() && kept.has_fresh_same_kind())
    }),
    ("format 2 to 1: a choice becomes a star of one of its kinds, its replacement lost", |it| {
        choice_to_star(it, [Two, One], |kept, held| held && kept.loses_same_kind())
    }),
    ("format 2 to 2: a choice becomes a star of one of its kinds, its replacement carried", |it| {
        choice_to_star(it, [Two, Two], |kept, held| held && kept.carries_same_kind())
    }),
    ("format 2 to 2: a choice becomes a star of one of its later kinds, its replacement carried", |it| {
        choice_to_star(it, [Two, Two], |kept, _| {
            kept.carries_same_kind() && kept.moved()[0] != Some(kept.is().children[0])
        })
    }),
    ("format 2 to 2: a choice becomes a star of another kind", |it| {
        choice_to_star(it, [Two, Two], |kept, held| !held && kept.loses_same_kind())
    }),
];
