// Situations by a type's rule: each kind become each other one, and two types that exchange their rules.

use super::super::moves::{Kept, Move, Situation};
use crate::table::{Type, CHOICE, EMPTY, SEQUENCE, STAR, TEXT};

/// Whether a type of the first kind has become one of the second; where it can have marks, one was set.
fn becomes(it: &Move, was: u16, is: u16) -> bool {
    let has_edits = [TEXT, STAR, CHOICE].contains(&was);
    it.any_kept(|kept| kept.becomes(was, is) && (kept.is_set() || !has_edits))
}

/// Whether a type has the rule that another one had.
fn has_rule_of(one: &Kept, other: &Kept) -> bool {
    let Type { kind, children } = one.is();
    *kind == other.was().kind && children.iter().map(|&child| Some(child)).eq(other.moved())
}

/// Whether two types of these kinds have exchanged their rules, which differ, and a mark of theirs was set.
fn exchanged(it: &Move, kinds: [u16; 2]) -> bool {
    let differ =
        |one: &Kept, other: &Kept| one.was().kind != other.was().kind || one.moved() != other.moved();
    let are_these = |one: &Kept, other: &Kept| {
        let own = [one.was().kind, other.was().kind];
        own == kinds || own == [kinds[1], kinds[0]]
    };
    it.two_kept(|one, other| {
        are_these(one, other)
            && differ(one, other)
            && has_rule_of(one, other)
            && has_rule_of(other, one)
            && (one.is_set() || other.is_set())
    })
}

pub const SITUATIONS: &[Situation] = &[
    ("an empty type becomes a text", |it| becomes(it, EMPTY, TEXT)),
    ("an empty type becomes a sequence", |it| becomes(it, EMPTY, SEQUENCE)),
    ("an empty type becomes a choice", |it| becomes(it, EMPTY, CHOICE)),
    ("an empty type becomes a star", |it| becomes(it, EMPTY, STAR)),
    ("a text becomes empty", |it| becomes(it, TEXT, EMPTY)),
    ("a text becomes a sequence", |it| becomes(it, TEXT, SEQUENCE)),
    ("a text becomes a choice", |it| becomes(it, TEXT, CHOICE)),
    ("a text becomes a star", |it| becomes(it, TEXT, STAR)),
    ("a sequence becomes empty", |it| becomes(it, SEQUENCE, EMPTY)),
    ("a sequence becomes a text", |it| becomes(it, SEQUENCE, TEXT)),
    ("a sequence becomes a choice", |it| becomes(it, SEQUENCE, CHOICE)),
    ("a sequence becomes a star", |it| becomes(it, SEQUENCE, STAR)),
    ("a choice becomes empty", |it| becomes(it, CHOICE, EMPTY)),
    ("a choice becomes a text", |it| becomes(it, CHOICE, TEXT)),
    ("a choice becomes a sequence", |it| becomes(it, CHOICE, SEQUENCE)),
    ("a choice becomes a star", |it| becomes(it, CHOICE, STAR)),
    ("a star becomes empty", |it| becomes(it, STAR, EMPTY)),
    ("a star becomes a text", |it| becomes(it, STAR, TEXT)),
    ("a star becomes a sequence", |it| becomes(it, STAR, SEQUENCE)),
    ("a star becomes a choice", |it| becomes(it, STAR, CHOICE)),
    ("a text and an empty type exchange their rules", |it| exchanged(it, [TEXT, EMPTY])),
    ("a star and a text exchange their rules", |it| exchanged(it, [STAR, TEXT])),
    ("a choice and a text exchange their rules", |it| exchanged(it, [CHOICE, TEXT])),
    ("a star and a choice exchange their rules", |it| exchanged(it, [STAR, CHOICE])),
    ("two stars exchange their children", |it| exchanged(it, [STAR, STAR])),
    ("two choices exchange their kinds", |it| exchanged(it, [CHOICE, CHOICE])),
];
