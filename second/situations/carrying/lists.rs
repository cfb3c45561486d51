// Situations by the list of new numbers: types gone, added and moved.

use super::super::moves::{Move, Situation};
use crate::table::{CHOICE, STAR, TEXT};

/// Whether a call is done from a table of more than one type, and of the new numbers that is known.
fn listed(it: &Move, known: impl Fn(&[Option<usize>]) -> bool) -> bool {
    it.is_done() && it.old_e() > 1 && known(&(0..it.old_e()).map(|t| it.number(t)).collect::<Vec<_>>())
}

fn gone(numbers: &[Option<usize>]) -> usize {
    numbers.iter().filter(|number| number.is_none()).count()
}

/// How many of the new types no old one has become.
fn added(it: &Move, numbers: &[Option<usize>]) -> usize {
    it.new_e() + gone(numbers) - numbers.len()
}

fn is_identity(numbers: &[Option<usize>]) -> bool {
    numbers.iter().enumerate().all(|(t, &number)| number == Some(t))
}

fn same_words(it: &Move) -> bool {
    it.case.old_words == it.case.new_words
}

/// Whether two types take each other's number.
fn exchanges(numbers: &[Option<usize>]) -> bool {
    let is_back = |t: usize, u: usize| u != t && numbers.get(u) == Some(&Some(t));
    numbers.iter().enumerate().any(|(t, number)| number.map_or(false, |u| is_back(t, u)))
}

/// The root of the new table.
fn new_root(it: &Move) -> Option<usize> {
    Some(it.case.new_words[3] as usize)
}

fn old_root(it: &Move) -> usize {
    it.case.old_words[3] as usize
}

pub const SITUATIONS: &[Situation] = &[
    ("the identity over one table, marks set", |it| {
        listed(it, is_identity) && same_words(it) && it.carries_any()
    }),
    ("the identity over two tables, marks carried and lost", |it| {
        listed(it, is_identity) && it.carries_any() && it.loses_any()
    }),
    ("a permutation, marks carried", |it| {
        listed(it, |to| gone(to) == 0 && added(it, to) == 0 && !is_identity(to)) && it.carries_any()
    }),
    ("all types gone, marks lost", |it| listed(it, |to| gone(to) == to.len()) && it.loses_any()),
    ("one type gone, marks carried", |it| listed(it, |to| gone(to) == 1) && it.carries_any()),
    ("several types gone, marks carried", |it| listed(it, |to| gone(to) > 1) && it.carries_any()),
    ("types gone, none added", |it| listed(it, |to| gone(to) > 0 && added(it, to) == 0)),
    ("one type added", |it| listed(it, |to| added(it, to) == 1)),
    ("several types added, none gone", |it| listed(it, |to| added(it, to) > 1 && gone(to) == 0)),
    ("types gone and as many added", |it| {
        listed(it, |to| gone(to) > 0 && gone(to) == added(it, to)) && it.carries_any()
    }),
    ("a type at a lower number, its marks carried", |it| {
        it.any_kept(|kept| kept.n < kept.t && kept.carries())
    }),
    ("a type at a higher number, its marks carried", |it| {
        it.any_kept(|kept| kept.n > kept.t && kept.carries())
    }),
    ("a type at a number not below the old E, its marks carried", |it| {
        it.any_kept(|kept| kept.n >= it.old_e() && kept.carries())
    }),
    ("two types take each other's number, marks carried", |it| listed(it, exchanges) && it.carries_any()),
    ("the first type gone", |it| listed(it, |to| to[0].is_none() && gone(to) < to.len()) && it.carries_any()),
    ("the last type gone", |it| {
        listed(it, |to| to[to.len() - 1].is_none() && gone(to) < to.len()) && it.carries_any()
    }),
    ("the root gone, marks carried", |it| listed(it, |to| to[old_root(it)].is_none()) && it.carries_any()),
    ("another type is the root, the old root kept", |it| {
        listed(it, |to| to[old_root(it)].is_some() && to[old_root(it)] != new_root(it))
    }),
    ("a text gone, its mark lost", |it| it.loses_type(TEXT, |_| true)),
    ("a star gone, its child kept", |it| it.loses_type(STAR, |of| it.number(of.children[0]).is_some())),
    ("a choice gone, its kinds kept", |it| {
        it.loses_type(CHOICE, |of| of.children.iter().all(|&child| it.number(child).is_some()))
    }),
];
