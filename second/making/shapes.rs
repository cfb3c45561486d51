// Shapes: types whose root is type 0, each child with a greater number than its parent.

use super::chance::Random;
use crate::format::Format;
use crate::table::{
    total, Type, CHOICE, EMPTY, MOST_CHILDREN, MOST_ENTRIES, MOST_PRIVILEGES, MOST_TYPES, SEQUENCE, STAR,
    TEXT,
};
use std::ops::Range;

pub type Lists = Vec<Vec<usize>>;

/// Adds types up to e, each a child of one of the last `near` types that has room.
pub fn grow(r: &mut Random, lists: &mut Lists, e: usize, near: usize) {
    while lists.len() < e {
        let t = lists.len();
        lists.push(Vec::new());
        if t > 0 {
            let parent = t - 1 - r.below(near.min(t));
            let parent = if lists[parent].len() < MOST_CHILDREN { parent } else { t - 1 };
            lists[parent].push(t);
        }
    }
}

/// Makes types shared: tries to add further children, early types first.
pub fn share(r: &mut Random, lists: &mut Lists, tries: usize) {
    let e = lists.len();
    let mut entries: usize = lists.iter().map(Vec::len).sum();
    for _ in 0..tries {
        let parent = r.below(e);
        let parent = r.below(parent + 1);
        let child = parent + r.below(e - parent);
        let room = lists[parent].len() < MOST_CHILDREN && entries < MOST_ENTRIES;
        if room && child > parent && !lists[parent].contains(&child) {
            lists[parent].push(child);
            entries += 1;
        }
    }
}

/// Gives a type that has no child so many new ones, which have none themselves.
fn add_leaves(lists: &mut Lists, parent: usize, count: usize) {
    let first = lists.len();
    lists[parent] = (first..first + count).collect();
    lists.resize(first + count, Vec::new());
}

/// n types, each with the next `width` types as its children.
pub fn ladder(n: usize, width: usize) -> Lists {
    let children = |t: usize| if t < n { (t + 1..t + 1 + width).collect() } else { Vec::new() };
    (0..n + width).map(children).collect()
}

pub fn kind_for(r: &mut Random, count: usize) -> u16 {
    match count {
        0 => r.pick(&[TEXT, TEXT, EMPTY]),
        1 => r.pick(&[STAR, STAR, STAR, SEQUENCE, CHOICE]),
        _ => r.pick(&[CHOICE, CHOICE, SEQUENCE]),
    }
}

/// Types with these children in any order, of kinds that fit.
pub fn dress(r: &mut Random, lists: Lists) -> Vec<Type> {
    let mut types = Vec::new();
    for mut children in lists {
        r.shuffle(&mut children);
        types.push(Type { kind: kind_for(r, children.len()), children });
    }
    types
}

/// The same, with this kind for some of the types.
pub fn dress_as(r: &mut Random, lists: Lists, which: Range<usize>, kind: u16) -> Vec<Type> {
    let mut types = dress(r, lists);
    types[which].iter_mut().for_each(|it| it.kind = kind);
    types
}

/// Turns choices into sequences until at most `most` privileges are left, or no choice is.
fn fit(r: &mut Random, format: Format, types: &mut [Type], most: usize) {
    let mut order: Vec<usize> = (0..types.len()).collect();
    r.shuffle(&mut order);
    for t in order {
        if types[t].kind == CHOICE && total(format, types) > most {
            types[t].kind = SEQUENCE;
        }
    }
}

/// Turns empty types into text until `most` privileges are there or none is left.
pub fn fill(format: Format, types: &mut [Type], most: usize) {
    for t in 0..types.len() {
        if types[t].kind == EMPTY && total(format, types) < most {
            types[t].kind = TEXT;
        }
    }
}

fn size(r: &mut Random) -> usize {
    match r.below(128) {
        0 => (60 + r.below(260)).min(MOST_TYPES),
        1..=4 => 20 + r.below(40),
        5..=40 => 6 + r.below(14),
        _ => 2 + r.below(7),
    }
}

fn star_of_stars(r: &mut Random) -> Vec<Type> {
    let mut lists = Lists::new();
    let stars = size(r).min(MOST_TYPES - 3);
    grow(r, &mut lists, stars, 1);
    let leaves = r.pick(&[1, 2, 3]);
    add_leaves(&mut lists, stars - 1, leaves);
    dress_as(r, lists, 0..stars - 1, STAR)
}

pub fn grown_to(r: &mut Random, e: usize, near: usize, shared: usize) -> Vec<Type> {
    let mut lists = Lists::new();
    grow(r, &mut lists, e, near);
    share(r, &mut lists, shared * e);
    dress(r, lists)
}

fn grown(r: &mut Random, near: usize, shared: usize) -> Vec<Type> {
    let e = size(r);
    grown_to(r, e, near, shared)
}

/// A choice of 1, 2, 3, 15 or 16 children under a type with one child.
fn wide(r: &mut Random) -> Vec<Type> {
    let n = r.pick(&[1, 2, 2, 3, 3, 3, 3, 3, 3, 15, 16]);
    wide_of(r, n)
}

/// A choice of n children under a type with one child, and up to five further types.
pub fn wide_of(r: &mut Random, n: usize) -> Vec<Type> {
    let e = n + 2 + r.below(6);
    let mut lists = vec![vec![1], Vec::new()];
    add_leaves(&mut lists, 1, n);
    grow(r, &mut lists, e, n);
    dress_as(r, lists, 1..2, CHOICE)
}

fn rungs(r: &mut Random) -> Vec<Type> {
    let (n, width) = (1 + r.below(4), 2 + r.below(3));
    dress(r, ladder(n, width))
}

/// Many types, a full child list, as many privileges as are wanted or nearly.
pub fn large(r: &mut Random, format: Format, most: usize) -> Vec<Type> {
    let e = r.pick(&[200, MOST_TYPES, MOST_TYPES]);
    let mut types = grown_to(r, e, e, 40);
    fit(r, format, &mut types, most);
    fill(format, &mut types, most);
    types
}

/// Choices of 16, one below the other, over 16 leaves.
pub fn full_ladder(r: &mut Random, format: Format) -> Vec<Type> {
    match format {
        Format::One => full_ladder_one(r),
        Format::Two => full_ladder_two(r),
    }
}

/// Seventeen choices: V from 4,080 to 4,096.
fn full_ladder_one(r: &mut Random) -> Vec<Type> {
    let mut types = dress_as(r, ladder(17, MOST_CHILDREN), 0..17, CHOICE);
    let most = MOST_PRIVILEGES - r.below(3);
    fill(Format::One, &mut types, most);
    types
}

/// Sixteen choices over empty leaves: V is 4,096.
fn full_ladder_two(r: &mut Random) -> Vec<Type> {
    let mut types = dress_as(r, ladder(16, MOST_CHILDREN), 0..16, CHOICE);
    types[16..].iter_mut().for_each(|it| it.kind = EMPTY);
    types
}

/// 256 types, each but the last with the next one as its only child; few of them are stars.
pub fn long_chain(r: &mut Random) -> Vec<Type> {
    let mut types = grown_to(r, MOST_TYPES, 1, 0);
    for it in types.iter_mut().filter(|it| it.kind == STAR) {
        it.kind = if r.one_in(8) { STAR } else { SEQUENCE };
    }
    types
}

pub fn shape(r: &mut Random, format: Format) -> Vec<Type> {
    if r.one_in(600) {
        let most = r.pick(&[MOST_PRIVILEGES, MOST_PRIVILEGES, MOST_PRIVILEGES - 1, 2500]);
        return large(r, format, most);
    }
    if r.one_in(1200) {
        return full_ladder(r, format);
    }
    usual_shape(r, format)
}

pub fn usual_shape(r: &mut Random, format: Format) -> Vec<Type> {
    let mut types = match r.below(16) {
        0 => dress(r, vec![Vec::new()]),
        1 | 2 => star_of_stars(r),
        3 => grown(r, 1, 0),
        4 | 5 => rungs(r),
        6 | 7 => wide(r),
        8..=10 => grown(r, 3, 2),
        11..=13 => grown(r, 2, 1),
        _ => grown(r, MOST_TYPES, 1),
    };
    fit(r, format, &mut types, 300);
    types
}
