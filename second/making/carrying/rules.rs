// Revisions of a type's rule: its kinds, its child, or another rule. New types are added at the end.

use super::super::chance::Random;
use super::super::schemas::Schema;
use crate::table::{on_cycle, types_below, Type, CHOICE, EMPTY, MOST_CHILDREN, SEQUENCE, STAR, TEXT};

pub fn leaf(r: &mut Random) -> Type {
    Type { kind: r.pick(&[TEXT, TEXT, EMPTY]), children: Vec::new() }
}

/// A new type: a leaf, or a star or a choice of new leaves.
fn add_type(r: &mut Random, schema: &mut Schema) -> usize {
    let count = r.pick(&[0, 0, 0, 0, 1, 2, 3]);
    let children: Vec<usize> = (0..count).map(|_| add_leaf(r, schema)).collect();
    let kind = match count {
        0 => return add_leaf(r, schema),
        1 => STAR,
        _ => CHOICE,
    };
    schema.types.push(Type { kind, children });
    schema.types.len() - 1
}

pub fn add_leaf(r: &mut Random, schema: &mut Schema) -> usize {
    schema.types.push(leaf(r));
    schema.types.len() - 1
}

/// A type of one of these kinds that the root reaches.
fn any_of(r: &mut Random, schema: &Schema, kinds: &[u16]) -> Option<usize> {
    let reached = types_below(&schema.types, schema.root);
    let fits = |&t: &usize| reached[t] && kinds.contains(&schema.types[t].kind);
    let own: Vec<usize> = (0..schema.types.len()).filter(fits).collect();
    Some(&own).filter(|own| !own.is_empty()).map(|own| r.pick(own))
}

/// A type that can be one more child of this one: an old one, if there is one that makes no cycle, or a new one.
fn new_child(r: &mut Random, schema: &mut Schema, parent: usize) -> usize {
    let types = &schema.types;
    let fits = |&t: &usize| !types[parent].children.contains(&t) && !types_below(types, t)[parent];
    let old: Vec<usize> = (0..types.len()).filter(fits).collect();
    if old.is_empty() || r.one_in(2) {
        return add_type(r, schema);
    }
    r.pick(&old)
}

fn gain(r: &mut Random, schema: &mut Schema, t: usize) {
    if schema.types[t].children.len() < MOST_CHILDREN {
        let child = new_child(r, schema, t);
        let place = r.below(schema.types[t].children.len() + 1);
        schema.types[t].children.insert(place, child);
    }
}

fn lose(r: &mut Random, schema: &mut Schema, t: usize) {
    let children = &mut schema.types[t].children;
    if children.len() > 1 {
        children.remove(r.below(children.len()));
    }
}

pub fn lose_kinds(r: &mut Random, schema: &mut Schema) {
    if let Some(t) = any_of(r, schema, &[CHOICE, SEQUENCE]) {
        (0..r.pick(&[1, 1, 2, 15])).for_each(|_| lose(r, schema, t));
    }
}

pub fn gain_kinds(r: &mut Random, schema: &mut Schema) {
    if let Some(t) = any_of(r, schema, &[CHOICE, SEQUENCE]) {
        (0..r.pick(&[1, 1, 2, 15])).for_each(|_| gain(r, schema, t));
    }
}

pub fn reorder(r: &mut Random, schema: &mut Schema) {
    if let Some(t) = any_of(r, schema, &[CHOICE]) {
        r.shuffle(&mut schema.types[t].children);
    }
}

/// Kinds lost, gained and reordered at once, each or not.
pub fn rework(r: &mut Random, schema: &mut Schema) {
    if let Some(t) = any_of(r, schema, &[CHOICE]) {
        (0..r.below(3)).for_each(|_| lose(r, schema, t));
        (0..r.below(3)).for_each(|_| gain(r, schema, t));
        r.shuffle(&mut schema.types[t].children);
    }
}

/// Another kind in the place of one.
pub fn replace_kind(r: &mut Random, schema: &mut Schema) {
    if let Some(t) = any_of(r, schema, &[CHOICE]) {
        let place = r.below(schema.types[t].children.len());
        schema.types[t].children[place] = new_child(r, schema, t);
    }
}

/// New types in the place of all kinds.
pub fn renew_kinds(r: &mut Random, schema: &mut Schema) {
    if let Some(t) = any_of(r, schema, &[CHOICE]) {
        let count = 1 + r.below(4);
        schema.types[t].children = (0..count).map(|_| add_type(r, schema)).collect();
    }
}

pub fn exchange_child(r: &mut Random, schema: &mut Schema) {
    if let Some(t) = any_of(r, schema, &[STAR]) {
        schema.types[t].children = vec![new_child(r, schema, t)];
    }
}

/// A star becomes a choice, as a rule with its child.
pub fn star_to_choice(r: &mut Random, schema: &mut Schema) {
    if let Some(t) = any_of(r, schema, &[STAR]) {
        schema.types[t].kind = CHOICE;
        (0..r.below(4)).for_each(|_| gain(r, schema, t));
        if r.one_in(6) {
            lose(r, schema, t);
        }
    }
}

/// A choice becomes a star, as a rule of one of its kinds.
pub fn choice_to_star(r: &mut Random, schema: &mut Schema) {
    if let Some(t) = any_of(r, schema, &[CHOICE]) {
        let own = r.pick(&schema.types[t].children);
        let child = if r.one_in(6) { new_child(r, schema, t) } else { own };
        schema.types[t] = Type { kind: STAR, children: vec![child] };
    }
}

/// A type gets another kind, with as many of its children and new ones as that has.
pub fn change_rule(r: &mut Random, schema: &mut Schema) {
    let t = any_of(r, schema, &[EMPTY, TEXT, SEQUENCE, CHOICE, STAR]).expect("the root");
    let kind = r.pick(&[EMPTY, TEXT, SEQUENCE, CHOICE, STAR]);
    let count = match kind {
        EMPTY | TEXT => 0,
        STAR => 1,
        _ => schema.types[t].children.len().max(1 + r.below(3)),
    };
    schema.types[t].kind = kind;
    while schema.types[t].children.len() > count {
        let place = r.below(schema.types[t].children.len());
        schema.types[t].children.remove(place);
    }
    while schema.types[t].children.len() < count {
        gain(r, schema, t);
    }
}

/// Which kinds of types exchange their rules; two choices are tried more often, since there are seldom two.
const EXCHANGES: [[u16; 2]; 8] = [
    [TEXT, EMPTY],
    [STAR, TEXT],
    [CHOICE, TEXT],
    [STAR, CHOICE],
    [STAR, STAR],
    [CHOICE, CHOICE],
    [CHOICE, CHOICE],
    [CHOICE, CHOICE],
];

/// Two types exchange their rules, unless a cycle comes of it.
pub fn exchange_rules(r: &mut Random, schema: &mut Schema) {
    let mut exchanges = EXCHANGES;
    r.shuffle(&mut exchanges);
    for [one, other] in exchanges {
        if let (Some(one), Some(other)) = (any_of(r, schema, &[one]), any_of(r, schema, &[other])) {
            schema.types.swap(one, other);
            if one != other && !(0..schema.types.len()).any(|t| on_cycle(&schema.types, t)) {
                return;
            }
            schema.types.swap(one, other);
        }
    }
}
