// Revisions of a schema. Each changes types in place and adds types at the end; a type that the root no longer reaches is gone.

use super::super::chance::Random;
use super::super::schemas::{chance_numbers, Schema};
use super::rules::{
    add_leaf, change_rule, choice_to_star, exchange_child, exchange_rules, gain_kinds, leaf, lose_kinds,
    renew_kinds, reorder, replace_kind, rework, star_to_choice,
};
use crate::carrying::GONE;
use crate::format::Format;
use crate::table::{types_below, Type, CHOICE, EMPTY, SEQUENCE, STAR};

type Revision = fn(&mut Random, &mut Schema);

/// A type is nobody's child any more: a star of it gets a new child or becomes a leaf, and so does what is left without a child.
fn remove(r: &mut Random, schema: &mut Schema) {
    let t = r.below(schema.types.len());
    let is_parent = |it: &Type| it.children.contains(&t);
    let parents: Vec<usize> = (0..schema.types.len()).filter(|&p| is_parent(&schema.types[p])).collect();
    for parent in parents {
        schema.types[parent].children.retain(|&child| child != t);
        let is_star = schema.types[parent].kind == STAR;
        if is_star && r.one_in(2) {
            schema.types[parent].children = vec![add_leaf(r, schema)];
        }
        if schema.types[parent].children.is_empty() {
            schema.types[parent] = leaf(r);
        }
    }
}

/// A new type above the root.
fn wrap(r: &mut Random, schema: &mut Schema) {
    let kind = r.pick(&[STAR, CHOICE, SEQUENCE]);
    schema.types.push(Type { kind, children: vec![schema.root] });
    schema.root = schema.types.len() - 1;
}

/// A child of the root is the root.
fn unwrap(r: &mut Random, schema: &mut Schema) {
    let children = &schema.types[schema.root].children;
    if !children.is_empty() {
        schema.root = r.pick(children);
    }
}

const REVISIONS: [Revision; 20] = [
    lose_kinds,
    gain_kinds,
    reorder,
    reorder,
    rework,
    rework,
    replace_kind,
    renew_kinds,
    exchange_child,
    star_to_choice,
    choice_to_star,
    change_rule,
    change_rule,
    exchange_rules,
    exchange_rules,
    exchange_rules,
    exchange_rules,
    remove,
    wrap,
    unwrap,
];

/// The schema without the types that its root does not reach, and the new number of each type: in the same order, backwards, or by chance.
fn numbered(r: &mut Random, schema: &Schema) -> (Schema, Vec<u16>) {
    let reached = types_below(&schema.types, schema.root);
    let kept: Vec<usize> = (0..schema.types.len()).filter(|&t| reached[t]).collect();
    let order: Vec<usize> = match r.below(4) {
        0 | 1 => (0..kept.len()).collect(),
        2 => (0..kept.len()).rev().collect(),
        _ => chance_numbers(r, kept.len()),
    };
    let mut numbers = vec![GONE; schema.types.len()];
    kept.iter().zip(order).for_each(|(&t, number)| numbers[t] = number as u16);
    let mut types = vec![Type { kind: EMPTY, children: Vec::new() }; kept.len()];
    for t in kept {
        let children = schema.types[t].children.iter().map(|&child| numbers[child] as usize).collect();
        types[numbers[t] as usize] = Type { kind: schema.types[t].kind, children };
    }
    let root = numbers[schema.root] as usize;
    (Schema { format: schema.format, root, types }, numbers)
}

/// So many revisions of a schema, in this format, and the new number of each old type.
pub fn revised(r: &mut Random, old: &Schema, format: Format, count: usize) -> (Schema, Vec<u16>) {
    let mut schema = Schema { format, root: old.root, types: old.types.clone() };
    for _ in 0..count {
        let revision = r.pick(&REVISIONS);
        revision(r, &mut schema);
    }
    let (new, mut numbers) = numbered(r, &schema);
    numbers.truncate(old.types.len());
    (new, numbers)
}
