// Schemas with types on a cycle or not reached from the root.

use super::chance::Random;
use super::schemas::{chance_numbers, Schema};
use super::shapes::{dress, grow, kind_for, share, Lists};
use crate::format::Format;
use crate::table::{types_below, Type, MOST_TYPES};

/// Adds a cycle of n types, each with the next as a child and the last with the first. As a rule
/// one of the types before has one of them as a child.
fn add_cycle(r: &mut Random, lists: &mut Lists, n: usize) {
    let first = lists.len();
    lists.extend((0..n).map(|k| vec![first + (k + 1) % n]));
    if first > 0 && r.below(3) > 0 {
        let parent = r.below(first);
        lists[parent].push(first + r.below(n));
    }
}

/// A few types, then cycles with further types below them, those of a later cycle among them;
/// sometimes further children, so that cycles have types in common.
fn cyclic(r: &mut Random, format: Format) -> Schema {
    let mut lists = Lists::new();
    let above = 1 + r.below(4);
    grow(r, &mut lists, above, 2);
    for _ in 0..r.pick(&[1, 1, 1, 2, 3]) {
        let n = r.pick(&[1, 2, 3, 16]);
        add_cycle(r, &mut lists, n);
        let e = lists.len() + r.below(4);
        grow(r, &mut lists, e, n);
    }
    let tries = r.pick(&[0, 0, 8]);
    share(r, &mut lists, tries);
    Schema::of(format, dress(r, lists)).by_chance(r)
}

/// 256 types on one cycle, or all but so many before it.
pub fn long_cycle(r: &mut Random, format: Format, before: usize) -> Schema {
    let mut lists = Lists::new();
    grow(r, &mut lists, before, 1);
    add_cycle(r, &mut lists, MOST_TYPES - before);
    Schema::of(format, dress(r, lists)).by_chance(r)
}

/// Up to seven types with any of them as children.
fn tangled(r: &mut Random, format: Format) -> Schema {
    let e = 1 + r.below(7);
    let mut lists = Lists::new();
    for _ in 0..e {
        let mut children = chance_numbers(r, e);
        children.truncate(r.pick(&[0, 0, 1, 1, 2, 3]));
        lists.push(children);
    }
    Schema::of(format, dress(r, lists))
}

/// One more child: of a type, one that it is below. What is between them is on a cycle.
pub fn closed(r: &mut Random, schema: &Schema) -> Schema {
    let mut types = schema.types.clone();
    let child = r.below(types.len());
    let below = types_below(&types, child);
    let parents: Vec<usize> = (0..types.len()).filter(|&t| below[t]).collect();
    let parent = r.pick(&parents);
    let mut children = types[parent].children.clone();
    children.insert(r.below(children.len() + 1), child);
    types[parent] = Type { kind: kind_for(r, children.len()), children };
    Schema { types, ..*schema }
}

/// The same types with any of them as the root.
pub fn uprooted(r: &mut Random, schema: &Schema) -> Schema {
    Schema { root: r.below(schema.types.len()), types: schema.types.clone(), ..*schema }
}

/// One to three further types that the root does not reach: some are nobody's child, some are
/// children of such a one, and some have children that the root reaches.
fn with_orphans(r: &mut Random, schema: &Schema) -> Schema {
    let mut types = schema.types.clone();
    for _ in 0..1 + r.below(3) {
        let child = r.below(types.len());
        let children = if r.one_in(3) { Vec::new() } else { vec![child] };
        types.push(Type { kind: kind_for(r, children.len()), children });
    }
    Schema { types, ..*schema }.by_chance(r)
}

/// A table with a type on a cycle or one that the root does not reach.
pub fn unsound(r: &mut Random, schema: &Schema) -> Schema {
    let few = 1 + r.below(2);
    match r.below(64) {
        0 => long_cycle(r, schema.format, few),
        1..=23 => cyclic(r, schema.format),
        24..=31 => closed(r, schema),
        32..=42 => tangled(r, schema.format),
        43..=53 => uprooted(r, schema),
        _ => with_orphans(r, schema),
    }
}
