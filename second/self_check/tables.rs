// Named tables, small hierarchies, and small tables by chance against Warshall's rule.

use super::expect;
use super::literal::warshall;
use crate::answers::{answer, Answer};
use crate::conditions::verdict;
use crate::format::Format;
use crate::judge::{judge, MOST_BYTES};
use crate::making::chance::Random;
use crate::making::cycles::{unsound, uprooted};
use crate::making::schemas::{encode, schema, Schema};
use crate::stream::to_bytes;
use crate::table::{check, on_cycle, total, types_below, Table, Type, CHOICE, EMPTY, SEQUENCE, STAR, TEXT};

fn leaves_under_choice(format: Format, n: usize) -> Vec<u16> {
    let mut types = vec![Type { kind: CHOICE, children: (1..=n).collect() }];
    types.resize(n + 1, Type { kind: EMPTY, children: Vec::new() });
    encode(format, &types)
}

/// Number and place of a table.
fn told(words: &[u16]) -> (usize, usize) {
    let Answer { number, place, .. } = answer(check(words));
    (number, place)
}

pub fn self_named_tables() {
    self_named_tables_of_two();
    let lone = [1, 11, 1, 0, 8, 0, 11, 0, 0, 0, 0];
    expect(told(&lone) == (0, 0) && verdict(&lone, &[]) == Ok(Answer::default()), "a lone empty type");
    expect(judge(&to_bytes(&lone)) == "table 0 0\nverdict 0 0 0 0 0\ncomplete\nmended 0\n", "V 0");
    let unused = [1, 14, 2, 0, 8, 0, 14, 0, 0, 0, 0, 0, 0, 0];
    expect(told(&unused) == (8, 1), "an unused empty type");
    expect(told(&leaves_under_choice(Format::One, 1)) == (0, 0), "a choice of one child");
    expect(told(&leaves_under_choice(Format::One, 16)) == (0, 240), "16 children");
    expect(told(&leaves_under_choice(Format::One, 17)) == (4, 0), "17 children");
    let own = [1, 12, 1, 0, 8, 1, 11, 2, 4, 1, 0, 0];
    expect(told(&own) == (19, 0), "a star whose child is its own number");
    expect(judge(&[0; MOST_BYTES + 1]) == "table 2 0\n", "over 8,192 bytes");
    expect(judge(&[1]) == "table 1 0\n" && judge(&[]) == "table 1 0\n", "no word 1");
}

/// Choices of 16 kinds, each of the next 16 types, over 16 empty types, in format 2.
fn choices_of_16(count: usize) -> Vec<u16> {
    let choice = |t: usize| Type { kind: CHOICE, children: (t + 1..=t + 16).collect() };
    let mut types: Vec<Type> = (0..count).map(choice).collect();
    types.resize(count + 16, Type { kind: EMPTY, children: Vec::new() });
    encode(Format::Two, &types)
}

fn self_named_tables_of_two() {
    let lone = [2, 11, 1, 0, 8, 0, 11, 0, 0, 0, 0];
    expect(told(&lone) == (0, 0) && verdict(&lone, &[]) == Ok(Answer::default()), "a lone empty type");
    for word in [0, 3, 65535] {
        expect(told(&[&[word], &lone[1..]].concat()) == (1, 0), "word 0 is neither 1 nor 2");
    }
    expect(told(&lone[..7]) == (1, 0), "under 8 words");
    expect(told(&leaves_under_choice(Format::Two, 1)) == (0, 1), "a choice of one child");
    expect(told(&leaves_under_choice(Format::Two, 16)) == (0, 256), "16 children");
    expect(told(&leaves_under_choice(Format::Two, 17)) == (4, 0), "17 children");
    let star = [2, 15, 2, 0, 8, 1, 14, 3, 4, 1, 0, 0, 0, 1, 1];
    expect(told(&star) == (0, 3), "a star of an empty type");
    expect(told(&[&[1], &star[1..]].concat()) == (9, 0), "V of format 2 in format 1");
    expect(told(&choices_of_16(16)) == (0, 4096), "16 choices of 16");
    expect(told(&choices_of_16(17)) == (9, 0), "17 choices of 16");
}

/// Sequences of these children, and empty types where there is none.
fn sequences(format: Format, root: usize, children: &[&[usize]]) -> Schema {
    let kind = |count: usize| if count == 0 { EMPTY } else { SEQUENCE };
    let of = |list: &&[usize]| Type { kind: kind(list.len()), children: list.to_vec() };
    Schema { format, root, types: children.iter().map(of).collect() }
}

/// Small schemas: the root, the children of each type, number and place.
const HIERARCHIES: [(&str, usize, &[&[usize]], (usize, usize)); 23] = [
    ("a child before its parent", 1, &[&[], &[0]], (0, 0)),
    ("a root in the middle of the numbers", 1, &[&[], &[2, 0], &[]], (0, 0)),
    ("a chain backwards", 3, &[&[], &[0], &[1], &[2]], (0, 0)),
    ("a type below two others", 2, &[&[1], &[], &[3, 0], &[1]], (0, 0)),
    ("a root that is E", 2, &[&[1], &[]], (2, 0)),
    ("a root above E", 3, &[&[1], &[]], (2, 0)),
    ("a root above E, and a cycle", 1, &[&[0]], (2, 0)),
    ("a child that is E", 0, &[&[1, 2], &[]], (6, 0)),
    ("a child that is E, and a lower type on a cycle", 0, &[&[0, 1], &[2]], (6, 1)),
    ("the same child twice, and a lower type on a cycle", 0, &[&[0, 1], &[2, 2], &[]], (7, 1)),
    ("the root its own child", 1, &[&[], &[1, 0]], (19, 1)),
    ("a type below the root its own child", 0, &[&[1], &[1]], (19, 1)),
    ("a type its own child, not reached from the root", 0, &[&[], &[1]], (19, 1)),
    ("each other's child", 1, &[&[1], &[0]], (19, 0)),
    ("each other's child, not reached from the root", 0, &[&[], &[2], &[1]], (19, 1)),
    ("a lower type not reached from the root, and a cycle", 1, &[&[], &[2], &[1]], (19, 1)),
    ("a lower type below a cycle", 1, &[&[], &[2], &[0, 1]], (19, 1)),
    ("a lower type above a cycle and one below it", 1, &[&[], &[3], &[3, 0], &[2]], (19, 2)),
    ("two cycles", 3, &[&[], &[4], &[2], &[2, 1, 0], &[1]], (19, 1)),
    ("a root with a parent", 1, &[&[1], &[2], &[]], (8, 0)),
    ("the last of a chain as the root", 2, &[&[1], &[2], &[]], (8, 0)),
    ("somebody's child, not reached from the root", 2, &[&[], &[0], &[]], (8, 0)),
    ("two not reached from the root", 0, &[&[2], &[3, 2], &[], &[]], (8, 1)),
];

/// The small schemas, each also with a wrong V: 9 is told where nothing else is.
pub fn self_hierarchies(format: Format) {
    for (name, root, children, expected) in HIERARCHIES {
        let mut words = sequences(format, root, children).words();
        expect(told(&words) == expected, name);
        words[7] = 1;
        expect(told(&words) == if expected == (0, 0) { (9, 0) } else { expected }, name);
    }
}

/// Counts the privileges one by one, types in ascending order.
pub fn self_numbering(table: &Table) {
    let mut number = 0;
    for (t, it) in table.types.iter().enumerate() {
        let n = it.children.len();
        expect(table.first[t] == number, "first privilege of a type");
        let pairs = (0..n).flat_map(|i| (0..n).map(move |j| (i, j)));
        let pairs = pairs.filter(|(i, j)| i != j || table.format == Format::Two);
        for (i, j) in pairs.filter(|_| it.kind == CHOICE) {
            expect(table.replacement(t, i, j) == number, "number of a replacement");
            expect(table.is_same_kind(number) == (i == j), "a replacement by the same kind");
            number += 1;
        }
        let others: &[bool] = match (it.kind, table.format) {
            (TEXT, _) => &[false],
            (STAR, Format::One) => &[false, false],
            (STAR, Format::Two) => &[false, false, true],
            _ => &[],
        };
        for &is_exchange in others {
            expect(table.is_same_kind(number) == is_exchange, "an exchange");
            number += 1;
        }
    }
    expect(table.v() == number, "V");
}

/// Number and place of a table that passes 1 to 7 and 9, where `leads` tells which types lead to
/// which by going from types to their children.
fn told_by(leads: &[Vec<bool>], schema: &Schema) -> (usize, usize) {
    let e = leads.len();
    let on_cycle = (0..e).find(|&t| leads[t][t]);
    let unreached = (0..e).find(|&t| t != schema.root && !leads[schema.root][t]);
    match (on_cycle, unreached) {
        (Some(t), _) => (19, t),
        (None, Some(t)) => (8, t),
        (None, None) => (0, total(schema.format, &schema.types)),
    }
}

/// Gives the number of the table.
pub fn self_descent(schema: &Schema) -> usize {
    let types = &schema.types;
    let leads = warshall(types.len(), |parent, child| types[parent].children.contains(&child));
    for y in 0..types.len() {
        let below: Vec<bool> = (0..types.len()).map(|x| x == y || leads[y][x]).collect();
        expect(types_below(types, y) == below, "the types below a type");
        expect(on_cycle(types, y) == leads[y][y], "a type on a cycle");
    }
    let found = told(&schema.words());
    expect(found == told_by(&leads, schema), "the lowest on a cycle or not reached from the root");
    found.0
}

/// A small schema, often with cycles or with types that its root does not reach.
pub fn small_schema(r: &mut Random, format: Format) -> Schema {
    loop {
        let schema = schema(r, format);
        if schema.types.len() <= 12 {
            let schema = if r.one_in(2) { unsound(r, &schema) } else { schema };
            return if r.one_in(4) { uprooted(r, &schema) } else { schema };
        }
    }
}
