// How many are forbidden below, worked out by hand: types that two paths lead to, many privileges, what is not counted.

use super::every::{schema, Shape};
use super::policies::self_refusals;
use super::{by_hand, expect, ByHand, CLEAN};
use crate::answers::Answer;
use crate::conditions::verdict;
use crate::forbidden_below::{forbidden_below, ForbiddenBelow};
use crate::format::Format;
use crate::making::schemas::Schema;
use crate::mending::judge_mend;
use crate::table::{check_table, Type, CHOICE, EMPTY, FORBIDDEN, SEQUENCE, STAR, TEXT};

/// A name, the format, the types, the marks, and the breach.
pub type Known = (&'static str, Format, Shape, &'static [u8], ByHand);

/// A star of an element with two texts.
const TWO_TEXTS: Shape = &[(STAR, &[1]), (SEQUENCE, &[2, 3]), (TEXT, &[]), (TEXT, &[])];

/// A star and a choice above a text to which two paths lead.
const SHARED_AT_STAR: Shape =
    &[(STAR, &[1]), (SEQUENCE, &[2, 3]), (SEQUENCE, &[4]), (SEQUENCE, &[4]), (TEXT, &[])];
const SHARED_AT_CHOICE: Shape =
    &[(CHOICE, &[1, 2]), (SEQUENCE, &[3, 4]), (EMPTY, &[]), (SEQUENCE, &[5]), (SEQUENCE, &[5]), (TEXT, &[])];

/// A choice of two elements, of three texts and of two, of which they share one.
const TEXTS_AT_CHOICE: Shape = &[
    (CHOICE, &[1, 2]),
    (SEQUENCE, &[3, 4, 5]),
    (SEQUENCE, &[5, 6]),
    (TEXT, &[]),
    (TEXT, &[]),
    (TEXT, &[]),
    (TEXT, &[]),
];

const KNOWN: [Known; 14] = [
    ("nothing forbidden", Format::One, TWO_TEXTS, &[1, 1, 0, 1], CLEAN),
    ("one of two texts", Format::One, TWO_TEXTS, &[1, 1, 0, 2], ([1, 0, 0, 0, 3, 1], &[])),
    ("both texts", Format::One, TWO_TEXTS, &[1, 1, 2, 2], ([1, 0, 0, 0, 2, 2], &[])),
    ("insert, delete and both texts", Format::Two, TWO_TEXTS, &[1, 1, 0, 2, 2], ([1, 0, 0, 0, 3, 2], &[])),
    (
        "the exchange alone and both texts",
        Format::Two,
        TWO_TEXTS,
        &[2, 2, 1, 2, 2],
        ([1, 0, 0, 0, 3, 2], &[]),
    ),
    (
        "the exchange forbidden, and both texts",
        Format::Two,
        TWO_TEXTS,
        &[1, 1, 2, 2, 2],
        ([1, 0, 0, 0, 2, 1], &[]),
    ),
    ("a star above a shared text", Format::One, SHARED_AT_STAR, &[1, 1, 2], ([1, 0, 0, 0, 2, 1], &[])),
    (
        "a choice above a shared text",
        Format::One,
        SHARED_AT_CHOICE,
        &[1, 1, 2],
        ([3, 0, 0, 0, 2, 1], &[0, 1, 0]),
    ),
    (
        "the first kind's texts",
        Format::One,
        TEXTS_AT_CHOICE,
        &[1, 1, 0, 2, 2, 2],
        ([3, 0, 0, 0, 3, 2], &[0, 1, 0]),
    ),
    (
        "the second kind's texts",
        Format::Two,
        TEXTS_AT_CHOICE,
        &[0, 0, 0, 1, 0, 0, 2, 2],
        ([3, 0, 1, 1, 6, 2], &[1, 1]),
    ),
    (
        "the same kind forbidden",
        Format::Two,
        TEXTS_AT_CHOICE,
        &[2, 1, 1, 0, 2, 2, 2, 2],
        ([2, 0, 0, 0, 0, 1], &[0, 1, 0]),
    ),
    (
        "a chain, with more forbidden",
        Format::One,
        &[(CHOICE, &[1, 2, 3]), (TEXT, &[]), (TEXT, &[]), (TEXT, &[])],
        &[1, 2, 0, 1, 2, 0, 2, 2, 2],
        ([2, 0, 0, 2, 1, 1], &[0, 1, 2]),
    ),
    (
        "the child's own delete",
        Format::One,
        &[(STAR, &[1]), (STAR, &[2]), (TEXT, &[])],
        &[1, 1, 1, 2, 2],
        ([1, 0, 0, 0, 3, 2], &[]),
    ),
    (
        "a text beside the star",
        Format::One,
        &[(SEQUENCE, &[1, 2]), (STAR, &[3]), (TEXT, &[]), (TEXT, &[])],
        &[1, 1, 2, 2],
        ([1, 1, 0, 0, 3, 1], &[]),
    ),
];

pub fn self_breach(schema: &Schema, marks: &[u8], told: ByHand, name: &str) {
    let (words, breach) = (schema.words(), by_hand(told));
    expect(verdict(&words, marks) == Ok(Answer { breach, ..Answer::default() }), name);
    self_refusals(&words, marks);
}

/// A star above this many diamonds, each on top of the next, and a text below the last.
fn diamonds(count: usize) -> Schema {
    let sequence = |children: &[usize]| Type { kind: SEQUENCE, children: children.to_vec() };
    let diamond = |top: usize| [sequence(&[top + 1, top + 2]), sequence(&[top + 3]), sequence(&[top + 3])];
    let mut types = vec![Type { kind: STAR, children: vec![1] }];
    types.extend((0..count).flat_map(|k| diamond(3 * k + 1)));
    types.push(Type { kind: TEXT, children: Vec::new() });
    Schema::of(Format::One, types)
}

/// A star above 30 texts, in two elements of 15.
fn thirty_texts(format: Format) -> Schema {
    let sequence = |children: Vec<usize>| Type { kind: SEQUENCE, children };
    let mut types = vec![Type { kind: STAR, children: vec![1] }, sequence(vec![2, 3])];
    types.extend([sequence((4..19).collect()), sequence((19..34).collect())]);
    types.resize(34, Type { kind: TEXT, children: Vec::new() });
    Schema::of(format, types)
}

/// The 30 texts forbidden, and these marks at the star.
fn self_thirty(format: Format, star: &[u8], told: ByHand, name: &str) {
    let marks = [star, &[FORBIDDEN; 30][..]].concat();
    self_breach(&thirty_texts(format), &marks, told, name);
}

fn self_large() {
    self_breach(&diamonds(8), &[1, 1, 2], ([1, 0, 0, 0, 2, 1], &[]), "a text at the end of 256 paths");
    self_thirty(Format::One, &[1, 1], ([1, 0, 0, 0, 2, 30], &[]), "30 texts");
    self_thirty(Format::Two, &[2, 1, 1], ([1, 0, 0, 0, 3, 30], &[]), "30 texts in format 2");
    self_thirty(Format::Two, &[1, 1, 2], ([1, 0, 0, 0, 2, 1], &[]), "the exchange forbidden, and 30 texts");
}

/// The question of each type of the choice above two elements with texts.
fn self_question() {
    let words = schema(Format::One, TEXTS_AT_CHOICE).words();
    let table = check_table(&words).expect("a known table is accepted");
    let expected = [(0, 3), (3, 2), (4, 1), (0, 0), (3, 1), (4, 1), (0, 0)];
    for (y, (lowest, count)) in expected.into_iter().enumerate() {
        let found = forbidden_below(&table, &[2, 1, 0, 2, 2, 1], y);
        expect(found == ForbiddenBelow { lowest, count }, "what is forbidden below a type");
    }
}

/// A proposal that forbids the other text too: both are counted.
fn self_proposed() {
    let words = schema(Format::One, TWO_TEXTS).words();
    let breach = by_hand(([1, 0, 0, 0, 2, 2], &[]));
    let refusal = judge_mend(&words, &[1, 1, 1, 2], &[1, 1, 2, 2]);
    expect(refusal == Err(Answer { number: 16, breach, ..Answer::default() }), "what is proposed is counted");
}

pub fn self_forbidden_below() {
    for (name, format, shape, marks, told) in KNOWN {
        self_breach(&schema(format, shape), marks, told, name);
    }
    self_large();
    self_question();
    self_proposed();
}
