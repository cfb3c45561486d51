// The chain of a breach, worked out by hand: which is told of equally short ones, the longest, same-kind steps, and document 000's example 3.

use super::every::{schema, Shape};
use super::forbidden_below::self_breach;
use super::samples::{digits, SAMPLE};
use super::{by_hand, expect};
use crate::answers::Answer;
use crate::format::Format;
use crate::judge::judge;
use crate::making::schemas::Schema;
use crate::mending::judge_mend;
use crate::stream::to_bytes;
use crate::table::{
    check_table, Type, ALLOWED, CHOICE, FORBIDDEN, MOST_CHILDREN, SEQUENCE, STAR, TEXT, UNSET,
};

/// The allowed replacements of a choice.
type Steps = &'static [(usize, usize)];

/// A choice of n texts: a name, the format, n, its steps; and the breach: condition, privilege, chain.
type Known = (&'static str, Format, usize, Steps, [usize; 2], &'static [usize]);

const KNOWN: [Known; 14] = [
    ("two chains of two steps", Format::One, 4, &[(0, 1), (0, 2), (1, 3), (2, 3)], [2, 2], &[0, 1, 3]),
    (
        "two steps by a high position, three by low ones",
        Format::One,
        5,
        &[(0, 1), (1, 2), (2, 4), (0, 3), (3, 4)],
        [2, 3],
        &[0, 3, 4],
    ),
    (
        "two chains, the lower one higher at its last step",
        Format::One,
        6,
        &[(0, 1), (1, 4), (4, 5), (0, 2), (2, 3), (3, 5)],
        [2, 4],
        &[0, 1, 4, 5],
    ),
    (
        "two chains that part at the second step",
        Format::One,
        6,
        &[(0, 1), (1, 4), (4, 5), (1, 3), (3, 5)],
        [2, 4],
        &[0, 1, 3, 5],
    ),
    ("a lower step that leads nowhere", Format::One, 4, &[(0, 1), (0, 2), (2, 3)], [2, 2], &[0, 2, 3]),
    ("a lower step that leads back", Format::One, 4, &[(1, 0), (0, 1), (1, 2), (2, 3)], [2, 5], &[1, 2, 3]),
    ("from the last to the first", Format::One, 4, &[(3, 2), (2, 1), (1, 0)], [2, 9], &[3, 2, 1, 0]),
    ("there and back by the lowest", Format::One, 3, &[(2, 1), (1, 2), (2, 0), (0, 2)], [3, 8], &[2, 0, 2]),
    ("a cycle of three", Format::One, 3, &[(1, 0), (0, 2), (2, 1)], [3, 7], &[1, 0, 2, 1]),
    ("a same-kind step", Format::Two, 3, &[(1, 0), (0, 1), (1, 1)], [3, 10], &[1, 1]),
    ("the same-kind step of another", Format::Two, 3, &[(1, 0), (0, 0), (0, 1)], [3, 10], &[1, 0, 1]),
    ("a same-kind step forbidden", Format::Two, 3, &[(2, 1), (1, 2), (2, 0), (0, 2)], [2, 8], &[2, 0, 2]),
    ("same-kind steps on the way", Format::Two, 3, &[(0, 0), (0, 1), (1, 1), (1, 2)], [2, 2], &[0, 1, 2]),
    ("all ways round", Format::Two, 3, &[(0, 1), (1, 2), (2, 0)], [2, 4], &[1, 2, 0, 1]),
];

fn choice_of(format: Format, n: usize) -> Schema {
    let mut types = vec![Type { kind: CHOICE, children: (1..=n).collect() }];
    types.resize(n + 1, Type { kind: TEXT, children: Vec::new() });
    Schema::of(format, types)
}

/// Marks of a choice of n texts: these replacements allowed, all else unset.
fn steps_allowed(schema: &Schema, steps: &[(usize, usize)]) -> Vec<u8> {
    let table = check_table(&schema.words()).expect("a choice of texts is accepted");
    let mut marks = vec![UNSET; table.v()];
    steps.iter().for_each(|&(i, j)| marks[table.replacement(0, i, j)] = ALLOWED);
    marks
}

/// One privilege is forbidden, and its breach has this chain, from i to j.
fn self_choice(
    name: &str,
    format: Format,
    n: usize,
    steps: &[(usize, usize)],
    breach: [usize; 2],
    chain: &'static [usize],
) {
    let schema = choice_of(format, n);
    let mut marks = steps_allowed(&schema, steps);
    let [condition, privilege] = breach;
    marks[privilege] = FORBIDDEN;
    let (i, j) = (chain[0], chain[chain.len() - 1]);
    self_breach(&schema, &marks, ([condition, 0, i, j, privilege, 1], chain), name);
}

/// Choices of 16: one way through all of them, and every replacement allowed.
fn self_sixteen() {
    let next: Vec<(usize, usize)> = (0..MOST_CHILDREN).map(|k| (k, (k + 1) % MOST_CHILDREN)).collect();
    let from_0 = &[0, 1, 2, 3, 4, 5, 6, 7, 8, 9, 10, 11, 12, 13, 14, 15, 0];
    let from_5 = &[5, 6, 7, 8, 9, 10, 11, 12, 13, 14, 15, 0, 1, 2, 3, 4, 5];
    self_choice("a chain of 16", Format::One, 16, &next[..15], [2, 14], &from_0[..16]);
    self_choice("a cycle of 16", Format::One, 16, &next, [3, 240], from_0);
    self_choice("a cycle of 16 from within", Format::One, 16, &next, [3, 245], from_5);
    self_choice("a cycle of 16 in format 2", Format::Two, 16, &next, [3, 261], from_5);
    self_choice("a cycle of 16 to its own kind", Format::Two, 16, &next, [2, 85], from_5);
    let pairs = (0..MOST_CHILDREN).flat_map(|i| (0..MOST_CHILDREN).map(move |j| (i, j)));
    let all: Vec<(usize, usize)> = pairs.filter(|(i, j)| i != j).collect();
    self_choice("all but one allowed", Format::One, 16, &all, [2, 51], &[3, 0, 7]);
    self_choice("all allowed", Format::One, 16, &all, [3, 243], &[3, 0, 3]);
    self_choice("all allowed in format 2 but its own", Format::Two, 16, &all, [2, 51], &[3, 0, 3]);
}

/// Document 000, figure 1: R, A to K.
const FIGURE_1: Shape = &[
    (CHOICE, &[1, 2, 10, 11]),
    (SEQUENCE, &[3, 4]),
    (STAR, &[5]),
    (STAR, &[6]),
    (STAR, &[6]),
    (STAR, &[7]),
    (TEXT, &[]),
    (CHOICE, &[8, 9]),
    (TEXT, &[]),
    (TEXT, &[]),
    (STAR, &[7]),
    (TEXT, &[]),
];

/// Example 2's policy; of what example 3 names, A by J at R comes first: A by B, then B by J.
fn self_example_3() {
    let marks = digits("1222122212111111111121111111");
    let told = ([2, 0, 0, 2, 1, 1], &[0, 1, 2][..]);
    self_breach(&schema(Format::One, FIGURE_1), &marks, told, "example 3 of document 000");
}

/// The lines of the program judge: those of S5 are with the samples.
fn self_line(marks: &str, line: &str) {
    let lines = judge(&[to_bytes(&SAMPLE), digits(marks)].concat());
    expect(lines.lines().nth(1) == Some(line), line);
}

/// A proposal that forbids the lower of two chains and what they lead to: the chain is the other one, and of the policy there is none.
fn self_proposed() {
    let schema = choice_of(Format::One, 4);
    let marks = steps_allowed(&schema, &[(0, 1), (0, 2), (0, 3), (1, 3), (2, 3)]);
    let mut proposed = marks.clone();
    proposed[0] = FORBIDDEN;
    proposed[2] = FORBIDDEN;
    let breach = by_hand(([2, 0, 0, 3, 2, 1], &[0, 2, 3]));
    let refusal = judge_mend(&schema.words(), &marks, &proposed);
    expect(
        refusal == Err(Answer { number: 16, breach, ..Answer::default() }),
        "the chain of what is proposed",
    );
}

pub fn self_chains() {
    for (name, format, n, steps, breach, chain) in KNOWN {
        self_choice(name, format, n, steps, breach, chain);
    }
    self_sixteen();
    self_example_3();
    self_line("00000001012", "verdict 3 4 2 2 10 2 1 2");
    self_line("11020000000", "verdict 1 0 0 0 3");
    self_line("00000000000", "verdict 0 0 0 0 0");
    self_proposed();
}
