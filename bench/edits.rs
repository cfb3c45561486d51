// What is measured of `edit_mark`: the ordinary and the largest tables with the marks of the verdict's inputs, each click leaving its mark as it is,
// so that nothing changes and all is worked out; such tables with each click changing a mark, and then back; a largest table with a half of its
// marks forbidden, and with all of them, at its texts; the policies of the sample, edited into each other; tables with very many types above a
// privilege, all marks forbidden: a chain, a ladder, and hubs, which stand below many types that are above the privilege but not above each
// other; and tables that double. Of tables that are refused the stack is measured alone.

use crate::calls::{Call, Case};
use crate::fast;
use crate::inputs::{
    by_chance, cyclic, decode, digits, doubling, encode, input_of, inputs, largest_table, named, privileges_of, unreached, v_of,
    Input, Type, ALLOWED, CHOICE, EMPTY, FORBIDDEN, ONE, SAMPLE, SAMPLES, SAMPLES_OF_TWO, SEQUENCE, STAR, TEXT, TWO, UNSET,
};
use second::edit_case::{Edit, EditCase};

/// Clicks on a policy, made in turn. The last one leaves the policy as the first one found it.
pub struct Clicks {
    pub input: String,
    words: Vec<u16>,
    marks: Vec<u8>,
    edits: Vec<Edit>,
}

impl Clicks {
    fn of(input: &str, words: Vec<u16>, marks: Vec<u8>, clicks: impl Fn(&[u8]) -> Vec<Edit>) -> Clicks {
        let edits = clicks(&marks);
        Clicks { input: input.to_string(), words, marks, edits }
    }

    pub fn count(&self) -> usize {
        self.edits.len()
    }

    pub fn name(&self) -> String {
        format!("{}/{}", self.input, self.count())
    }

    /// The policy and what is kept of it, to be clicked on.
    pub fn case(&self) -> EditCase {
        let Clicks { words, marks, edits, .. } = self;
        EditCase { words: words.clone(), marks: marks.clone(), kept: entries(words, marks), edits: edits.clone() }
    }
}

/// The first privilege of each type that has one, and the type's kind.
fn firsts(words: &[u16]) -> Vec<(usize, u16)> {
    let mut next = 0;
    let mut all = Vec::new();
    for it in decode(words) {
        let own = privileges_of(words[0], &it);
        all.extend((own > 0).then_some((next, it.kind)));
        next += own;
    }
    all
}

/// What is kept of a policy: it is worked out for all types above a privilege that gets the mark that it has.
fn entries(words: &[u16], marks: &[u8]) -> Vec<u16> {
    let (mut marks, mut kept) = (marks.to_vec(), vec![0; 2 * words[2] as usize]);
    for (privilege, _) in firsts(words) {
        let mark = marks[privilege];
        fast::edit_mark(words, &mut marks, &mut kept, privilege, mark);
    }
    kept
}

// ---------------------------------------------------------------- clicks

fn click(privilege: usize, mark: u8) -> Edit {
    Edit { privilege: privilege as u32, mark }
}

/// Some privileges get the marks that they have.
fn same(privileges: impl Iterator<Item = usize>, marks: &[u8]) -> Vec<Edit> {
    privileges.map(|p| click(p, marks[p])).collect()
}

/// Each of so many privileges gets the mark that it has.
fn each_same(step: usize) -> impl Fn(&[u8]) -> Vec<Edit> {
    move |marks| same((0..marks.len()).step_by(step), marks)
}

/// The last privileges get the marks that they have.
fn last_same(count: usize) -> impl Fn(&[u8]) -> Vec<Edit> {
    move |marks| same(marks.len() - count..marks.len(), marks)
}

/// Each of so many privileges gets another mark, and then its own again.
fn each_changed(step: usize, other: impl Fn(u8) -> u8) -> impl Fn(&[u8]) -> Vec<Edit> {
    move |marks| {
        let both = |p: usize| [click(p, other(marks[p])), click(p, marks[p])];
        (0..marks.len()).step_by(step).flat_map(both).collect()
    }
}

// ---------------------------------------------------------------- tables of known size

/// The policies of the sample, edited into each other mark by mark, the first after the last.
fn sample(format: u16, samples: &[&str]) -> Clicks {
    let words = encode(format, &decode(&SAMPLE), 0);
    let marks = digits(samples[samples.len() - 1]);
    let edited = |text: &&str| digits(text).into_iter().enumerate().map(|(p, mark)| click(p, mark)).collect::<Vec<_>>();
    Clicks::of(&named("sample", format), words, marks, |_| samples.iter().flat_map(edited).collect())
}

/// A half of the marks forbidden by chance, the others unset.
fn half() -> Clicks {
    let words = largest_table(ONE);
    let marks = by_chance(v_of(&words), &[UNSET, FORBIDDEN], 1);
    Clicks::of("largest-half", words, marks, each_same(64))
}

/// All marks of a table in format 1 forbidden.
fn forbidden(name: &str, words: Vec<u16>, clicks: impl Fn(&[u8]) -> Vec<Edit>) -> Clicks {
    let marks = vec![FORBIDDEN; v_of(&words)];
    Clicks::of(name, words, marks, clicks)
}

// ---------------------------------------------------------------- tables with much above a privilege

fn of_kind(kind: u16, children: impl IntoIterator<Item = usize>) -> Type {
    Type { kind, children: children.into_iter().map(|child| child as u16).collect() }
}

fn leaf(kind: u16) -> Type {
    of_kind(kind, [])
}

/// 255 stars, each below the one before, and a text; the last 16 types are clicked.
fn chain() -> Clicks {
    let mut types: Vec<Type> = (0..255).map(|t| of_kind(STAR, [t + 1])).collect();
    types.push(leaf(TEXT));
    forbidden("chain", encode(ONE, &types, 0), last_same(31))
}

/// 254 sequences, each above the next two types, and two texts.
fn ladder() -> Clicks {
    let mut types: Vec<Type> = (0..254).map(|t| of_kind(SEQUENCE, [t + 1, t + 2])).collect();
    types.extend([leaf(TEXT), leaf(TEXT)]);
    forbidden("ladder", encode(ONE, &types, 0), last_same(2))
}

/// A root above groups of sequences, each of which has two children: the hub, the first type behind them, and the last type, a text, which is
/// clicked. The types from the hub on are told its number.
fn hub(name: &str, groups: usize, each: usize, below: impl Fn(usize) -> Vec<Type>) -> Clicks {
    let (first, at) = (1 + groups, 1 + groups + groups * each);
    let below = below(at);
    let text = at + below.len();
    let mut types = vec![of_kind(SEQUENCE, 1..=groups)];
    types.extend((0..groups).map(|g| of_kind(SEQUENCE, (first + g * each..).take(each))));
    types.extend((first..at).map(|_| of_kind(SEQUENCE, [at, text])));
    types.extend(below);
    types.push(leaf(TEXT));
    forbidden(name, encode(ONE, &types, 0), last_same(1))
}

/// So many stars, each below the one before, and an empty type.
fn stars(count: usize) -> impl Fn(usize) -> Vec<Type> {
    move |at| (at..at + count).map(|t| of_kind(STAR, [t + 1])).chain([leaf(EMPTY)]).collect()
}

/// A sequence of 16 choices, which have the same 16 empty types as their children.
fn choices(at: usize) -> Vec<Type> {
    let mut types = vec![of_kind(SEQUENCE, at + 1..=at + 16)];
    types.extend((0..16).map(|_| of_kind(CHOICE, at + 17..=at + 32)));
    types.extend((0..16).map(|_| leaf(EMPTY)));
    types
}

/// Eleven sequences, each of the next 16 types, 23 stars, each above the next type, and choices: many types, many children and many marks.
fn mixed(at: usize) -> Vec<Type> {
    let (star, sequence) = (at + 11, at + 34);
    let mut types: Vec<Type> = (at..star).map(|t| of_kind(SEQUENCE, t + 1..=t + 16)).collect();
    types.extend((star..sequence).map(|t| of_kind(STAR, [t + 1])));
    types.extend(choices(sequence));
    types
}

// ---------------------------------------------------------------- what is measured

pub fn edits() -> Vec<Clicks> {
    let policies = inputs(Call::JudgePolicy);
    let of = |name: &str, policy: &str, clicks: &dyn Fn(&[u8]) -> Vec<Edit>| {
        let Case { words, marks, .. } = input_of(&policies, policy).cases[0].clone();
        Clicks::of(name, words, marks, clicks)
    };
    let same = |name: &str, step| of(name, name, &each_same(step));
    let mut all = vec![sample(ONE, &SAMPLES), sample(TWO, &SAMPLES_OF_TWO)];
    all.extend(["ordinary", "ordinary-2", "ordinary-renumbered"].map(|name| same(name, 1)));
    all.push(of("ordinary-toggled", "ordinary", &each_changed(1, |mark| (mark + 1) % 3)));
    all.extend(["largest", "largest-2", "largest-renumbered"].map(|name| same(name, 16)));
    all.push(of("largest-one", "largest", &each_changed(64, |_| FORBIDDEN)));
    all.extend([half(), forbidden("texts", largest_table(ONE), last_same(16))]);
    all.extend([chain(), ladder(), hub("hub", 8, 15, stars(125)), hub("hub-mixed", 11, 16, mixed)]);
    all
}

/// A click at the last text of each table that doubles.
pub fn growing() -> Vec<Clicks> {
    let of = |Input { name, cases }: Input| {
        let Case { words, marks, .. } = cases[0].clone();
        let text = firsts(&words).into_iter().rev().find(|&(_, kind)| kind == TEXT).map_or(0, |(privilege, _)| privilege);
        Clicks::of(&name, words, marks, |marks| same([text].into_iter(), marks))
    };
    doubling(Call::JudgePolicy).into_iter().map(of).collect()
}

/// Tables that are searched before they are refused.
pub fn refused() -> Vec<Clicks> {
    let of = |words: Vec<u16>| {
        let marks = vec![ALLOWED; v_of(&words)];
        Clicks::of("refused", words, marks, |_| vec![click(0, ALLOWED)])
    };
    [cyclic(), unreached()].map(of).into()
}
