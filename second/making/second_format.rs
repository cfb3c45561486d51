// Cases of format 2 and of other words 0: some at fixed turns, the others made for each answer and each situation of format 2 in turn.

use super::chains;
use super::chance::Random;
use super::damage::{many_over, one_over};
use super::schemas::{numbered, schema, Schema};
use super::shapes::{full_ladder, usual_shape, wide_of};
use super::{any_case, case_of, chain_case, cycle_case, sound_case};
use crate::format::Format;
use crate::policy_case::{PolicyCase, CALLS};
use crate::situations::{is_in, of_policies};
use crate::table::{Type, CHOICE, MOST_CHILDREN, SEQUENCE, STAR};

/// What a case can be made for.
#[derive(Clone, Copy)]
enum Aim {
    /// A call, the number that it gives, and the condition of the breach.
    Answer(&'static str, usize, usize),
    Situation(&'static str),
}

/// Each number by the first call that can give it, but 16 by both that can, with each condition.
const ANSWERS: [Aim; 22] = [
    Aim::Answer("check", 1, 0),
    Aim::Answer("check", 2, 0),
    Aim::Answer("check", 3, 0),
    Aim::Answer("check", 4, 0),
    Aim::Answer("check", 5, 0),
    Aim::Answer("check", 6, 0),
    Aim::Answer("check", 7, 0),
    Aim::Answer("check", 19, 0),
    Aim::Answer("check", 8, 0),
    Aim::Answer("check", 9, 0),
    Aim::Answer("verdict", 10, 0),
    Aim::Answer("verdict", 11, 0),
    Aim::Answer("complete", 12, 0),
    Aim::Answer("complete", 16, 1),
    Aim::Answer("complete", 16, 2),
    Aim::Answer("complete", 16, 3),
    Aim::Answer("propose", 13, 0),
    Aim::Answer("propose", 14, 0),
    Aim::Answer("propose", 15, 0),
    Aim::Answer("propose", 16, 1),
    Aim::Answer("propose", 16, 2),
    Aim::Answer("propose", 16, 3),
];

fn aims() -> Vec<Aim> {
    let situations = of_policies().into_iter().map(Aim::Situation);
    ANSWERS.into_iter().chain(situations).collect()
}

fn gives(case: &PolicyCase, name: &str, number: usize, condition: usize) -> bool {
    let call = CALLS.iter().find(|call| call.name == name).expect("a call of that name");
    let answer = (call.make)(case).answer;
    (answer.number, answer.breach.condition) == (number, condition)
}

/// Whether a case has format 2 and is what it was to be.
fn meets(case: &PolicyCase, aim: Aim) -> bool {
    case.has(Format::Two)
        && match aim {
            Aim::Answer(name, number, condition) => gives(case, name, number, condition),
            Aim::Situation(name) => is_in(case, name),
        }
}

/// A small schema, sometimes with a choice of 16 kinds.
fn small_schema(r: &mut Random) -> Schema {
    let types = if r.one_in(8) { wide_of(r, MOST_CHILDREN) } else { usual_shape(r, Format::Two) };
    numbered(r, Format::Two, types)
}

/// For a situation nothing is damaged.
fn aimed_case(r: &mut Random, aim: Aim) -> PolicyCase {
    loop {
        let schema = small_schema(r);
        let case = match aim {
            Aim::Answer(..) => case_of(r, &schema),
            Aim::Situation(_) => sound_case(r, &schema),
        };
        if meets(&case, aim) {
            return case;
        }
    }
}

/// A sound case of a schema, with other words.
fn with_words(r: &mut Random, words: Vec<u16>) -> PolicyCase {
    let schema = schema(r, Format::Two);
    PolicyCase { words, ..sound_case(r, &schema) }
}

/// Types in a table of format 2, with marks for another one.
fn table_case(r: &mut Random, types: Vec<Type>) -> PolicyCase {
    let schema = numbered(r, Format::Two, types);
    with_words(r, schema.words())
}

/// As many privileges as there may be, with marks for them or for another table.
fn full_case(r: &mut Random, is_marked: bool) -> PolicyCase {
    let types = full_ladder(r, Format::Two);
    if is_marked {
        let full = Schema::of(Format::Two, types).by_chance(r);
        return sound_case(r, &full);
    }
    table_case(r, types)
}

/// A sound case of one format with another word 0.
fn bent_case(r: &mut Random, format: Format, word: u16) -> PolicyCase {
    let types = usual_shape(r, format);
    let schema = numbered(r, format, types);
    let mut case = sound_case(r, &schema);
    case.words[0] = word;
    case
}

/// The same types without a star and a choice: their table has as many privileges in the other format.
fn even(mut types: Vec<Type>) -> Vec<Type> {
    types.iter_mut().filter(|it| [CHOICE, STAR].contains(&it.kind)).for_each(|it| it.kind = SEQUENCE);
    types
}

fn even_case(r: &mut Random, format: Format) -> PolicyCase {
    let types = even(usual_shape(r, format));
    let schema = numbered(r, format, types);
    sound_case(r, &schema)
}

fn one_over_case(r: &mut Random) -> PolicyCase {
    let types = one_over(r, Format::Two);
    table_case(r, types)
}

fn many_over_case(r: &mut Random) -> PolicyCase {
    let types = many_over(r, Format::Two);
    table_case(r, types)
}

/// At fixed turns full tables and fuller ones, another word 0, tables that both formats take, chains and cycles of 256 types, policies made
/// for a breach's chain; else what chance gives.
fn case_in_turn(r: &mut Random, turn: usize) -> PolicyCase {
    match turn % 20 {
        0 => full_case(r, turn % 40 == 0),
        1 => one_over_case(r),
        2 => many_over_case(r),
        3 => bent_case(r, Format::Two, 0),
        4 => bent_case(r, Format::Two, 3),
        5 => bent_case(r, Format::Two, 65535),
        6 => bent_case(r, Format::One, 2),
        7 => bent_case(r, Format::Two, 1),
        8 => even_case(r, Format::One),
        9 => even_case(r, Format::Two),
        10 if turn % 40 == 10 => chain_case(r, Format::Two, turn % 80 == 10),
        11 => cycle_case(r, Format::Two),
        12..=15 => chains::case(r, Format::Two, turn / 20 * 4 + turn % 20 - 12),
        _ => any_case(r, Format::Two),
    }
}

/// Every third case in turn, the others made for what is to come.
pub fn cases(seed: u64, count: usize) -> impl Iterator<Item = PolicyCase> {
    let mut r = Random(seed);
    let aims = aims();
    (0..count).map(move |k| match k % 3 {
        0 => case_in_turn(&mut r, k / 3),
        n => aimed_case(&mut r, aims[(k / 3 * 2 + n - 1) % aims.len()]),
    })
}
