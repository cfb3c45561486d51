// Situations by the table: word 0, V, and how many kinds a choice has.

use crate::answers::answer;
use crate::format::Format;
use crate::table::{
    check, check_records, check_table, total, Table, CHOICE, HEADER, MOST_CHILDREN, MOST_PRIVILEGES,
};

/// A situation of words: its name, and whether they are in it.
type Situation = (&'static str, fn(&[u16]) -> bool);

fn is_of(words: &[u16], word: u16) -> bool {
    words.len() >= HEADER && words[0] == word
}

fn number(words: &[u16]) -> usize {
    answer(check(words)).number
}

/// The number of the same words with the other format.
fn number_otherwise(words: &[u16]) -> usize {
    let mut other = words.to_vec();
    other[0] = 3 - words[0];
    number(&other)
}

/// Whether words with this format are answered with a number, and with the other format accepted.
fn fits_other(words: &[u16], format: Format, as_told: usize) -> bool {
    is_of(words, format.word()) && number(words) == as_told && number_otherwise(words) == 0
}

/// The accepted table of format 2.
fn accepted(words: &[u16]) -> Option<Table> {
    check_table(words).ok().filter(|table| table.format == Format::Two)
}

fn has_choice_of(words: &[u16], n: usize) -> bool {
    let fits = |table: Table| table.types.iter().any(|it| it.kind == CHOICE && it.children.len() == n);
    accepted(words).map_or(false, fits)
}

/// V of words with format 2 that are refused with 9.
fn refused_v(words: &[u16]) -> Option<usize> {
    if !is_of(words, Format::Two.word()) || number(words) != 9 {
        return None;
    }
    check_records(words).ok().map(|types| total(Format::Two, &types))
}

pub const SITUATIONS: &[Situation] = &[
    ("word 0 is 0", |words| is_of(words, 0)),
    ("word 0 is 3", |words| is_of(words, 3)),
    ("word 0 is 65,535", |words| is_of(words, 65535)),
    ("format 2: 9, with V as in format 1", |words| fits_other(words, Format::Two, 9)),
    ("format 1: 9, with V as in format 2", |words| fits_other(words, Format::One, 9)),
    ("format 2: V the same in format 1", |words| fits_other(words, Format::Two, 0)),
    ("format 1: V the same in format 2", |words| fits_other(words, Format::One, 0)),
    ("format 2: V is 4,096", |words| accepted(words).map_or(false, |table| table.v() == MOST_PRIVILEGES)),
    ("format 2: 9, V is 4,097", |words| refused_v(words) == Some(MOST_PRIVILEGES + 1)),
    ("format 2: 9, V is 4,352 or more", |words| refused_v(words).map_or(false, |v| v >= 17 * 256)),
    ("format 2: a choice of one kind", |words| has_choice_of(words, 1)),
    ("format 2: a choice of 16 kinds", |words| has_choice_of(words, MOST_CHILDREN)),
];
