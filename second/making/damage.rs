// Damage: tables, marks and proposed marks that are refused, or nearly.

use super::chance::Random;
use super::cycles::{closed, unsound, uprooted};
use super::schemas::{encode, entries_before, numbered, Schema};
use super::shapes::{dress, dress_as, fill, full_ladder, grown_to, ladder, Lists};
use crate::answers::answer;
use crate::format::Format;
use crate::judge::MOST_BYTES;
use crate::policy_case::PolicyCase;
use crate::table::{
    check, Type, CHOICE, EMPTY, HEADER, MOST_CHILDREN, MOST_ENTRIES, MOST_PRIVILEGES, MOST_TYPES, RECORD,
    STAR, TEXT, UNSET,
};

fn other_word(r: &mut Random, word: u16) -> u16 {
    let any = r.next() as u16;
    r.pick(&[word.wrapping_add(1), word.wrapping_sub(1), 0, any % 20, any, 65535])
}

/// The stretch of a parent with at least `fewest` children: the parent, where in the words
/// the stretch starts, and how long it is.
fn stretch(r: &mut Random, types: &[Type], fewest: usize) -> Option<(usize, usize, usize)> {
    let fits = |t: &usize| types[*t].children.len() >= fewest;
    let parents: Vec<usize> = (0..types.len()).filter(fits).collect();
    if parents.is_empty() {
        return None;
    }
    let t = r.pick(&parents);
    let first = HEADER + RECORD * types.len() + entries_before(types, t);
    Some((t, first, types[t].children.len()))
}

/// A child that is no type.
fn bend_out(r: &mut Random, types: &[Type], words: &mut [u16]) {
    if let Some((_, first, n)) = stretch(r, types, 1) {
        let over = r.pick(&[0, 0, 1, 300]);
        words[first + r.below(n)] = (types.len() + r.below(over + 1)) as u16;
    }
}

/// Another type as a child, or the parent itself.
fn bend_child(r: &mut Random, types: &[Type], words: &mut [u16]) {
    if let Some((parent, first, n)) = stretch(r, types, 1) {
        let other = r.below(types.len());
        words[first + r.below(n)] = r.pick(&[parent, other, other]) as u16;
    }
}

fn bend_twice(r: &mut Random, types: &[Type], words: &mut [u16]) {
    if let Some((_, first, n)) = stretch(r, types, 2) {
        let k = r.below(n);
        words[first + k] = words[first + (k + 1 + r.below(n - 1)) % n];
    }
}

fn bend_word(r: &mut Random, words: &mut [u16], at: usize) {
    words[at] = other_word(r, words[at]);
}

/// A root that is no type, most often E, or another type as the root.
fn bend_root(r: &mut Random, types: &[Type], words: &mut [u16]) {
    let e = types.len();
    let other = r.below(e);
    words[3] = r.pick(&[e, e, e, e + 1, 65535, other]) as u16;
}

/// Changes words in place, the length kept.
fn bend(r: &mut Random, types: &[Type], words: &mut [u16]) {
    let record = HEADER + RECORD * r.below(types.len());
    let any = r.next() as u16;
    match r.below(14) {
        0 => bend_word(r, words, any as usize % words.len()),
        1 | 2 => bend_word(r, words, any as usize % HEADER),
        3 | 4 => bend_word(r, words, 7),
        5 => bend_word(r, words, record + 1),
        6 => bend_word(r, words, record + 2),
        7 => words[record] = STAR + 1 + any % 4,
        8 => words[record] = any % (STAR + 1),
        9 => bend_out(r, types, words),
        10 => bend_child(r, types, words),
        11 => bend_root(r, types, words),
        _ => bend_twice(r, types, words),
    }
}

/// One entry more or fewer in the child list, words 1 and 5 in keeping: the total isn't C.
fn unbalanced(r: &mut Random, mut words: Vec<u16>) -> Vec<u16> {
    if words[5] > 0 && r.one_in(2) {
        words.pop();
        words[1] -= 1;
        words[5] -= 1;
    } else {
        words.push(r.next() as u16 % 8);
        words[1] += 1;
        words[5] += 1;
    }
    words
}

/// The full ladder with one leaf a text, or, where all are texts, a star of an empty type: V is 4,097.
pub fn one_over(r: &mut Random, format: Format) -> Vec<Type> {
    let mut types = full_ladder(r, format);
    fill(format, &mut types, MOST_PRIVILEGES);
    let last = types.len();
    match format {
        Format::One => {
            types[last - 1] = Type { kind: STAR, children: vec![last] };
            types.push(Type { kind: EMPTY, children: Vec::new() });
        }
        Format::Two => types[last - 1].kind = TEXT,
    }
    types
}

/// Twenty types with 16 children each, of which eighteen or seventeen are choices: V is at least 4,320.
pub fn many_over(r: &mut Random, format: Format) -> Vec<Type> {
    let choices = match format {
        Format::One => 18,
        Format::Two => 17,
    };
    dress_as(r, ladder(20, MOST_CHILDREN), 0..choices, CHOICE)
}

/// 1,025 entries in the child list.
fn long_list() -> Lists {
    let mut lists = ladder(MOST_ENTRIES / MOST_CHILDREN, MOST_CHILDREN);
    let last = lists.len() - 1;
    lists[last - 1].push(last);
    lists
}

/// A table with every count in keeping but one that is over what document 01 grants; sometimes
/// with a cycle or with another root besides.
fn oversized(r: &mut Random, format: Format) -> Vec<u16> {
    let types = match r.below(16) {
        0 => grown_to(r, MOST_TYPES + 1, 3, 0),
        1 => dress(r, long_list()),
        2 => return encode(format, &[]),
        3..=5 => one_over(r, format),
        6..=8 => many_over(r, format),
        _ => dress(r, ladder(2, MOST_CHILDREN + 1)),
    };
    let schema = numbered(r, format, types);
    let schema = match r.below(4) {
        0 => closed(r, &schema),
        1 => uprooted(r, &schema),
        _ => schema,
    };
    schema.words()
}

/// Another run of words, as a rule of another length.
fn resized(r: &mut Random, format: Format, mut words: Vec<u16>) -> Vec<u16> {
    let at = r.below(words.len());
    match r.below(10) {
        0 => drop(words.remove(at)),
        1 => words.insert(at, r.next() as u16 % 20),
        2 => words.push(r.next() as u16 % 20),
        3 => words.truncate(r.pick(&[at, 0, 1, 2, 7, 8])),
        4 => words = (0..r.below(40)).map(|_| r.next() as u16 % 9).collect(),
        5 | 6 => words = unbalanced(r, words),
        _ => words = oversized(r, format),
    }
    words
}

/// A fault that another check than 19 and 8 finds, so that the order of the checks decides.
fn bend_beside(r: &mut Random, types: &[Type], words: &mut [u16]) {
    match r.below(8) {
        0..=2 => bend_out(r, types, words),
        3 | 4 => bend_twice(r, types, words),
        5 => bend_root(r, types, words),
        _ => bend_word(r, words, 7),
    }
}

/// An unsound table, in half of the cases with such a fault too.
fn unsound_words(r: &mut Random, schema: &Schema) -> Vec<u16> {
    let wrong = unsound(r, schema);
    let mut words = wrong.words();
    if r.one_in(2) {
        bend_beside(r, &wrong.types, &mut words);
    }
    words
}

pub fn spoil_table(r: &mut Random, schema: &Schema, words: &mut Vec<u16>) {
    if r.below(5) < 2 {
        *words = unsound_words(r, schema);
        return;
    }
    for _ in 0..r.pick(&[0, 1, 1, 1, 2, 3]) {
        bend(r, &schema.types, words);
    }
    if r.one_in(3) {
        *words = resized(r, schema.format, words.clone());
    }
}

/// A table of this schema's format that is refused with this number, if chance gives one.
pub fn refused_words(r: &mut Random, schema: &Schema, number: usize) -> Option<Vec<u16>> {
    let mut words = schema.words();
    spoil_table(r, schema, &mut words);
    let has_format = words.first() == Some(&schema.format.word());
    Some(words).filter(|words| has_format && answer(check(words)).number == number)
}

fn spoil_marks(r: &mut Random, marks: &mut Vec<u8>) {
    match r.below(8) {
        0 => marks.clear(),
        1 => drop(marks.pop()),
        2 | 3 => marks.push(r.next() as u8 % 4),
        _ if marks.is_empty() => marks.push(3),
        _ => {
            for _ in 0..r.pick(&[1, 1, 2]) {
                let p = r.below(marks.len());
                marks[p] = r.pick(&[3, 4, 255]);
            }
        }
    }
}

/// Marks so many that the file for judge is as long as it may be, or one byte longer.
fn spoil_file(r: &mut Random, case: &mut PolicyCase) {
    let length = MOST_BYTES + r.below(2) - 2 * case.words.len();
    case.marks.resize(length, UNSET);
}

pub fn spoil(r: &mut Random, schema: &Schema, case: &mut PolicyCase) {
    if r.one_in(600) {
        return spoil_file(r, case);
    }
    let (table, marks, proposed) = (r.below(20) < 8, r.one_in(10), r.one_in(8));
    if table {
        spoil_table(r, schema, &mut case.words);
    }
    if marks {
        spoil_marks(r, &mut case.marks);
    }
    if proposed {
        spoil_marks(r, &mut case.proposed);
    }
}
