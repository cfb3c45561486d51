// Cases of roles (request 5): made in turn for each number of a table and for situations, with a table as large as there may be, or by chance.

use super::chance::Random;
use super::damage::spoil_table;
use super::files::bare;
use super::policies::{mixed, policy};
use super::schemas::{numbered, Schema};
use super::shapes::{full_ladder, usual_shape};
use crate::answers::answer;
use crate::calls::TABLE;
use crate::conditions::first_breach;
use crate::format::Format;
use crate::mending::mended;
use crate::roles_case::RolesCase;
use crate::situations::roles::is_in;
use crate::table::{check, check_table, total, Table};

const FORMATS: [Format; 2] = [Format::One, Format::Two];

/// The situations that chance seldom gives.
const AIMS: [&str; 22] = [
    "no role",
    "one role",
    "two roles",
    "more than 256 roles",
    "V 0: 1,000 roles",
    "V 0: a result, all of it kept",
    "no role refused",
    "all roles refused",
    "format 1: 0, 11 and 16 in one call",
    "format 2: 0, 11 and 16 in one call",
    "bytes kept behind the last stretch, which is kept",
    "10: one mark short",
    "10: one mark over",
    "10: no mark for two roles or more",
    "10: marks for one role more",
    "10: marks for one role fewer",
    "10: marks for no role",
    "10: a mark for V 0",
    "10, and the result is short",
    "12: one byte short",
    "12: no byte",
    "12: room for one role fewer",
];

fn role_count(r: &mut Random) -> usize {
    let many = 201 + r.below(100);
    r.pick(&[0, 0, 1, 1, 2, 2, 3, 3, 4, 5, 6, 8, 40, 40, many, 1000])
}

/// The most privileges of a table for so many roles.
fn most_privileges(count: usize) -> usize {
    match count {
        0..=8 => 60,
        9..=40 => 24,
        41..=300 => 4,
        _ => 0,
    }
}

/// A schema for so many roles; the more there are, the smaller, since its table is checked anew for each.
fn schema_for(r: &mut Random, format: Format, count: usize) -> Schema {
    let most = most_privileges(count);
    loop {
        let types = usual_shape(r, format);
        let types = if most == 0 || r.one_in(8) { bare(types) } else { types };
        if total(format, &types) <= most && types.len() * count <= 10_000 {
            return numbered(r, format, types);
        }
    }
}

pub fn clean(r: &mut Random, table: &Table) -> Vec<u8> {
    let marks = policy(r, table);
    mended(table, &marks).1
}

/// Marks with a breach, if chance soon gives some.
fn broken(r: &mut Random, table: &Table) -> Vec<u8> {
    let mut marks = policy(r, table);
    for _ in 0..8 {
        if first_breach(table, &marks).is_none() {
            marks = policy(r, table);
        }
    }
    marks
}

/// A mark above 2: the first, the last, or any.
pub fn bend(r: &mut Random, marks: &mut [u8]) {
    if let Some(last) = marks.len().checked_sub(1) {
        let any = r.below(last + 1);
        marks[r.pick(&[0, last, any])] = r.pick(&[3, 4, 255]);
    }
}

fn bent(r: &mut Random, table: &Table) -> Vec<u8> {
    let mut marks = if r.one_in(2) { broken(r, table) } else { policy(r, table) };
    bend(r, &mut marks);
    marks
}

/// Which of so many roles are to be refused: none, all, the first, the last, both, one of them, or some.
pub fn to_be_refused(r: &mut Random, count: usize) -> Vec<bool> {
    let (way, one, of) = (r.below(8), r.below(count.max(1)), r.pick(&[2, 6]));
    let is_chosen = |k: usize| match way {
        0 => false,
        1 => true,
        2 => k == 0,
        3 => k + 1 == count,
        4 => k == 0 || k + 1 == count,
        5 => k == one,
        _ => r.one_in(of),
    };
    (0..count).map(is_chosen).collect()
}

fn role(r: &mut Random, table: &Table, refused: bool) -> Vec<u8> {
    match refused {
        false => clean(r, table),
        true if r.one_in(2) => bent(r, table),
        true => broken(r, table),
    }
}

fn numbers_lent(r: &mut Random, count: usize) -> Vec<u16> {
    let number = |_| {
        let any = r.next() as u16;
        r.pick(&[0, 11, 16, 65535, any])
    };
    (0..count).map(number).collect()
}

/// A result for roles that have so many marks in all, V each: as a rule long enough.
fn lent(r: &mut Random, all: usize, v: usize) -> Vec<u8> {
    let length = match r.below(12) {
        0 => 0,
        1 => all.saturating_sub(1),
        2 => all.saturating_sub(v),
        3..=5 => all + 1 + r.below(12),
        _ => all,
    };
    (0..length).map(|_| r.next() as u8).collect()
}

fn case_of(r: &mut Random, schema: &Schema, roles: &[Vec<u8>]) -> RolesCase {
    let (words, marks, numbers) = (schema.words(), roles.concat(), numbers_lent(r, roles.len()));
    let out = lent(r, marks.len(), total(schema.format, &schema.types));
    RolesCase { words, marks, numbers, out }
}

pub fn table_of(schema: &Schema) -> Table {
    check_table(&schema.words()).expect("a shape is accepted in every numbering")
}

fn sound_case(r: &mut Random, schema: &Schema, count: usize) -> RolesCase {
    let table = table_of(schema);
    let refused = to_be_refused(r, count);
    let roles: Vec<Vec<u8>> = refused.into_iter().map(|refused| role(r, &table, refused)).collect();
    case_of(r, schema, &roles)
}

/// One mark or one role fewer or more, or no mark.
fn spoil_marks(r: &mut Random, v: usize, marks: &mut Vec<u8>) {
    let length = marks.len();
    let lengths = [length.saturating_sub(1), length + 1, 0, length + v, length.saturating_sub(v)];
    marks.resize_with(r.pick(&lengths), || r.next() as u8 % 4);
}

fn any_case(r: &mut Random, format: Format) -> RolesCase {
    let count = role_count(r);
    let schema = schema_for(r, format, count);
    let mut case = sound_case(r, &schema, count);
    if r.one_in(6) {
        spoil_marks(r, total(format, &schema.types), &mut case.marks);
    }
    if r.one_in(8) {
        spoil_table(r, &schema, &mut case.words);
    }
    case
}

/// A table of this format that is refused with this number, and a few roles; in some cases with other faults too.
fn refused_case(r: &mut Random, format: Format, number: usize) -> RolesCase {
    loop {
        let count = r.below(5);
        let schema = schema_for(r, format, count);
        let mut case = sound_case(r, &schema, count);
        spoil_table(r, &schema, &mut case.words);
        if r.one_in(3) {
            spoil_marks(r, total(format, &schema.types), &mut case.marks);
        }
        if case.has(format) && answer(check(&case.words)).number == number {
            return case;
        }
    }
}

fn aimed_case(r: &mut Random, situation: &str) -> RolesCase {
    loop {
        let format = r.pick(&FORMATS);
        let case = any_case(r, format);
        if is_in(&case, situation) {
            return case;
        }
    }
}

/// Marks of many privileges: with nothing forbidden, with nothing allowed, or with a breach; sometimes one is above 2.
fn large_role(r: &mut Random, table: &Table) -> Vec<u8> {
    let mix = r.pick(&[[20, 1, 0], [1, 0, 1], [4, 1, 1]]);
    let mut marks = mixed(r, table.v(), mix);
    if r.one_in(4) {
        bend(r, &mut marks);
    }
    marks
}

/// As many privileges as there may be or nearly, with numbers by chance, two roles or three, and room for them.
fn large_case(r: &mut Random, format: Format) -> RolesCase {
    let large = Schema::of(format, full_ladder(r, format)).by_chance(r);
    let table = table_of(&large);
    let roles: Vec<Vec<u8>> = (0..2 + r.below(2)).map(|_| large_role(r, &table)).collect();
    let mut case = case_of(r, &large, &roles);
    case.out.resize_with(case.marks.len() + 1, || r.next() as u8);
    case
}

/// Of six cases two have a refused table, one in each format, all numbers in turn; two are made for a situation, all aims in turn; the last of
/// 150 is a large one.
pub fn cases(seed: u64, count: usize) -> impl Iterator<Item = RolesCase> {
    let mut r = Random(seed);
    let refusals = &TABLE[1..];
    (0..count).map(move |k| {
        let turn = k / 6;
        match k % 6 {
            n @ 0..=1 => refused_case(&mut r, FORMATS[n], refusals[turn % refusals.len()]),
            n @ 2..=3 => aimed_case(&mut r, AIMS[(2 * turn + n - 2) % AIMS.len()]),
            _ if k % 150 == 149 => large_case(&mut r, FORMATS[k / 150 % 2]),
            n => any_case(&mut r, FORMATS[n - 4]),
        }
    })
}
