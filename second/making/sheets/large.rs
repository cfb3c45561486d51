// Cases with as many privileges as there may be, or nearly, and with more roles than a byte counts.

use super::super::bases::FORMATS;
use super::super::chance::Random;
use super::super::policies::{mixed, policy};
use super::super::roles::{bend, table_of};
use super::super::schemas::Schema;
use super::super::shapes::{fill, full_ladder};
use super::numbers;
use crate::conditions::first_breach;
use crate::format::Format;
use crate::sheet::COUNTS;
use crate::sheet_case::SheetCase;
use crate::table::{Table, Type, ALLOWED, CHOICE, EMPTY, FORBIDDEN, MOST_PRIVILEGES, STAR, TEXT, UNSET};

/// The first privilege that a byte does not number.
pub const HIGH: usize = 256;

/// V is 4,096; with numbers by chance.
pub fn full(r: &mut Random, format: Format) -> Schema {
    let mut types = full_ladder(r, format);
    fill(format, &mut types, MOST_PRIVILEGES);
    Schema::of(format, types).by_chance(r)
}

/// The same of format 1 without one of the texts: V is 4,095.
fn nearly_full(r: &mut Random) -> Schema {
    let mut schema = full(r, Format::One);
    let text = schema.types.iter_mut().find(|it| it.kind == TEXT);
    text.expect("all leaves are texts").kind = EMPTY;
    schema
}

/// Marks that allow some high privileges and no low ones, in these shares, and none that another role allows.
fn few(r: &mut Random, other: &[u8], mix: [usize; 3]) -> Vec<u8> {
    let mut marks = mixed(r, other.len(), mix);
    for (privilege, mark) in marks.iter_mut().enumerate() {
        if *mark == ALLOWED && (privilege < HIGH || other[privilege] == ALLOWED) {
            *mark = UNSET;
        }
    }
    marks
}

/// A role that is clean, one that is broken and one that is refused, in any order; one of the highest privileges is allowed in the first two,
/// and the others in one of them at most.
fn three_roles(r: &mut Random, table: &Table) -> Vec<Vec<u8>> {
    let v = table.v();
    let both = v - 1 - r.below(v / 4);
    loop {
        let mut clean = few(r, &vec![UNSET; v], [20, 1, 0]);
        let mut broken = few(r, &clean, [8, 1, 1]);
        clean[both] = ALLOWED;
        broken[both] = ALLOWED;
        let mut refused = mixed(r, v, [1, 1, 1]);
        bend(r, &mut refused);
        if first_breach(table, &broken).is_some() {
            let mut roles = vec![clean, broken, refused];
            r.shuffle(&mut roles);
            return roles;
        }
    }
}

/// Three roles of a table that is full, or nearly, with room for their counts.
fn full_case(r: &mut Random, schema: Schema) -> SheetCase {
    let roles = three_roles(r, &table_of(&schema));
    case_of(r, &schema, &roles)
}

/// A schema with few privileges, and a role that breaks this condition, or none.
fn small_role(condition: usize) -> (Schema, Vec<u8>) {
    let (format, types, role) = match condition {
        1 => (Format::One, vec![(STAR, vec![1]), (TEXT, vec![])], vec![ALLOWED, ALLOWED, FORBIDDEN]),
        2 => (
            Format::Two,
            vec![(CHOICE, vec![1, 2]), (EMPTY, vec![]), (EMPTY, vec![])],
            vec![FORBIDDEN, ALLOWED, ALLOWED, UNSET],
        ),
        3 => (Format::Two, vec![(CHOICE, vec![1]), (TEXT, vec![])], vec![ALLOWED, FORBIDDEN]),
        _ => (Format::One, vec![(STAR, vec![1]), (EMPTY, vec![])], vec![ALLOWED, FORBIDDEN]),
    };
    let types = types.into_iter().map(|(kind, children)| Type { kind, children }).collect();
    (Schema::of(format, types), role)
}

/// More than 255 such roles, refused or not, and a few others among them.
fn many_case(r: &mut Random, condition: usize, is_refused: bool) -> SheetCase {
    let (schema, mut role) = small_role(condition);
    let table = table_of(&schema);
    if is_refused {
        bend(r, &mut role);
    }
    let mut roles = vec![role; 256 + r.below(8)];
    (0..r.below(8)).for_each(|_| roles.push(policy(r, &table)));
    r.shuffle(&mut roles);
    case_of(r, &schema, &roles)
}

fn case_of(r: &mut Random, schema: &Schema, roles: &[Vec<u8>]) -> SheetCase {
    let length = COUNTS * roles[0].len() + r.below(2);
    let counts = numbers(r, length);
    SheetCase { words: schema.words(), roles: roles.len() as u32, marks: roles.concat(), counts }
}

/// A full table with so many roles and so many marks, and no counts.
fn bare_case(r: &mut Random, format: Format, roles: u32, marks: usize) -> SheetCase {
    SheetCase { words: full(r, format).words(), roles, marks: vec![UNSET; marks], counts: Vec::new() }
}

/// In turn for three roles with 4,096 privileges, at one turn of six with 4,095; for more than 255 roles that are clean, that break each condition, and that
/// are refused; and for full tables with 4,294,967,295 roles, with 2^20 and no mark, with one more and the marks of one, and without counts.
pub fn large_case(r: &mut Random, turn: usize) -> SheetCase {
    let (way, round) = (turn % 10, turn / 10);
    let format = FORMATS[round % 2];
    match way {
        0 if round % 6 == 5 => {
            let schema = nearly_full(r);
            full_case(r, schema)
        }
        0 => {
            let schema = full(r, format);
            full_case(r, schema)
        }
        1..=4 => many_case(r, way - 1, false),
        5 => many_case(r, round % 4, true),
        6 => bare_case(r, format, u32::MAX, round % 6),
        7 => bare_case(r, format, 1 << 20, 0),
        8 => bare_case(r, format, (1 << 20) + 1, MOST_PRIVILEGES),
        _ => bare_case(r, format, 0, 0),
    }
}
