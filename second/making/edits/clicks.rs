// Edits one after another.

use super::super::chance::Random;
use super::super::policies::policy;
use crate::conditions::first_breach;
use crate::edit_case::Edit;
use crate::table::{Table, ALLOWED, FORBIDDEN, UNSET};

const MARKS: [u8; 3] = [UNSET, ALLOWED, FORBIDDEN];

/// How many edits are tried for one that changes the first breach.
const TRIES: usize = 8;

fn edit(privilege: usize, mark: u8) -> Edit {
    Edit { privilege: privilege as u32, mark }
}

fn after(marks: &[u8], edit: Edit) -> Vec<u8> {
    let mut marks = marks.to_vec();
    marks[edit.privilege as usize] = edit.mark;
    marks
}

fn any_edit(r: &mut Random, v: usize) -> Edit {
    edit(r.below(v), r.pick(&MARKS))
}

/// One after which another breach is the first, or none, if chance soon gives it.
fn telling(r: &mut Random, table: &Table, marks: &[u8]) -> Edit {
    let first = first_breach(table, marks);
    let tried: Vec<Edit> = (0..TRIES).map(|_| any_edit(r, table.v())).collect();
    let tells = |edit: &&Edit| first_breach(table, &after(marks, **edit)) != first;
    *tried.iter().find(tells).unwrap_or(&tried[0])
}

/// One of the privileges that have this mark, or any.
fn marked(r: &mut Random, marks: &[u8], mark: u8) -> usize {
    let all: Vec<usize> = (0..marks.len()).filter(|&p| marks[p] == mark).collect();
    if all.is_empty() {
        r.below(marks.len())
    } else {
        r.pick(&all)
    }
}

/// Some privileges forbidden, and all of them unset or allowed again, in any order.
fn there_and_back(r: &mut Random, v: usize, count: usize) -> Vec<Edit> {
    let mut privileges: Vec<usize> = (0..count.div_ceil(2)).map(|_| r.below(v)).collect();
    let mark = r.pick(&[UNSET, UNSET, ALLOWED]);
    let mut edits: Vec<Edit> = privileges.iter().map(|&p| edit(p, FORBIDDEN)).collect();
    r.shuffle(&mut privileges);
    edits.extend(privileges.iter().map(|&p| edit(p, mark)));
    edits
}

/// A policy's marks, one after another.
fn edited_in(r: &mut Random, table: &Table) -> Vec<Edit> {
    policy(r, table).iter().enumerate().map(|(privilege, &mark)| edit(privilege, mark)).collect()
}

/// So many edits, each by what the marks are then.
fn one_by_one(r: &mut Random, table: &Table, marks: &[u8], count: usize) -> Vec<Edit> {
    let v = table.v();
    let (way, one) = (r.below(8), r.below(v));
    let mut marks = marks.to_vec();
    let mut edits = Vec::new();
    for _ in 0..count {
        let privilege = r.below(v);
        let next = match way {
            0..=2 => telling(r, table, &marks),
            3 => edit(privilege, marks[privilege]),
            4 => edit(one, r.pick(&MARKS)),
            5 => edit(marked(r, &marks, FORBIDDEN), r.pick(&[UNSET, ALLOWED])),
            6 => edit(privilege, r.pick(&[FORBIDDEN, FORBIDDEN, ALLOWED])),
            _ => any_edit(r, v),
        };
        marks = after(&marks, next);
        edits.push(next);
    }
    edits
}

/// A privilege that there is not.
pub fn bend_privilege(r: &mut Random, v: usize, edit: &mut Edit) {
    let (any, p) = (r.next() as u32, r.below(v.max(1)) as u32);
    let v = v as u32;
    edit.privilege = r.pick(&[v, v, v + 1, p + 256, p + 65_536, p + (1 << 31), u32::MAX, any.max(v)]);
}

/// A mark above 2.
pub fn bend_mark(r: &mut Random, edit: &mut Edit) {
    edit.mark = r.pick(&[3, 3, 4, 5, 6, 128, 254, 255, 255]);
}

/// Some of the edits made such as are refused.
fn bend_some(r: &mut Random, v: usize, edits: &mut [Edit]) {
    for edit in edits {
        match r.below(6) {
            0 => bend_privilege(r, v, edit),
            1 => bend_mark(r, edit),
            _ => (),
        }
    }
}

/// Edits on these marks: as a rule so many; or a policy that is edited in.
pub fn edits(r: &mut Random, table: &Table, marks: &[u8], count: usize) -> Vec<Edit> {
    let v = table.v();
    if v == 0 {
        return (0..count).map(|k| edit(k, r.pick(&MARKS))).collect();
    }
    let mut edits = match r.below(12) {
        0 => edited_in(r, table),
        1 => there_and_back(r, v, count),
        _ => one_by_one(r, table, marks, count),
    };
    if edits.len() > 1 && r.one_in(5) {
        bend_some(r, v, &mut edits);
    }
    edits
}
