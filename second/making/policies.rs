// Policies, proposed mends and results as lent.

use super::chance::Random;
use crate::completing::completion;
use crate::conditions::first_breach;
use crate::format::Format;
use crate::mending::mended;
use crate::table::{Table, ALLOWED, CHOICE, FORBIDDEN, STAR, TEXT, UNSET};

/// How many in turn are unset, allowed, forbidden.
const MIXES: [[usize; 3]; 13] = [
    [1, 0, 0],
    [12, 1, 1],
    [12, 3, 0],
    [4, 1, 1],
    [1, 2, 2],
    [0, 1, 1],
    [0, 3, 2],
    [1, 5, 1],
    [1, 14, 1],
    [0, 20, 1],
    [1, 1, 14],
    [0, 1, 20],
    [0, 1, 0],
];

pub fn mixed(r: &mut Random, v: usize, mix: [usize; 3]) -> Vec<u8> {
    let mut urn = Vec::new();
    for mark in [UNSET, ALLOWED, FORBIDDEN] {
        urn.extend(vec![mark; mix[mark as usize]]);
    }
    (0..v).map(|_| r.pick(&urn)).collect()
}

/// At each choice a chain of allowed replacements through all positions, sometimes closed.
fn chain(r: &mut Random, table: &Table, marks: &mut [u8]) {
    for t in 0..table.types.len() {
        let n = table.types[t].children.len();
        if table.types[t].kind != CHOICE || n < 2 {
            continue;
        }
        let mut order: Vec<usize> = (0..n).collect();
        r.shuffle(&mut order);
        for pair in order.windows(2) {
            marks[table.replacement(t, pair[0], pair[1])] = ALLOWED;
        }
        let ends = if r.one_in(3) { [n - 1, 0] } else { [0, n - 1] };
        let mark = r.pick(&[UNSET, ALLOWED, FORBIDDEN]);
        marks[table.replacement(t, order[ends[0]], order[ends[1]])] = mark;
    }
}

/// Which kind of edit a privilege is for: text, insert, delete, exchange, replacement by another kind or by the same.
fn edit_of(table: &Table, privilege: usize) -> usize {
    let of = table.owner[privilege];
    match table.types[of].kind {
        TEXT => 0,
        STAR => 1 + privilege - table.first[of],
        _ => 4 + table.is_same_kind(privilege) as usize,
    }
}

/// Each kind of edit with the same mark everywhere, or at half of the places.
fn by_edit(r: &mut Random, table: &Table, marks: &mut [u8]) {
    let every = r.one_in(2);
    let own: Vec<u8> = (0..6).map(|_| r.pick(&[UNSET, ALLOWED, FORBIDDEN])).collect();
    for (privilege, mark) in marks.iter_mut().enumerate() {
        if every || r.one_in(2) {
            *mark = own[edit_of(table, privilege)];
        }
    }
}

fn change_one(r: &mut Random, marks: &mut [u8]) {
    if !marks.is_empty() {
        let p = r.below(marks.len());
        marks[p] = (marks[p] + 1 + r.below(2) as u8) % 3;
    }
}

pub fn policy(r: &mut Random, table: &Table) -> Vec<u8> {
    let mix = r.pick(&MIXES);
    let mut marks = mixed(r, table.v(), mix);
    if table.format == Format::Two && r.one_in(2) {
        by_edit(r, table, &mut marks);
    }
    if r.one_in(4) {
        chain(r, table, &mut marks);
    }
    if r.one_in(8) {
        marks = mended(table, &marks).1;
    }
    if r.one_in(6) && first_breach(table, &marks).is_none() {
        marks = completion(table, &marks);
    }
    if r.one_in(6) {
        change_one(r, &mut marks);
    }
    marks
}

/// Some of the allowed marks turned to forbidden.
fn withdraw(r: &mut Random, marks: &[u8]) -> Vec<u8> {
    let of = r.pick(&[2, 8]);
    let mut after = marks.to_vec();
    for mark in after.iter_mut().filter(|mark| **mark == ALLOWED) {
        *mark = if r.one_in(of) { FORBIDDEN } else { ALLOWED };
    }
    after
}

pub fn proposal(r: &mut Random, table: &Table, marks: &[u8]) -> Vec<u8> {
    let mut proposed = match r.below(8) {
        0..=2 => mended(table, marks).1,
        3 | 4 => withdraw(r, marks),
        5 => mixed(r, marks.len(), [1, 1, 1]),
        _ => marks.to_vec(),
    };
    if r.one_in(4) {
        change_one(r, &mut proposed);
    }
    proposed
}

pub fn lent(r: &mut Random, v: usize) -> Vec<u8> {
    let length = match r.below(16) {
        0 => 0,
        1 => v.saturating_sub(1),
        2..=4 => v + 1 + r.below(12),
        _ => v,
    };
    (0..length).map(|_| r.next() as u8).collect()
}
