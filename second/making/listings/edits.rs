// Ways to put a line for an edit that a type does not have. Each has the name of the situation that it is for.

use super::super::chance::Random;
use super::lines::{line_of, place, Lines, Way};
use super::Mailed;
use crate::table::{CHOICE, EMPTY, SEQUENCE, STAR, TEXT};

/// Puts the line of an edit in place of another, or besides.
fn put(r: &mut Random, base: &Mailed, lines: &mut Lines, of: usize, verb: &str, named: &[usize]) {
    let names = &base.listed.names;
    let mut parts = vec![r.pick(&["+", "-"]).to_string(), names[of].clone(), verb.to_string()];
    parts.extend(named.iter().map(|&child| names[child].clone()));
    let k = place(r, lines.len());
    if r.one_in(2) {
        lines.insert(k, line_of(&parts));
    } else {
        lines[k] = line_of(&parts);
    }
}

/// A type of one of these rules, and its children.
fn some<'a>(r: &mut Random, base: &'a Mailed, kinds: &[u16]) -> Option<(usize, &'a [usize])> {
    let types = &base.listed.table.types;
    let such: Vec<usize> = (0..types.len()).filter(|&t| kinds.contains(&types[t].kind)).collect();
    if such.is_empty() {
        return None;
    }
    let of = r.pick(&such);
    Some((of, &types[of].children))
}

/// Any type but these, if there is one.
fn stranger(r: &mut Random, base: &Mailed, but: &[usize]) -> Option<usize> {
    let others: Vec<usize> = (0..base.listed.names.len()).filter(|of| !but.contains(of)).collect();
    if others.is_empty() {
        None
    } else {
        Some(r.pick(&others))
    }
}

/// This verb with a child at a type of this rule.
fn with_child(r: &mut Random, base: &Mailed, lines: &mut Lines, kind: u16, verb: &str) {
    if let Some((of, children)) = some(r, base, &[kind]) {
        let child = r.pick(children);
        put(r, base, lines, of, verb, &[child]);
    }
}

/// The same with another type than a child.
fn with_stranger(r: &mut Random, base: &Mailed, lines: &mut Lines, kind: u16, verb: &str) {
    let Some((of, children)) = some(r, base, &[kind]) else { return };
    if let Some(other) = stranger(r, base, children) {
        put(r, base, lines, of, verb, &[other]);
    }
}

fn text_at(r: &mut Random, base: &Mailed, lines: &mut Lines, kinds: &[u16]) {
    if let Some((of, _)) = some(r, base, kinds) {
        put(r, base, lines, of, "text", &[]);
    }
}

/// A replacement at a type of this rule, with each kind a child or not.
fn replace(r: &mut Random, base: &Mailed, lines: &mut Lines, kind: u16, are_children: [bool; 2]) {
    let Some((of, children)) = some(r, base, &[kind]) else { return };
    let named = are_children.map(|is_child| match is_child {
        true => Some(r.pick(children)),
        false => stranger(r, base, children),
    });
    if let [Some(from), Some(to)] = named {
        put(r, base, lines, of, "replace", &[from, to]);
    }
}

/// A replacement of a child by its own kind.
fn replace_same(r: &mut Random, base: &Mailed, lines: &mut Lines, kind: u16) {
    if let Some((of, children)) = some(r, base, &[kind]) {
        let child = r.pick(children);
        put(r, base, lines, of, "replace", &[child, child]);
    }
}

pub const WAYS: &[Way] = &[
    ("25: an insert at a choice", |r, base, lines| with_child(r, base, lines, CHOICE, "insert")),
    ("25: a delete at a choice", |r, base, lines| with_child(r, base, lines, CHOICE, "delete")),
    ("25: an insert at a sequence", |r, base, lines| with_child(r, base, lines, SEQUENCE, "insert")),
    ("25: a delete at a sequence", |r, base, lines| with_child(r, base, lines, SEQUENCE, "delete")),
    ("25: a replacement at a sequence", |r, base, lines| replace(r, base, lines, SEQUENCE, [true, true])),
    ("25: an insert at a text or an empty type", |r, base, lines| {
        let kind = r.pick(&[TEXT, EMPTY]);
        with_stranger(r, base, lines, kind, "insert")
    }),
    ("25: a text at a star or a choice", |r, base, lines| text_at(r, base, lines, &[STAR, CHOICE])),
    ("25: a text at a sequence", |r, base, lines| text_at(r, base, lines, &[SEQUENCE])),
    ("25: a text at an empty type", |r, base, lines| text_at(r, base, lines, &[EMPTY])),
    ("25: a text with a child", |r, base, lines| {
        let kind = r.pick(&[TEXT, TEXT, STAR, EMPTY]);
        with_stranger(r, base, lines, kind, "text")
    }),
    ("25: an insert of another type than the star's child", |r, base, lines| {
        with_stranger(r, base, lines, STAR, "insert")
    }),
    ("25: a delete of another type than the star's child", |r, base, lines| {
        with_stranger(r, base, lines, STAR, "delete")
    }),
    ("25: a replacement of what is no kind of the choice", |r, base, lines| {
        replace(r, base, lines, CHOICE, [false, true])
    }),
    ("25: a replacement by what is no kind of the choice", |r, base, lines| {
        replace(r, base, lines, CHOICE, [true, false])
    }),
    ("format 2: 25: a replacement at a star by another type", |r, base, lines| {
        replace(r, base, lines, STAR, [true, false])
    }),
    ("format 1: 25: a replacement at a choice by the same kind", |r, base, lines| {
        replace_same(r, base, lines, CHOICE)
    }),
    ("format 1: 25: a replacement at a star", |r, base, lines| replace_same(r, base, lines, STAR)),
    ("25: a replacement with one kind", |r, base, lines| {
        let kind = r.pick(&[STAR, CHOICE]);
        with_child(r, base, lines, kind, "replace")
    }),
    ("25: an insert with two types", |r, base, lines| {
        if let Some((of, children)) = some(r, base, &[STAR]) {
            put(r, base, lines, of, "insert", &[children[0], children[0]]);
        }
    }),
];
