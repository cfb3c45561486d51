// Situations of lines that are not one of these (25) though each of their parts is one: edits that a type does not have.

use super::super::listing::{Listing, Situation};
use super::line::parts;
use crate::format::Format::{self, One, Two};
use crate::table::{CHOICE, EMPTY, SEQUENCE, STAR, TEXT};

/// An edit that is told: the rule and the children of its type, its verb, and the types that it names.
struct Told<'a> {
    kind: u16,
    children: &'a [usize],
    verb: &'a str,
    named: Vec<usize>,
}

/// Whether the line is a sign, a type, a verb and types, and that is known of the edit.
fn told(it: &Listing, known: impl Fn(&Told) -> bool) -> bool {
    parts(it, |line, parts| {
        if parts.len() < 3 || !["+", "-"].contains(&parts[0]) {
            return false;
        }
        let named: Option<Vec<usize>> = parts[3..].iter().map(|part| line.type_of(part)).collect();
        let (Some(of), Some(named)) = (line.type_of(parts[1]), named) else { return false };
        let (kind, children) = line.rule(of);
        known(&Told { kind, children, verb: parts[2], named })
    })
}

/// Whether it is this verb at a type of this rule, and the types that it names are all children of it.
fn at(it: &Listing, kind: u16, verb: &str) -> bool {
    told(it, |told| {
        let are_children = told.named.iter().all(|child| told.children.contains(child));
        told.kind == kind && told.verb == verb && told.named.len() == 1 && are_children
    })
}

fn text_at(it: &Listing, kinds: &[u16]) -> bool {
    told(it, |told| kinds.contains(&told.kind) && told.verb == "text" && told.named.is_empty())
}

/// Whether it is a replacement at a type of this rule, and which of both kinds are children.
fn replaces(it: &Listing, kind: u16, are_children: [bool; 2]) -> bool {
    told(it, |told| {
        let own: Vec<bool> = told.named.iter().map(|child| told.children.contains(child)).collect();
        told.kind == kind && told.verb == "replace" && own == are_children
    })
}

/// Whether a child is replaced by its own kind, in this format.
fn same(it: &Listing, format: Format, kind: u16) -> bool {
    it.has(format) && replaces(it, kind, [true, true]) && told(it, |told| told.named[0] == told.named[1])
}

pub const SITUATIONS: &[Situation] = &[
    ("25: an insert at a choice", |it| at(it, CHOICE, "insert")),
    ("25: a delete at a choice", |it| at(it, CHOICE, "delete")),
    ("25: an insert at a sequence", |it| at(it, SEQUENCE, "insert")),
    ("25: a delete at a sequence", |it| at(it, SEQUENCE, "delete")),
    ("25: a replacement at a sequence", |it| replaces(it, SEQUENCE, [true, true])),
    ("25: an insert at a text or an empty type", |it| {
        told(it, |told| [TEXT, EMPTY].contains(&told.kind) && told.verb == "insert" && told.named.len() == 1)
    }),
    ("25: a text at a star or a choice", |it| text_at(it, &[STAR, CHOICE])),
    ("25: a text at a sequence", |it| text_at(it, &[SEQUENCE])),
    ("25: a text at an empty type", |it| text_at(it, &[EMPTY])),
    ("25: a text with a child", |it| told(it, |told| told.verb == "text" && !told.named.is_empty())),
    ("25: an insert of another type than the star's child", |it| {
        told(it, |told| told.kind == STAR && told.verb == "insert" && told.named.len() == 1)
    }),
    ("25: a delete of another type than the star's child", |it| {
        told(it, |told| told.kind == STAR && told.verb == "delete" && told.named.len() == 1)
    }),
    ("25: a replacement of what is no kind of the choice", |it| replaces(it, CHOICE, [false, true])),
    ("25: a replacement by what is no kind of the choice", |it| replaces(it, CHOICE, [true, false])),
    ("format 2: 25: a replacement at a star by another type", |it| {
        it.has(Two) && replaces(it, STAR, [true, false])
    }),
    ("format 1: 25: a replacement at a choice by the same kind", |it| same(it, One, CHOICE)),
    ("format 1: 25: a replacement at a star", |it| same(it, One, STAR)),
    ("25: a replacement with one kind", |it| {
        told(it, |told| told.verb == "replace" && told.named.len() == 1)
    }),
    ("25: an insert with two types", |it| told(it, |told| told.verb == "insert" && told.named.len() == 2)),
];
