// Situations of listings that are written or read (request 10): their sizes, the edits that their lines tell, and the names in these.

use super::listing::{Listing, Situation};
use crate::carrying::{Edit, Kind};
use crate::dtd::limits::MOST_NAME_BYTES;
use crate::format::Format::{self, One, Two};
use crate::listing::Listed;
use crate::table::{ALLOWED, CHOICE, FORBIDDEN, STAR, UNSET};

const VERBS: [&str; 4] = ["text", "insert", "delete", "replace"];

/// Whether the call is done and there are privileges.
fn is_listed(it: &Listing) -> bool {
    it.is_done() && it.v() > 0
}

/// Whether each of two marks or more is such.
fn all(it: &Listing, known: impl Fn(u8) -> bool) -> bool {
    it.marks.len() > 1 && it.marks.iter().all(|&mark| known(mark))
}

/// The privileges that are set.
fn set(it: &Listing) -> Vec<usize> {
    (0..it.marks.len()).filter(|&privilege| it.marks[privilege] != UNSET).collect()
}

/// Whether one privilege of several alone is set, and it is this one.
fn alone(it: &Listing, privilege: usize) -> bool {
    it.v() > 1 && set(it) == [privilege]
}

fn is_made(listed: &Listed, of: usize) -> bool {
    of >= listed.declared
}

fn kind(listed: &Listed, edit: &Edit) -> u16 {
    listed.table.types[edit.of].kind
}

/// Whether a set privilege is for such an edit at a type of this rule, in this format.
fn edits(it: &Listing, format: Format, rule: u16, edit: Kind) -> bool {
    it.has(format) && it.any(|listed, own| kind(listed, own) == rule && own.kind == edit)
}

/// Whether, in format 2, a choice's kind is replaced by itself.
fn is_same(listed: &Listed, edit: &Edit) -> bool {
    kind(listed, edit) == CHOICE && edit.children[0] == edit.children[1]
}

/// Whether a type of a set edit is made or not, and a child that it names is.
fn is_made_of(it: &Listing, of: bool, child: bool) -> bool {
    it.any(|listed, edit| {
        is_made(listed, edit.of) == of && edit.children.iter().any(|&x| is_made(listed, x) == child)
    })
}

/// Whether at a star this edit is set and these are not.
fn without(it: &Listing, set: Kind, unset: &[Kind]) -> bool {
    let edits = it.edits();
    let is_unset = |of: usize| !edits.iter().any(|edit| edit.of == of && unset.contains(&edit.kind));
    it.any(|listed, edit| kind(listed, edit) == STAR && edit.kind == set && is_unset(edit.of))
}

/// Whether a set edit names a type of which that is known.
fn names(it: &Listing, known: impl Fn(&Listed, &str) -> bool) -> bool {
    it.any(|listed, edit| {
        let mut types = edit.children.iter().chain([&edit.of]);
        types.any(|&of| known(listed, &listed.names[of]))
    })
}

/// Whether set edits at two types name the same child.
fn is_shared(it: &Listing) -> bool {
    let edits = it.edits();
    let is_with = |one: &Edit, other: &Edit| {
        one.of < other.of && one.children.iter().any(|child| other.children.contains(child))
    };
    edits.iter().any(|one| edits.iter().any(|other| is_with(one, other)))
}

/// Whether of the types of all set edits so many are different.
fn types(it: &Listing, count: usize) -> bool {
    let mut types: Vec<usize> = it.edits().iter().map(|edit| edit.of).collect();
    types.dedup();
    types.len() >= count
}

fn begins_another(listed: &Listed, name: &str) -> bool {
    let begins = |other: &String| other.len() > name.len() && other.starts_with(name);
    !name.starts_with('#') && listed.names.iter().any(begins)
}

fn has_other_case(listed: &Listed, name: &str) -> bool {
    listed.names.iter().any(|other| other != name && other.eq_ignore_ascii_case(name))
}

pub const SITUATIONS: &[Situation] = &[
    ("format 1: done", |it| is_listed(it) && it.has(One)),
    ("format 2: done", |it| is_listed(it) && it.has(Two)),
    ("V 0", |it| it.is_done() && it.v() == 0),
    ("format 1: an empty listing", |it| is_listed(it) && it.has(One) && it.listing.is_empty()),
    ("format 2: an empty listing", |it| is_listed(it) && it.has(Two) && it.listing.is_empty()),
    ("format 1: a full listing", |it| it.has(One) && all(it, |mark| mark != UNSET)),
    ("format 2: a full listing", |it| it.has(Two) && all(it, |mark| mark != UNSET)),
    ("all allowed", |it| all(it, |mark| mark == ALLOWED)),
    ("all forbidden", |it| all(it, |mark| mark == FORBIDDEN)),
    ("each of the three marks", |it| [UNSET, ALLOWED, FORBIDDEN].iter().all(|mark| it.marks.contains(mark))),
    ("the first privilege alone", |it| alone(it, 0)),
    ("the last privilege alone", |it| it.v() > 0 && alone(it, it.v() - 1)),
    ("ten lines or more", |it| set(it).len() > 9),
    ("lines of three types or more", |it| types(it, 3)),
    ("a text", |it| it.any(|_, edit| edit.kind == Kind::Text)),
    ("an insert without its delete", |it| without(it, Kind::Insert, &[Kind::Delete])),
    ("a delete without its insert", |it| without(it, Kind::Delete, &[Kind::Insert])),
    ("format 1: a replacement at a choice", |it| edits(it, One, CHOICE, Kind::Replace)),
    ("format 2: a replacement at a choice by another kind", |it| {
        it.any(|listed, edit| it.has(Two) && kind(listed, edit) == CHOICE && !is_same(listed, edit))
    }),
    ("format 2: a replacement at a choice by the same kind", |it| it.any(is_same)),
    ("format 2: a replacement at a star", |it| edits(it, Two, STAR, Kind::Replace)),
    ("format 2: a star's replacement alone", |it| without(it, Kind::Replace, &[Kind::Insert, Kind::Delete])),
    ("a made star", |it| it.any(|listed, edit| is_made(listed, edit.of) && kind(listed, edit) == STAR)),
    ("a made choice", |it| it.any(|listed, edit| is_made(listed, edit.of) && kind(listed, edit) == CHOICE)),
    ("a made child of a declared type", |it| is_made_of(it, false, true)),
    ("a made child of a made type", |it| is_made_of(it, true, true)),
    ("a declared child of a made type", |it| is_made_of(it, true, false)),
    ("a replacement of a made kind by a declared one", |it| {
        it.any(|listed, edit| {
            edit.children.len() == 2
                && is_made(listed, edit.children[0])
                && !is_made(listed, edit.children[1])
        })
    }),
    ("a replacement of a made kind by a made one", |it| {
        it.any(|listed, edit| edit.children.len() == 2 && edit.children.iter().all(|&x| is_made(listed, x)))
    }),
    ("a made type of one digit", |it| names(it, |_, name| name.starts_with('#') && name.len() == 2)),
    ("a made type of two digits", |it| names(it, |_, name| name.starts_with('#') && name.len() == 3)),
    ("a child of two types", is_shared),
    ("a name of one byte", |it| names(it, |_, name| name.len() == 1)),
    ("a name of 32 bytes", |it| names(it, |_, name| name.len() == MOST_NAME_BYTES)),
    ("a name that is a verb", |it| names(it, |_, name| VERBS.contains(&name))),
    ("a name that begins another", |it| names(it, begins_another)),
    ("names that differ in case only", |it| names(it, has_other_case)),
];
