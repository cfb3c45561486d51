// Document 000, definitions 3 to 7, by trial: small tickets, every edit that stays among them, and where allowed edits lead.
// In format 2 a replacement by the same kind is an edit too.

use super::expect;
use crate::completing::completion;
use crate::conditions::{first_breach, forced};
use crate::format::Format;
use crate::making::schemas::Schema;
use crate::table::{Table, Type, ALLOWED, CHOICE, FORBIDDEN, SEQUENCE, STAR, TEXT};

/// Children are in ascending order, so that what differs in the order of siblings only is equal.
#[derive(Clone, PartialEq, Eq, PartialOrd, Ord)]
struct Element {
    of: usize,
    text: u8,
    children: Vec<Element>,
}

const TEXTS: [u8; 2] = [0, 1];
const MOST_IN_STAR: usize = 2;
const MOST_TICKETS: usize = 40;

fn element(of: usize, text: u8, mut children: Vec<Element>) -> Element {
    children.sort();
    Element { of, text, children }
}

/// Each row of children with one more from `kinds`.
fn longer(rows: &[Vec<Element>], kinds: &[Element]) -> Vec<Vec<Element>> {
    let behind = |row: &[Element], last: &Element| [row, &[last.clone()]].concat();
    rows.iter().flat_map(|row| kinds.iter().map(move |last| behind(row, last))).collect()
}

fn few<T>(items: Vec<T>) -> Option<Vec<T>> {
    Some(items).filter(|items| items.len() <= MOST_TICKETS)
}

/// All small elements of a type, or nothing where they are too many: then so are the tickets.
fn elements(types: &[Type], of: usize) -> Option<Vec<Element>> {
    let below = types[of].children.iter().map(|&child| elements(types, child));
    let below = below.collect::<Option<Vec<_>>>()?;
    let none = vec![Vec::new()];
    let rows = match types[of].kind {
        SEQUENCE => below.iter().fold(Some(none), |rows, kinds| few(longer(&rows?, kinds)))?,
        CHOICE => below.concat().into_iter().map(|child| vec![child]).collect(),
        STAR => {
            let one = longer(&none, &below[0]);
            let two = longer(&one, &below[0]);
            [none, one, two].concat()
        }
        _ => none,
    };
    let texts = if types[of].kind == TEXT { &TEXTS[..] } else { &TEXTS[..1] };
    let of_text = |&text: &u8| rows.iter().map(move |row| element(of, text, row.clone()));
    let mut found: Vec<Element> = texts.iter().flat_map(of_text).collect();
    found.sort();
    found.dedup();
    few(found)
}

/// An element with another row of children.
fn with(it: &Element, children: Vec<Element>) -> Element {
    element(it.of, it.text, children)
}

fn without(it: &Element, k: usize) -> Vec<Element> {
    [&it.children[..k], &it.children[k + 1..]].concat()
}

/// The edits that exchange one child of a star for another.
fn exchanges_at(table: &Table, small: &[Vec<Element>], it: &Element) -> Vec<(usize, Element)> {
    let Some(exchange) = table.exchange(it.of) else { return Vec::new() };
    let kinds = &small[table.types[it.of].children[0]];
    let by = |k: usize| longer(&[without(it, k)], kinds);
    (0..it.children.len()).flat_map(by).map(|row| (exchange, with(it, row))).collect()
}

/// The edits at an element itself, each with the privilege that it asks for.
fn edits_at(table: &Table, small: &[Vec<Element>], it: &Element) -> Vec<(usize, Element)> {
    let (of, own) = (it.of, &table.types[it.of]);
    match own.kind {
        TEXT => TEXTS.iter().map(|&text| (table.first[of], element(of, text, Vec::new()))).collect(),
        STAR => {
            let more = |new: &Element| with(it, [&it.children[..], &[new.clone()]].concat());
            let has_room = it.children.len() < MOST_IN_STAR;
            let room = if has_room { &small[own.children[0]][..] } else { &[] };
            let inserts = room.iter().map(|new| (table.insert(of), more(new)));
            let less = |k: usize| with(it, without(it, k));
            let deletes = (0..it.children.len()).map(|k| (table.delete(of), less(k)));
            inserts.chain(deletes).chain(exchanges_at(table, small, it)).collect()
        }
        CHOICE => {
            let position = |of: usize| own.children.iter().position(|&child| child == of);
            let i = position(it.children[0].of).expect("a choice's child is of one of its kinds");
            let others = (0..own.children.len()).filter(|&j| table.format.is_replaceable(i, j));
            let by = |j: usize| {
                let new = small[own.children[j]].iter();
                new.map(move |new| (table.replacement(of, i, j), with(it, vec![new.clone()])))
            };
            others.flat_map(by).collect()
        }
        _ => Vec::new(),
    }
}

/// The edits at an element or somewhere below it.
fn edits(table: &Table, small: &[Vec<Element>], it: &Element) -> Vec<(usize, Element)> {
    let mut found = edits_at(table, small, it);
    for (k, child) in it.children.iter().enumerate() {
        for (privilege, new) in edits(table, small, child) {
            found.push((privilege, with(it, [without(it, k), vec![new]].concat())));
        }
    }
    found
}

/// The tickets that allowed edits lead to from one.
fn led_to(steps: &[Vec<(usize, usize)>], marks: &[u8], from: usize) -> Vec<bool> {
    let mut found = vec![false; steps.len()];
    let mut waiting = vec![from];
    while let Some(ticket) = waiting.pop() {
        if !found[ticket] {
            found[ticket] = true;
            let allowed = steps[ticket].iter().filter(|step| marks[step.0] == ALLOWED);
            waiting.extend(allowed.map(|step| step.1));
        }
    }
    found
}

/// Which privileges have an edit that changes some ticket and that allowed edits imitate.
fn imitated(steps: &[Vec<(usize, usize)>], marks: &[u8]) -> Vec<bool> {
    let mut found = vec![false; marks.len()];
    for (from, edits) in steps.iter().enumerate() {
        let led = led_to(steps, marks, from);
        for step in edits.iter().filter(|step| step.1 != from && led[step.1]) {
            found[step.0] = true;
        }
    }
    found
}

/// Theorem 1.
fn self_theorem(table: &Table, marks: &[u8], done: &[bool]) {
    let forbidden = (0..marks.len()).any(|p| done[p] && marks[p] == FORBIDDEN);
    let broken = first_breach(table, marks).is_some();
    expect(broken == forbidden, "a breach exactly if a forbidden edit is imitated");
}

/// What is left of it in format 2: in a clean policy a forbidden edit that is imitated replaces by the same kind; and a
/// privilege that breaks a condition is imitated, but where it replaces by the same kind and that has one tree only.
fn self_same_kinds(table: &Table, marks: &[u8], done: &[bool], one_tree: impl Fn(usize) -> bool) {
    let is_forbidden = |p: &usize| marks[*p] == FORBIDDEN;
    let mut imitated = (0..marks.len()).filter(|&p| done[p]).filter(is_forbidden);
    let clean = first_breach(table, marks).is_none();
    expect(!clean || imitated.all(|p| table.is_same_kind(p)), "a forbidden edit is imitated");
    let mut broken = forced(table, marks).map(|it| it.privilege).filter(is_forbidden);
    expect(broken.all(|p| done[p] || one_tree(p)), "a breach is imitated");
}

/// The kind that a privilege replaces by itself.
fn kind_of(table: &Table, privilege: usize) -> Option<usize> {
    let of = table.owner[privilege];
    let children = &table.types[of].children;
    match table.types[of].kind {
        STAR => Some(children[0]),
        _ => (0..children.len()).find(|&i| table.replacement(of, i, i) == privilege).map(|i| children[i]),
    }
    .filter(|_| table.is_same_kind(privilege))
}

/// What can be imitated, by what is granted (allowed or forced) and by which privileges can change a ticket. But for
/// replacements by the same kind it is what is granted. Such a one is imitated if the kind has two trees and it is granted or
/// an allowed edit below changes one of them.
fn imitable(table: &Table, marks: &[u8], granted: &[bool], changing: &[bool]) -> Vec<bool> {
    let changed = |kind: usize| table.below[kind].iter().any(|&q| marks[q] == ALLOWED && changing[q]);
    let of = |p: usize| match kind_of(table, p) {
        None => granted[p],
        Some(kind) => granted[p] && changing[p] || changed(kind),
    };
    (0..table.v()).map(of).collect()
}

/// Which privileges have an edit that changes some ticket.
fn changing(steps: &[Vec<(usize, usize)>], v: usize) -> Vec<bool> {
    imitated(steps, &vec![ALLOWED; v])
}

/// Theorem 1, edit by edit; gives the number of tickets, 0 where they are too many.
pub fn self_tickets(schema: &Schema, table: &Table, marks: &[u8]) -> usize {
    let small = (0..table.types.len()).map(|t| elements(&table.types, t));
    let Some(small) = small.collect::<Option<Vec<_>>>() else { return 0 };
    let tickets = &small[schema.root];
    let at = |ticket: &Element| tickets.binary_search(ticket).expect("an edit leaves a ticket");
    let step = |(privilege, new): (usize, Element)| (privilege, at(&new));
    let steps_of = |ticket: &Element| edits(table, &small, ticket).into_iter().map(step).collect();
    let steps: Vec<Vec<(usize, usize)>> = tickets.iter().map(steps_of).collect();
    let done = imitated(&steps, marks);
    let mut granted: Vec<bool> = marks.iter().map(|&mark| mark == ALLOWED).collect();
    forced(table, marks).for_each(|it| granted[it.privilege] = true);
    let changing = changing(&steps, table.v());
    let one_tree = |p: usize| kind_of(table, p).map_or(false, |kind| small[kind].len() == 1);
    expect((0..table.v()).all(|p| changing[p] != one_tree(p)), "only a kind of one tree cannot be changed");
    expect(done == imitable(table, marks, &granted, &changing), "what can be imitated");
    let allowed: Vec<bool> = completion(table, marks).iter().map(|&mark| mark == ALLOWED).collect();
    expect(granted == allowed, "a completion allows what is granted");
    match table.format {
        Format::One => self_theorem(table, marks, &done),
        Format::Two => self_same_kinds(table, marks, &done, one_tree),
    }
    tickets.len()
}
