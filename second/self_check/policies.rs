// Small policies: against what is read literally, against all their fully decided extensions, in another numbering and in format 2.

use super::expect;
use super::literal::{self, breaches, count_there, mended_literally, passes, reached_pairs};
use super::tickets::self_tickets;
use crate::answers::{answer, Answer, Breach};
use crate::chain::{chain, Chain};
use crate::completing::complete;
use crate::conditions::{first_breach, verdict};
use crate::forbidden_below::{forbidden_below, ForbiddenBelow};
use crate::format::Format;
use crate::making::chance::Random;
use crate::making::policies::policy;
use crate::making::schemas::{chance_numbers, schema, Schema};
use crate::mending::{judge_mend, mend, mended};
use crate::table::{check_table, Table, ALLOWED, CHOICE, FORBIDDEN, UNSET};

fn self_verdict(words: &[u16], table: &Table, marks: &[u8]) {
    let all = breaches(table, marks);
    let least = all.iter().min().copied().unwrap_or_default();
    let [of, condition, i, j, privilege] = least;
    let steps = if condition > 1 { literal::chain(table, marks, of, i, j) } else { Vec::new() };
    let (forbidden, chain) = (count_there(&all, &least), Chain::of(&steps));
    let breach = Breach { condition, of, i, j, privilege, forbidden, chain };
    expect(verdict(words, marks) == Ok(Answer { breach, ..Answer::default() }), "the first breach");
}

/// Completing is refused with the same breach, and so is a proposal of the same marks.
pub fn self_refusals(words: &[u16], marks: &[u8]) {
    let breach = answer(verdict(words, marks)).breach;
    let refusal = Answer { number: 16, breach, ..Answer::default() };
    let expected = if breach == Breach::default() { Ok(Answer::default()) } else { Err(refusal) };
    expect(complete(words, marks, &mut marks.to_vec()) == expected, "the breach told when completing");
    expect(judge_mend(words, marks, marks) == expected, "the breach told when proposing");
}

/// The question of request 8, of every type.
fn self_below(table: &Table, marks: &[u8]) {
    for y in 0..table.types.len() {
        let forbidden = literal::forbidden_below(table, marks, y);
        let lowest = forbidden.first().copied().unwrap_or(0);
        let expected = ForbiddenBelow { lowest, count: forbidden.len() };
        expect(forbidden_below(table, marks, y) == expected, "what is forbidden below a type");
    }
}

fn choices(table: &Table) -> impl Iterator<Item = usize> + '_ {
    (0..table.types.len()).filter(|&t| table.types[t].kind == CHOICE)
}

/// The chain from each position of a small choice to each that is reached from it.
fn self_chains(table: &Table, marks: &[u8]) {
    for t in choices(table).filter(|&t| table.types[t].children.len() <= 4) {
        for (i, j) in reached_pairs(table, marks, t) {
            let steps = literal::chain(table, marks, t, i, j);
            expect(chain(table, marks, t, i, j) == Chain::of(&steps), "the chain from i to j");
        }
    }
}

/// Every fully decided policy that keeps the set marks and passes.
fn clean_extensions(table: &Table, marks: &[u8]) -> Vec<Vec<u8>> {
    let unset: Vec<usize> = (0..marks.len()).filter(|&p| marks[p] == UNSET).collect();
    let extension = |bits: usize| {
        let mut decided = marks.to_vec();
        for (k, &p) in unset.iter().enumerate() {
            decided[p] = if bits >> k & 1 == 1 { ALLOWED } else { FORBIDDEN };
        }
        decided
    };
    (0..1 << unset.len()).map(extension).filter(|decided| passes(table, decided)).collect()
}

fn allows_no_more(less: &[u8], more: &[u8]) -> bool {
    less.iter().zip(more).all(|(&a, &b)| a != ALLOWED || b == ALLOWED)
}

fn completed(words: &[u16], marks: &[u8]) -> Option<Vec<u8>> {
    let mut out = marks.to_vec();
    complete(words, marks, &mut out).ok().map(|_| out)
}

/// Demand 3 literally; tells whether the policy could be completed.
fn self_completion(words: &[u16], table: &Table, marks: &[u8]) -> bool {
    let clean = clean_extensions(table, marks);
    let found = completed(words, marks);
    expect(found.is_none() == clean.is_empty(), "refused exactly if there is no clean extension");
    expect(found.is_some() == passes(table, marks), "clean exactly if it can be completed");
    if let Some(least) = &found {
        expect(clean.contains(least), "a completion passes and keeps the marks");
        expect(clean.iter().all(|decided| allows_no_more(least, decided)), "a completion is least");
    }
    found.is_some()
}

fn self_one_more(words: &[u16], marks: &[u8]) {
    let earlier = completed(words, marks);
    for p in (0..marks.len()).filter(|&p| marks[p] == UNSET) {
        for mark in [ALLOWED, FORBIDDEN] {
            let mut fuller = marks.to_vec();
            fuller[p] = mark;
            if let Some(later) = completed(words, &fuller) {
                let kept = earlier.as_ref().map_or(false, |before| allows_no_more(before, &later));
                expect(kept, "one more blank takes no permission back");
            }
        }
    }
}

fn self_mend(words: &[u16], table: &Table, marks: &[u8]) {
    let mut out = vec![9; marks.len()];
    let done = answer(mend(words, marks, &mut out));
    expect(out == mended_literally(table, marks), "a mend is what the rule gives");
    let changed: Vec<usize> = (0..marks.len()).filter(|&p| marks[p] != out[p]).collect();
    expect(passes(table, &out), "a mend ends clean");
    expect(changed.iter().all(|&p| marks[p] == ALLOWED && out[p] == FORBIDDEN), "a mend turns 1 into 2");
    expect(done == Answer { count: changed.len(), ..Answer::default() }, "a mend's count");
    expect(!passes(table, marks) || changed.is_empty(), "a clean policy is copied");
    expect(judge_mend(words, marks, &out) == Ok(done), "a mend is accepted when proposed");
}

/// The marks in another numbering of the types: each edit of a type keeps its mark.
fn carried(from: &Table, to: &Table, numbers: &[usize], marks: &[u8]) -> Vec<u8> {
    let mut after = vec![UNSET; marks.len()];
    for (p, &mark) in marks.iter().enumerate() {
        let t = from.owner[p];
        after[to.first[numbers[t]] + p - from.first[t]] = mark;
    }
    after
}

/// In another numbering a policy is clean as it was, its completion is the same, as many privileges are forbidden below each type, and
/// each chain has the same positions.
pub fn self_renumbered(r: &mut Random, schema: &Schema, table: &Table, marks: &[u8]) {
    let numbers = chance_numbers(r, table.types.len());
    let (words, other) = (schema.words(), schema.renumbered(&numbers).words());
    let to = check_table(&other).expect("an accepted table is accepted in every numbering");
    let after = carried(table, &to, &numbers, marks);
    let clean = |words: &[u16], marks: &[u8]| answer(verdict(words, marks)).breach == Breach::default();
    expect(clean(&words, marks) == clean(&other, &after), "clean in every numbering");
    let expected = completed(&words, marks).map(|out| carried(table, &to, &numbers, &out));
    expect(completed(&other, &after) == expected, "the same completion in every numbering");
    let count = |table: &Table, marks: &[u8], y: usize| forbidden_below(table, marks, y).count;
    let kept = |y: usize| count(table, marks, y) == count(&to, &after, numbers[y]);
    expect((0..numbers.len()).all(kept), "as many are forbidden below in every numbering");
    for t in choices(table) {
        let kept = |(i, j)| chain(table, marks, t, i, j) == chain(&to, &after, numbers[t], i, j);
        expect(reached_pairs(table, marks, t).into_iter().all(kept), "the same chain in every numbering");
    }
}

/// The marks of a policy of format 1 in the table of the same types in format 2, where replacements by the same kind are unset.
fn in_format_two(from: &Table, to: &Table, marks: &[u8]) -> Vec<u8> {
    let edits: Vec<usize> = (0..to.v()).filter(|&p| !to.is_same_kind(p)).collect();
    expect(edits.len() == from.v(), "format 2 has the edits of format 1 and those by the same kind");
    let mut after = vec![UNSET; to.v()];
    edits.iter().zip(marks).for_each(|(&p, &mark)| after[p] = mark);
    after
}

/// In format 2, as long as replacements by the same kind are unset, a policy is broken and mended as in format 1.
fn self_in_format_two(schema: &Schema, table: &Table, marks: &[u8]) {
    let words = Schema { format: Format::Two, types: schema.types.clone(), ..*schema }.words();
    let to = check_table(&words).expect("a small table is accepted in both formats");
    let carried = |marks: &[u8]| in_format_two(table, &to, marks);
    let (first, other) = (first_breach(table, marks), first_breach(&to, &carried(marks)));
    let known =
        |breach: Option<Breach>| breach.map(|at| (at.condition, at.of, at.i, at.j, at.forbidden, at.chain));
    expect(known(first) == known(other), "the same breach in format 2");
    let (count, after) = mended(table, marks);
    expect(mended(&to, &carried(marks)) == (count, carried(&after)), "the same mend in format 2");
}

/// All of these; tells whether the policy could be completed, and on how many tickets it was tried.
pub fn self_policy(schema: &Schema, table: &Table, marks: &[u8]) -> (bool, usize) {
    let words = schema.words();
    self_verdict(&words, table, marks);
    self_refusals(&words, marks);
    self_below(table, marks);
    self_chains(table, marks);
    self_one_more(&words, marks);
    self_mend(&words, table, marks);
    if table.format == Format::One {
        self_in_format_two(schema, table, marks);
    }
    (self_completion(&words, table, marks), self_tickets(schema, table, marks))
}

/// A small table and a policy with at most ten unset marks.
pub fn small_policy(r: &mut Random, format: Format) -> (Schema, Table, Vec<u8>) {
    loop {
        let schema = schema(r, format);
        let table = check_table(&schema.words()).expect("a shape is accepted in every numbering");
        if table.v() == 0 || table.v() > 20 || table.types.len() > 12 {
            continue;
        }
        let mut marks = policy(r, &table);
        leave_unset(r, &mut marks);
        return (schema, table, marks);
    }
}

pub fn unset(marks: &[u8]) -> usize {
    marks.iter().filter(|&&mark| mark == UNSET).count()
}

/// Unsets marks, or sets some, until there are as many unset ones as chance says, at most ten.
fn leave_unset(r: &mut Random, marks: &mut [u8]) {
    let wanted = r.below(11).min(marks.len());
    while unset(marks) != wanted {
        let p = r.below(marks.len());
        let set = r.pick(&[ALLOWED, FORBIDDEN]);
        marks[p] = if unset(marks) > wanted { set } else { UNSET };
    }
}
